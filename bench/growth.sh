#!/usr/bin/env bash
# Runs bench/fish.brasil, the script of the trial, over squares of 15,625 to 1,000,000 fish of one
# density (as many in sight as in the trial with 20,000), in one part on one worker and in four
# strips on four, and writes seconds a tick, and how many times the world of half as many took, into
# docs/PERFORMANCE.md.
set -eu
top=$(cd "$(dirname "$0")/.." && pwd)
"$top/brace" check --script "$top/bench/fish.brasil"
# The program that ./brace runs.
program=$top/out/brace-$("$top/tools/sum.sh")
[ -x "$program" ] || program=$top/dist/brace
PYTHONPATH=$top/bench python3 - "$program" "$top/bench/fish.brasil" <<'P'
import collections
import math
import os
import random
import subprocess
import sys
import tempfile
import time
from measure import written

program, script = sys.argv[1:]
TICKS = 10
# How many fish, and how often they are run.
ROUNDS = {
    15_625: 25,
    31_250: 25,
    62_500: 15,
    125_000: 9,
    250_000: 7,
    500_000: 5,
    1_000_000: 3,
}
draw = random.Random(7).random


def seconds(words):
    start = time.monotonic()
    subprocess.run(words, stdout=subprocess.DEVNULL, check=True)
    return time.monotonic() - start


def worlds(folder):
    """The words of a run for each world: in one part on one worker, and in four strips on four."""
    for count in ROUNDS:
        side = 1000 * math.sqrt(count / 20_000)
        agents, plan = (os.path.join(folder, f"{kind}{count}") for kind in "ak")
        with open(agents, "w") as file:
            for number in range(count):
                file.write(f"Fish,{number},{draw() * side:.6f},{draw() * side:.6f},0,0\n")
        with open(plan, "w") as file:
            file.write("at 0 x " + " ".join(f"{side * k / 4:.3f}" for k in (1, 2, 3)) + " y\n")
        run = [program, "run", "--script", script, "--agents", agents, "--every", "1000"]
        yield count, (run, [*run, "--cuts", plan, "--workers", "4"])


# The least seconds of each run, with no tick and with some. The worlds take turns, so that a slower
# minute of the machine slows all of them.
least = collections.defaultdict(lambda: math.inf)
with tempfile.TemporaryDirectory() as folder:
    runs = list(worlds(folder))
    for turn in range(max(ROUNDS.values())):
        for count, pair in runs:
            if turn >= ROUNDS[count]:
                continue
            for way, words in enumerate(pair):
                for ticks in (0, TICKS):
                    key = count, way, ticks
                    least[key] = min(least[key], seconds([*words, "--ticks", str(ticks)]))

lines = ["| agents | one part | x | four strips, four workers | x |", "|---|---|---|---|---|"]
before = None
for count in ROUNDS:
    now = [(least[count, way, TICKS] - least[count, way, 0]) / TICKS for way in (0, 1)]
    times = [f"{b / a:.2f}" for a, b in zip(before, now)] if before else ["", ""]
    lines.append(f"| {count:,} | {now[0]:.4f} | {times[0]} | {now[1]:.4f} | {times[1]} |")
    before = now
most, fewest = max(ROUNDS.values()), min(ROUNDS.values())
how = f"least of {most} to {fewest} runs of {TICKS} ticks, the worlds in turn"
written("Growth at one density", lines, how)
P
