#!/usr/bin/env bash
# Runs bench/fish.brasil over 20,000 fish, as it is and with some 200 births and 200 deaths a tick, in
# one part on one worker and in four strips on four, and writes seconds a tick, and how many times the
# script without births and deaths took, into docs/PERFORMANCE.md.
set -eu
top=$(cd "$(dirname "$0")/.." && pwd)
"$top/brace" check --script "$top/bench/fish.brasil"
# The program that ./brace runs.
program=$top/out/brace-$("$top/tools/sum.sh")
[ -x "$program" ] || program=$top/dist/brace
PYTHONPATH=$top/bench python3 - "$program" "$top/bench/fish.brasil" <<'P'
import os
import random
import subprocess
import sys
import tempfile
import time
from measure import written

program, script = sys.argv[1:]
ROUNDS, TICKS, COUNT, SIDE = 9, 5, 20_000, 1000
RENEWED = "die when rand() < 0.01; spawn when rand() < 0.01 { x <- x + 1.0; }"
draw = random.Random(7).random


def seconds(words):
    start = time.monotonic()
    subprocess.run(words, stdout=subprocess.DEVNULL, check=True)
    return time.monotonic() - start


def tick(script, agents, more):
    """Seconds a tick: the least of several runs, without what a run of no tick takes."""
    words = [program, "run", "--script", script, "--agents", agents, "--every", "1000", *more]
    least = lambda ticks: min(seconds([*words, "--ticks", str(ticks)]) for _ in range(ROUNDS))
    return (least(TICKS) - least(0)) / TICKS


lines = ["| | one part | x | four strips, four workers | x |", "|---|---|---|---|---|"]
before = None
with tempfile.TemporaryDirectory() as work:
    agents, plan, renewed = (os.path.join(work, name) for name in ("a", "k", "s"))
    with open(agents, "w") as file:
        for number in range(COUNT):
            file.write(f"Fish,{number},{draw() * SIDE:.6f},{draw() * SIDE:.6f},0,0\n")
    with open(plan, "w") as file:
        file.write("at 0 x 250 500 750 y\n")
    with open(script) as given, open(renewed, "w") as file:
        file.write(given.read().rstrip().removesuffix("}") + RENEWED + "\n}\n")
    for what, text in (("no births", script), ("births and deaths", renewed)):
        now = tick(text, agents, []), tick(text, agents, ["--cuts", plan, "--workers", "4"])
        times = [f"{b / a:.2f}" for a, b in zip(before, now)] if before else ["", ""]
        lines.append(f"| {what} | {now[0]:.4f} | {times[0]} | {now[1]:.4f} | {times[1]} |")
        print(lines[-1], flush=True)
        before = now
written("Births and deaths", lines, f"{COUNT:,} fish, least of {ROUNDS} runs of {TICKS} ticks")
P
