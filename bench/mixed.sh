#!/usr/bin/env bash
# Runs each script of bench/mixed (two classes, two loops, all combinators, draws in queries, deaths,
# births) over squares of one density, by `run` and by the plain step, which `audit` does, and writes
# seconds a tick, and how many times the world of half as many took, into docs/PERFORMANCE.md.
set -eu
top=$(cd "$(dirname "$0")/.." && pwd)
"$top/brace" check --script "$top/bench/fish.brasil"
# The program that ./brace runs.
program=$top/out/brace-$("$top/tools/sum.sh")
[ -x "$program" ] || program=$top/dist/brace
PYTHONPATH=$top/bench python3 - "$program" "$top/bench/mixed" <<'P'
import math
import os
import random
import subprocess
import sys
import tempfile
import time
from measure import written

program, folder = sys.argv[1:]
ROUNDS, TICKS = 3, 5
# Values of the states behind x and y, for each class, by script.
WORLDS = {
    "classes": [("Prey", ""), ("Hunter", "")],
    "loops": [("Node", ",0")],
    "folds": [("Walker", ",0,0,0")],
    "draws": [("Gossip", ",true"), ("Gossip", ",false"), ("Gossip", ",false")],
    "deaths": [("Cell", "")],
    "births": [("Cell", ",0")],
}
# Agents a square unit: some 8 in sight.
DENSITY = {"loops": 0.12, "deaths": 0.12, "births": 0.12}


def seconds(words):
    start = time.monotonic()
    subprocess.run(words, stdout=subprocess.DEVNULL, check=True)
    return time.monotonic() - start


def least(words_for):
    """Seconds a tick: the least of several runs, without what a run of no tick takes."""
    times = [min(seconds(words_for(ticks)) for _ in range(ROUNDS)) for ticks in (0, TICKS)]
    return (times[1] - times[0]) / TICKS


def agents(name, count, path):
    """Writes an agent file; how large its square is."""
    draw = random.Random(7).random
    side = math.sqrt(count / DENSITY.get(name, 0.05))
    kinds = WORLDS[name]
    with open(path, "w") as file:
        for number in range(count):
            kind, more = kinds[number % len(kinds)]
            file.write(f"{kind},{number},{draw() * side:.6f},{draw() * side:.6f}{more}\n")


def run_tick(name, path):
    words = [program, "run", "--script", f"{folder}/{name}.brasil", "--agents", path, "--every", "1000"]
    return least(lambda ticks: [*words, "--ticks", str(ticks)])


def plain_tick(name, path, work):
    rows = os.path.join(work, "rows")
    base = ["--script", f"{folder}/{name}.brasil", "--agents", path, "--every", "1000"]

    def words(ticks):
        with open(rows + str(ticks), "w") as file:
            subprocess.run([program, "run", *base, "--ticks", str(ticks)], stdout=file, check=True)
        return [program, "audit", *base, "--ticks", str(ticks), "--published", rows + str(ticks)]

    return least(words)


lines = ["| script | agents | run | x | agents | plain step | x |", "|---|---|---|---|---|---|---|"]
with tempfile.TemporaryDirectory() as work:
    path = os.path.join(work, "a")
    for name in WORLDS:
        before = None
        for run_count, plain_count in ((10_000, 1_000), (20_000, 2_000), (40_000, 4_000)):
            agents(name, run_count, path)
            run = run_tick(name, path)
            agents(name, plain_count, path)
            plain = plain_tick(name, path, work)
            times = [f"{b / a:.2f}" for a, b in zip(before, (run, plain))] if before else ["", ""]
            lines.append(f"| {name} | {run_count:,} | {run:.4f} | {times[0]} | {plain_count:,} | {plain:.4f} | {times[1]} |")
            print(lines[-1], flush=True)
            before = run, plain
written("Scripts of many kinds, and the plain step", lines, f"least of {ROUNDS} runs of {TICKS} ticks")
P
