#!/usr/bin/env bash
# Runs 100,000 fish over a plane of 64 boxes, of which each tick is published, without watched
# figures and with 1, 8 and 64 of them, and writes the seconds a tick and what the figures cost of it
# into docs/PERFORMANCE.md.
set -eu
top=$(cd "$(dirname "$0")/.." && pwd)
work=$(mktemp -d)
trap 'rm -rf "$work"' EXIT
cp "$top/bench/fish.brasil" "$work/s"
"$top/brace" check --script "$work/s"
# The program that ./brace runs.
program=$top/out/brace-$("$top/tools/sum.sh")
[ -x "$program" ] || program=$top/dist/brace
PYTHONPATH=$top/bench python3 - "$program" "$work" <<'P'
import random
import statistics
import subprocess
import sys
import time
from measure import written
program, work = sys.argv[1:]
AGENTS, SIDE, TICKS = 100_000, 1000, 5
KINDS = ["count Fish", "count Fish where vx > 0.5", "sum Fish vx", "sum Fish x where y < 500",
         "min Fish x", "max Fish y", "min Fish vy where x >= 250", "max Fish vx where vy <= 0"]
draw = random.Random(1)
with open(f"{work}/a", "w") as file:
    for i in range(AGENTS):
        x, y = (f"{draw.randrange(SIDE)}.{draw.randrange(10**6):06}" for _ in "xy")
        file.write(f"Fish,{i},{x},{y},0,0\n")
cuts = " ".join(str(SIDE * i // 8) for i in range(1, 8))
with open(f"{work}/k", "w") as file:
    file.write(f"at 0 x {cuts} y {cuts}\n")
ROUNDS = 9
commands = {}
for count in (0, 1, 8, 64):
    words = [program, "run", "--script", f"{work}/s", "--agents", f"{work}/a",
             "--cuts", f"{work}/k"]
    if count:
        with open(f"{work}/w{count}", "w") as file:
            file.writelines(f"{KINDS[i % len(KINDS)]}\n" for i in range(count))
        words += ["--watch", f"{work}/w{count}"]
    commands[count] = words


def seconds(words, ticks):
    start = time.monotonic()
    subprocess.run([*words, "--ticks", str(ticks)], stdout=subprocess.DEVNULL, check=True)
    return time.monotonic() - start


# What is read and written at tick 0 is no part of a tick. All are run in turn, round by round.
rounds = [{count: (seconds(words, TICKS) - seconds(words, 0)) / TICKS
           for count, words in commands.items()} for _ in range(ROUNDS)]
lines = ["| figures | seconds a tick | for the figures | of the tick |", "|---|---|---|---|"]
ticks = {count: statistics.median(each[count] for each in rounds) for count in commands}
for count, tick in ticks.items():
    more = tick - ticks[0]
    lines.append(f"| {count} | {tick:.3f} | {more:.3f} | {more / ticks[0]:.1%} |")
written("Watched figures of 100,000 fish in 64 boxes", lines, f"median of {ROUNDS} rounds in turn")
P
