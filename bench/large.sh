#!/usr/bin/env bash
# Runs bench/fish.brasil, whose fish see 10 units far, over squares of 1,000 to 100,000 fish of two
# densities, in one part, in eight strips and in 8 x 8 parts, on one worker, and writes the processor
# seconds of a tick into docs/PERFORMANCE.md.
set -eu
top=$(cd "$(dirname "$0")/.." && pwd)
"$top/brace" check --script "$top/bench/fish.brasil"
# The program that ./brace runs.
program=$top/out/brace-$("$top/tools/sum.sh")
[ -x "$program" ] || program=$top/dist/brace
PYTHONPATH=$top/bench python3 - "$program" "$top/bench/fish.brasil" <<'P'
import math, os, random, subprocess, sys, tempfile
from measure import written
program, script = sys.argv[1:]
RUNS, TICKS = 2, 2
draw = random.Random(7).random


def processor(words):
    """The least processor seconds of two runs."""
    least = math.inf
    for _ in range(RUNS):
        process = subprocess.Popen(words, stdout=subprocess.DEVNULL)
        _, status, usage = os.wait4(process.pid, 0)
        if status != 0:
            raise SystemExit(f"{words} ended with status {status}")
        least = min(least, usage.ru_utime + usage.ru_stime)
    return least


def tick(agents, plan):
    """Processor seconds of a tick: of a run of one less one of none."""
    words = [program, "run", "--script", script, "--agents", agents, "--every", "1000"]
    words += ["--cuts", plan] if plan else []
    return (processor([*words, "--ticks", str(TICKS)]) - processor([*words, "--ticks", "0"])) / TICKS


def cuts(side, count):
    return " ".join(f"{side * k / count:.3f}" for k in range(1, count))


lines = ["| agents | others in sight | one part | eight strips | 8 x 8 parts |", "|---|---|---|---|---|"]
with tempfile.TemporaryDirectory() as work:
    agents, plan = os.path.join(work, "a"), os.path.join(work, "k")
    for sight in (8, 80):
        for count in (1_000, 10_000, 100_000):
            side = 20 * math.sqrt(count / sight)
            with open(agents, "w") as file:
                for number in range(count):
                    file.write(f"Fish,{number},{draw() * side:.3f},{draw() * side:.3f},0.5,-0.5\n")
            cells = [f"{tick(agents, None):.3f}"]
            for across, up in ((8, 1), (8, 8)):
                with open(plan, "w") as file:
                    file.write(f"at 0 x {cuts(side, across)} y {cuts(side, up)}".rstrip() + "\n")
                cells.append(f"{tick(agents, plan):.3f}")
            lines.append(f"| {count:,} | {sight} | {' | '.join(cells)} |")
            print(lines[-1], flush=True)
written("Large worlds, measured", lines, f"processor seconds of a tick, least of {RUNS} runs")
P
