#!/usr/bin/env bash
# Runs `trial`, whose plane is cut into eight strips, with 20,000 and 200,000 agents on 1, 2 and 4
# workers in turn, and writes the seconds of a tick over one epoch with its end (what two ticks and
# the start take is taken off), the peak memory, how many times faster that is than one worker, and
# how many times the work of one run as many runs with one worker do at once, which have nothing in
# common, into docs/PERFORMANCE.md.
set -eu
top=$(cd "$(dirname "$0")/.." && pwd)
"$top/brace" trial --count 1 --ticks 0 >/dev/null
# The program that ./brace runs.
program=$top/out/brace-$("$top/tools/sum.sh")
[ -x "$program" ] || program=$top/dist/brace
PYTHONPATH=$top/bench python3 - "$program" <<'P'
import collections
import math
import os
import subprocess
import sys
import time
from measure import written

program = sys.argv[1]
START, TICKS, WORKERS = 2, 16, (1, 2, 4)
# How many workers a run has, and how many runs there are at once.
KINDS = (1, 1), (2, 1), (4, 1), (1, 2), (1, 4)
ROUNDS = {20_000: 40, 200_000: 4}


def run(count, workers, copies, ticks):
    """The seconds of so many runs at once, and the most memory that one of them held, in MiB."""
    sizes = "--count", str(count), "--ticks", str(ticks), "--workers", str(workers)
    words = [program, "trial", *sizes]
    start, most = time.monotonic(), 0.0
    for process in [subprocess.Popen(words, stdout=subprocess.DEVNULL) for _ in range(copies)]:
        _, status, usage = os.wait4(process.pid, 0)
        if status != 0:
            raise SystemExit(f"trial {sizes} ended with status {status}")
        most = max(most, usage.ru_maxrss / 1024)
    return time.monotonic() - start, most


lines = [
    "| agents | workers | seconds a tick | MiB | times faster | as many runs at once do |",
    "|---|---|---|---|---|---|",
]
for count, rounds in ROUNDS.items():
    # The least of each, since other work only adds. All take turns.
    least, most = collections.defaultdict(lambda: math.inf), collections.defaultdict(float)
    for _ in range(rounds):
        for workers, copies in KINDS:
            for ticks in (START, START + TICKS):
                seconds, mib = run(count, workers, copies, ticks)
                one = workers, copies, ticks
                least[one] = min(least[one], seconds)
                most[workers] = max(most[workers], mib)
    tick = {(w, c): (least[w, c, START + TICKS] - least[w, c, START]) / TICKS for w, c in KINDS}
    for it in WORKERS:
        faster, copies = tick[1, 1] / tick[it, 1], it * tick[1, 1] / tick[1, it]
        cells = f"{tick[it, 1]:.4f} | {most[it]:.0f} | {faster:.2f} | {copies:.2f}"
        lines.append(f"| {count:,} | {it} | {cells} |")
how = f"least of {' and of '.join(map(str, ROUNDS.values()))} runs in turn"
written("A tick of the trial on several workers, in eight strips", lines, how)
P
