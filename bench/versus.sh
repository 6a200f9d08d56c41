#!/usr/bin/env bash
# FISH=PROGRAM bench/versus.sh [AGENTS..]: runs `trial` and the same model written by hand in Rust in
# turn, and writes seconds a tick and the median ratio into docs/PERFORMANCE.md. PROGRAM takes
# `COUNT TICKS SEED THREADS plain` and prints the trial's line. Measure on an idle machine.
set -eu
top=$(cd "$(dirname "$0")/.." && pwd)
[ -x "${FISH:-}" ] || { echo "set FISH to the hand-written program" >&2; exit 1; }
"$top/brace" trial --count 1 --ticks 0 >/dev/null
# The program that ./brace runs.
program=$top/out/brace-$("$top/tools/sum.sh")
[ -x "$program" ] || program=$top/dist/brace
PYTHONPATH=$top/bench python3 - "$program" "$FISH" "${@:-2000 20000 200000}" <<'P'
import re
import statistics
import subprocess
import sys
import time
from measure import written

program, fish, *counts = sys.argv[1:]
ROUNDS, TICKS = 5, 10


def run(words):
    """The seconds of a run, and the sums of the last world."""
    start = time.monotonic()
    done = subprocess.run(words, capture_output=True, text=True, check=True)
    return time.monotonic() - start, re.findall(r"\bx (-?\d+) y (-?\d+)", done.stdout)[-1]


def tick(words_for):
    """Seconds a tick, without what two ticks and the start take, and the sums."""
    start, _ = run(words_for(2))
    whole, sums = run(words_for(2 + TICKS))
    return max(whole - start, 1e-6) / TICKS, sums


lines = ["| agents | workers | seconds a tick | by hand | ratio |", "|---|---|---|---|---|"]
for count in " ".join(counts).split():
    for workers in ("1", "4"):
        ours = lambda ticks: [program, "trial", "--count", count, "--ticks", str(ticks), "--workers", workers]
        hand = lambda ticks: [fish, count, str(ticks), "0", workers, "plain"]
        rounds = []
        for _ in range(ROUNDS):
            (a, sums), (b, same) = tick(ours), tick(hand)
            if sums != same:
                raise SystemExit(f"other sums: {sums} and {same}")
            rounds.append((a, b))
        ratio = statistics.median(a / b for a, b in rounds)
        a, b = (statistics.median(each) for each in zip(*rounds))
        lines.append(f"| {int(count):,} | {workers} | {a:.4f} | {b:.4f} | {ratio:.2f} |")
        print(lines[-1], flush=True)
written("The trial beside the same model written by hand", lines, f"median of {ROUNDS} rounds in turn")
P
