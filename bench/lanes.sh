#!/usr/bin/env bash
# Times names on lanes between threads, and writes names a second into docs/PERFORMANCE.md: between
# two actors on two threads, and in a ring of 16 actors, in which each puts a name to both of its
# neighbours and takes one from both in each step, on 16 threads and on as many as there are
# processors.
#
# The program, bench/lanes/main.txt, is not proved. It is added as a crate to a copy of those below
# it, and rt compiles it with checks. It reads a monotonic clock before its threads start and behind
# their end.
set -eu
top=$(cd "$(dirname "$0")/.." && pwd)
work=$(mktemp -d)
trap 'rm -rf "$work"' EXIT
mkdir -p "$work/crates/bench_lanes/src"
cp "$top/HANDLES" "$work"
cp "$top/bench/lanes/main.txt" "$work/crates/bench_lanes/src/main.rt"
for crate in brace_num brace_core brace_lanes; do
  cp -r "$top/crates/$crate" "$work/crates"
  grep "^$crate:" "$top/crates.txt" >>"$work/crates.txt"
done
echo "bench_lanes: brace_num brace_core brace_lanes" >>"$work/crates.txt"
PYTHONPATH=$top/bench python3 - "$work/crates/bench_lanes" <<'P'
import os, subprocess, sys
from measure import RUNS, written
# Threads, actors and steps.
CASES = ((2, 2, 50_000), (16, 16, 1_000), (min(os.cpu_count(), 16), 16, 1_000))
words = [str(word) for case in CASES for word in case]
command = ["rt", "try", "--seconds", "600", "--", str(RUNS), *words]
pipe = subprocess.PIPE
said = subprocess.run(command, cwd=sys.argv[1], stdout=pipe, check=True, text=True).stdout
rounds = [tuple(map(int, line.split())) for line in said.splitlines() if line[:1].isdigit()]
rows = [
    "By a program that is not proved, compiled with checks.",
    "",
    "| threads | actors | lanes | names a second | of one lane | looks for nothing, a name |",
    "|---|---|---|---|---|---|",
]
for number, (seats, actors, steps) in enumerate(CASES):
    lanes = 2 if actors == 2 else 2 * actors
    names = lanes * steps
    mine = sorted(times for case, *times in rounds if case == number)
    if len(mine) != RUNS or any(heard != names for _, heard, _ in mine):
        raise SystemExit(f"not all names came:\n{said}")
    nanos, _, misses = mine[RUNS // 2]
    second = names * 10**9 / nanos
    figures = f"{second:,.0f} | {second / lanes:,.0f} | {misses / names:.1f}"
    rows.append(f"| {seats} | {actors} | {lanes} | {figures} |")
written("Names on lanes between threads", rows)
P
