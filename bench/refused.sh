#!/usr/bin/env bash
# One agent over 16 parts, five ticks, with all threads, with none (one process for its user) and
# with little memory (60,000 KiB of addresses), on 1, 2, 4 and 16 workers: writes the seconds into
# docs/PERFORMANCE.md, beside those of an earlier program where one is named. Rows have to be the
# same bytes and the status 0. Run as root: the limit on processes binds no root, so the program
# runs as nobody.
set -eu
top=$(cd "$(dirname "$0")/.." && pwd)
work=$(mktemp -d)
trap 'rm -rf "$work"' EXIT
cp "$top/bench/fish.brasil" "$work/s"
"$top/brace" check --script "$work/s"
# The program that ./brace runs.
program=$top/out/brace-$("$top/tools/sum.sh")
[ -x "$program" ] || program=$top/dist/brace
cp "$program" "$work/now"
[ $# -eq 0 ] || cp "$1" "$work/before"
printf 'Fish,1,0,0,1,0\n' > "$work/a"
printf 'at 0 x 10 20 30 y 10 20 30\n' > "$work/k"
chmod -R a+rX "$work"
PYTHONPATH=$top/bench python3 - "$work" <<'P'
import os, subprocess, sys, time
from measure import written
work = sys.argv[1]
NOBODY = ["setpriv", "--reuid=65534", "--regid=65534", "--clear-groups"]
HOW = {"all threads": NOBODY, "no thread": [*NOBODY, "prlimit", "--nproc=1"],
       "60,000 KiB": [*NOBODY, "prlimit", "--as=61440000"]}
RUNS, LIMIT = 7, 60


def ran(program, how, workers):
    """The seconds of a run."""
    words = [*HOW[how], f"{work}/{program}", "run", "--script", f"{work}/s",
             "--agents", f"{work}/a", "--ticks", "5", "--cuts", f"{work}/k",
             "--workers", str(workers)]
    start = time.monotonic()
    run = subprocess.run(words, stdout=subprocess.PIPE, timeout=LIMIT)
    seconds, came = time.monotonic() - start, (run.returncode, run.stdout)
    if came != rows.setdefault("rows", came) or came[0] != 0:
        sys.exit(f"{workers} workers, {how}: {came}")
    return seconds


def least(program, how, workers):
    """The least seconds of several runs, or of one that is long."""
    try:
        first = ran(program, how, workers)
        rest = [ran(program, how, workers) for _ in range(RUNS - 1) if first < 5]
        return f"{min([first, *rest]):.3f}"
    except subprocess.TimeoutExpired:
        return f"over {LIMIT}"


rows = {}
programs = [name for name in ("before", "now") if os.path.exists(f"{work}/{name}")]
columns = [(how, name) for how in HOW for name in programs]
named = [f"{how}, {name}" if len(programs) > 1 else how for how, name in columns]
lines = ["| workers | " + " | ".join(named) + " |", "|---|" + "---|" * len(columns)]
for workers in (1, 2, 4, 16):
    cells = [least(name, how, workers) for how, name in columns]
    lines.append(f"| {workers} | " + " | ".join(cells) + " |")
written("One agent over 16 parts where threads are refused, seconds", lines,
        f"the least of {RUNS} runs")
P
