#!/usr/bin/env bash
# Runs `trial --ticks 5`, whose plane is cut into eight strips, for 500 to 20,000 agents over the same
# plane, and writes seconds a tick, peak memory and the ratios between neighbours into
# docs/PERFORMANCE.md.
set -eu
top=$(cd "$(dirname "$0")/.." && pwd)
"$top/brace" trial --count 1 --ticks 0 >/dev/null
# The program that ./brace runs.
program=$top/out/brace-$("$top/tools/sum.sh")
[ -x "$program" ] || program=$top/dist/brace
PYTHONPATH=$top/bench python3 - "$program" <<'P'
import sys
from measure import measured, table
program = sys.argv[1]
TICKS = 5
rows = []
for count in (500, 1_000, 2_000, 4_000, 20_000):
    seconds, memory = measured([program, "trial", "--count", str(count), "--ticks", str(TICKS)])
    rows.append((count, seconds / TICKS, memory))
table("A tick of the trial, in eight strips", "agents", rows)
P
