#!/usr/bin/env bash
# Runs 20 ticks of a small script over 10,000, 100,000 and 1,000,000 agents, and writes seconds, peak
# memory and the ratios between them into docs/PERFORMANCE.md.
set -eu
top=$(cd "$(dirname "$0")/.." && pwd)
work=$(mktemp -d)
trap 'rm -rf "$work"' EXIT
cat >"$work/s" <<'S'
class P {
  #reach[2.0];
  public state fixed x : x + vx; public state fixed y : y + vy - 0.5;
  public state fixed vx; public state fixed vy : vy + 0.25;
}
S
"$top/brace" run --script "$work/s" --agents /dev/null --ticks 0 >/dev/null
# The program that ./brace runs.
program=$top/out/brace-$("$top/tools/sum.sh")
[ -x "$program" ] || program=$top/dist/brace
PYTHONPATH=$top/bench python3 - "$program" "$work" <<'P'
import random, sys
from measure import measured, table
program, work = sys.argv[1:]
rows = []
for count in (10_000, 100_000, 1_000_000):
    r = random.Random(1)
    with open(f"{work}/a", "w") as f:
        for i in range(count):
            x = f"{r.randrange(1000)}.{r.randrange(10**6):06}"
            f.write(f"P,{i},{x},{r.randrange(1000)},{r.randrange(-2, 3)},0\n")
    words = [program, "run", "--script", f"{work}/s", "--agents", f"{work}/a", "--ticks", "20"]
    rows.append((count, *measured(words)))
table("Twenty ticks of a small script", "agents", rows)
P
