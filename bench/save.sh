#!/usr/bin/env bash
# Reads agent files of 10,000, 100,000 and 1,000,000 agents of four states, writes their first tick and
# saves it; then resumes at that tick, with nothing to run. Writes the seconds of both, peak memory and
# the ratios between them into docs/PERFORMANCE.md.
set -eu
top=$(cd "$(dirname "$0")/.." && pwd)
work=$(mktemp -d)
trap 'rm -rf "$work"' EXIT
cp "$top/bench/fish.brasil" "$work/s"
"$top/brace" check --script "$work/s"
# The program that ./brace runs.
program=$top/out/brace-$("$top/tools/sum.sh")
[ -x "$program" ] || program=$top/dist/brace
PYTHONPATH=$top/bench python3 - "$program" "$work" <<'P'
import random, sys
from measure import measured, table
program, work = sys.argv[1:]
saved, read = [], []
for count in (10_000, 100_000, 1_000_000):
    r = random.Random(1)
    with open(f"{work}/a", "w") as f:
        for i in range(count):
            x = f"{r.randrange(1000)}.{r.randrange(10**6):06}"
            f.write(f"Fish,{i},{x},{r.randrange(1000)},{r.randrange(-2, 3)},-0.5\n")
    words = [program, "run", "--script", f"{work}/s", "--agents", f"{work}/a", "--ticks", "0"]
    saved.append((count, *measured([*words, "--save", f"{work}/c"])))
    words = [program, "resume", "--script", f"{work}/s", "--from", f"{work}/c.0", "--ticks", "0"]
    read.append((count, *measured(words)))
table("Reading agents, writing their first tick and saving it", "agents", saved)
table("Reading a saved world", "agents", read)
P
