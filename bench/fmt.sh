#!/usr/bin/env bash
# Brings scripts of 64 KiB, 256 KiB and 1 MiB (the limit) into canonical text, and checks scripts of
# these sizes and a class at its limits; writes seconds, peak memory and the ratios between them into
# docs/PERFORMANCE.md.
set -eu
top=$(cd "$(dirname "$0")/.." && pwd)
work=$(mktemp -d)
trap 'rm -rf "$work"' EXIT
echo 'class P { }' >"$work/s"
"$top/brace" fmt --script "$work/s" >/dev/null
# The program that ./brace runs.
program=$top/out/brace-$("$top/tools/sum.sh")
[ -x "$program" ] || program=$top/dist/brace
PYTHONPATH=$top/bench python3 - "$program" "$work" <<'P'
import sys
from measure import measured, table
program, work = sys.argv[1:]
CLASS = """class Fish{n} {{
  #visible[10.0]; #reach[1.5]; // a school
  public state fixed x : x + vx * 0.5; public state fixed y : y + (vy - 0.25) * 0.5;
  public state fixed vx : ax == 0.0 ? vx : vx - (ax - 1.0) / 2.0;
  public state fixed vy; private effect fixed ax : sum;
  public void run() {{
    foreach (Fish{n} p : Extent<Fish{n}>) {{ const fixed d = abs(p.x - x) + abs(p.y - y);
      if (d < 2.0 && !(d == 0.0)) {{
        if (p.vx > vx || rand() < 0.5) {{ ax <- min(d, 1.0); }} else {{ p.ax <- -d; }} }} }}
  }}
}}
"""
rows = []
for size in (1 << 16, 1 << 18, 1 << 20):
    text, length = [], 0
    while True:
        piece = CLASS.format(n=len(text))
        if length + len(piece) > size:
            break
        text.append(piece)
        length += len(piece)
    with open(f"{work}/s", "w") as f:
        f.write("".join(text) + " " * (size - length))
    rows.append((size, *measured([program, "fmt", "--script", f"{work}/s"])))
table("Formatting", "bytes of script", rows)

HEAD = """class Fish {
  #visible[10.0];
  public state fixed x; public state fixed y; private effect int n : count;
  public void run() {
    foreach (Fish p : Extent<Fish>) {
"""
SMALL = "if (p.x < x) { const fixed d = max(p.y, y); const bool b = d == p.x || p.y > 1.0; }\n"
TAIL = "} } }\n"
# Nothing in these rules is a site or an assignment, so that only the length is limited.
rows = []
for size in (1 << 16, 1 << 18, 1 << 20):
    count = (size - len(HEAD) - len(TAIL)) // len(SMALL)
    with open(f"{work}/s", "w") as f:
        f.write((HEAD + SMALL * count + TAIL).ljust(size))
    rows.append((size, *measured([program, "check", "--script", f"{work}/s"])))
# A class at its limits: 64 fields, 4,096 sites and 4,096 assignments.
fields = "".join(f"public state int s{i} : s{i} + 1; public effect int e{i} : count;\n" for i in range(31))
says = "".join(f"e{i % 31} <- s{i % 31} - {i};\n" for i in range(4096 - 31)) + "e0 <- 1;\n" * 31
script = f"class P {{ public state fixed x; public state fixed y;\n{fields}public void run() {{\n{says}}} }}\n"
with open(f"{work}/s", "w") as f:
    f.write(script)
table("Checking", "bytes of script", rows)
rows = [(len(script), *measured([program, "check", "--script", f"{work}/s"]))]
table("Checking a class at its limits", "bytes of script", rows)
P
