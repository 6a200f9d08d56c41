#!/usr/bin/env bash
# Times random draws of 1,000,000 agents, and writes nanoseconds a draw into docs/PERFORMANCE.md: by
# a generator that is set to the place of each draw, by brace_draw's single draws, and by its
# columns, for one draw an agent and for two of the same agent and tick.
#
# The program, bench/draw/main.txt, is added as a crate to a copy of brace_draw, in a folder that is
# made for it. rt proves it safe, and LLVM compiles it.
set -eu
top=$(cd "$(dirname "$0")/.." && pwd)
work=$(mktemp -d)
trap 'rm -rf "$work"' EXIT
mkdir -p "$work/crates/bench_draw/src"
cp "$top/HANDLES" "$work"
cp "$top/bench/draw/main.txt" "$work/crates/bench_draw/src/main.rt"
cp -r "$top/crates/brace_draw" "$work/crates"
grep "^brace_draw:" "$top/crates.txt" >"$work/crates.txt"
echo "bench_draw: brace_draw rand_chacha rand_core" >>"$work/crates.txt"
(cd "$work/crates/bench_draw" && rt run >"$work/log" 2>&1) || { cat "$work/log" && exit 1; }
PYTHONPATH=$top/bench python3 - "$work/crates/bench_draw/out/bench_draw" <<'P'
import subprocess, sys
from measure import RUNS, written
PART = 10_000
SITES = ("one, of site 0", "two, of sites 0 and 1", "two, of sites 1 and 0", "two, of sites 5 and 40")
times = {}
sums = {}
for _ in range(RUNS):
    said = subprocess.run([sys.argv[1]], stdout=subprocess.PIPE, check=True, text=True).stdout
    for line in said.splitlines():
        case, nanos, drawn = map(int, line.split())
        times.setdefault(case, []).append(nanos)
        sums.setdefault(case, []).append(drawn)
if any(sums[4 + sites] != sums[8 + sites] for sites in range(4)):
    raise SystemExit("a column is not what single draws give")
def of(form, sites):
    """The median of all parts, in nanoseconds an agent."""
    all_parts = sorted(times[4 * form + sites])
    return all_parts[len(all_parts) // 2] / PART
rows = [
    "10,000 agents at a time; the median of all parts, in nanoseconds a draw.",
    "",
    "| draws of an agent in a tick | a generator set to each place | `draw` | `column` |",
    "|---|---|---|---|",
]
for sites, name in enumerate(SITES):
    count = 1 if sites == 0 else 2
    figures = " | ".join(f"{of(form, sites) / count:.1f}" for form in range(3))
    rows.append(f"| {name} | {figures} |")
second = " | ".join(f"{of(form, 2) - of(form, 0):.1f}" for form in range(3))
rows.append(f"| the second of sites 1 and 0 | {second} |")
written("Random draws", rows)
P
