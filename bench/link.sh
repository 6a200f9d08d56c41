#!/usr/bin/env bash
# Times a piece of a million agents of four numbers as bytes and back, and writes bytes and MB a
# second into docs/PERFORMANCE.md: of `encode`, and of a decoder's `feed` in pieces of 4096 bytes
# and of the whole.
#
# The program, bench/link/main.txt, is added as a crate to a copy of those below it, and proved with
# them, so that it runs without checks.
set -eu
top=$(cd "$(dirname "$0")/.." && pwd)
work=$(mktemp -d)
trap 'rm -rf "$work"' EXIT
mkdir -p "$work/crates/bench_link/src"
cp "$top/HANDLES" "$work"
cp "$top/bench/link/main.txt" "$work/crates/bench_link/src/main.rt"
below="brace_num brace_draw brace_core brace_cuts brace_model brace_comb brace_invert brace_pieces"
for crate in $below brace_wire; do
  cp -r "$top/crates/$crate" "$work/crates"
  grep "^$crate:" "$top/crates.txt" >>"$work/crates.txt"
done
echo "bench_link: brace_num brace_model brace_pieces brace_wire" >>"$work/crates.txt"
(cd "$work/crates/bench_link" && rt run >"$work/said" 2>"$work/log") || {
  cat "$work/log"
  exit 1
}
PYTHONPATH=$top/bench python3 - "$work/said" <<'P'
import sys
from measure import written
AGENTS = 1_000_000
with open(sys.argv[1]) as file:
    rounds = [tuple(map(int, line.split())) for line in file if line[:1].isdigit()]
if not rounds or any(came != AGENTS or again != AGENTS for *_, came, again in rounds):
    raise SystemExit(f"not all agents came: {rounds}")
size = rounds[0][0]


def best(place):
    """MB a second in the fastest of the rounds."""
    return size * 1000 / min(round[place] for round in rounds)


written("Pieces as bytes", [
    "| agents | bytes | encode, MB/s | feed of 4096 bytes, MB/s | feed of the whole, MB/s |",
    "|---|---|---|---|---|",
    f"| {AGENTS:,} | {size:,} | {best(1):,.0f} | {best(2):,.0f} | {best(3):,.0f} |",
], f"the fastest of {len(rounds)} rounds")
P
