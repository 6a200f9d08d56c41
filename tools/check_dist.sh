#!/bin/sh
# Says nothing where dist/ has the program that the gate has just built, and the checksum of these sources; else one line.
set -eu
top=$(cd "$(dirname "$(readlink -f "$0")")/.." && pwd)
differs() {
  echo "dist/$1 is not that of these sources: run tools/dist.sh, and commit dist/" >&2
  exit 1
}
cmp -s "$top/crates/brace_main/out/brace_main" "$top/dist/brace" || differs brace
[ "$("$top/tools/sum.sh")" = "$(cat "$top/dist/brace.sum" 2>/dev/null)" ] || differs brace.sum
