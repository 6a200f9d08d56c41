#!/bin/sh
# Copies the program that the gate has just built into dist/, and writes the checksum of what it was built from. Run it after
# a green `rt ci`.
set -eu
top=$(cd "$(dirname "$(readlink -f "$0")")/.." && pwd)
mkdir -p "$top/dist"
cp "$top/crates/brace_main/out/brace_main" "$top/dist/brace.new"
mv "$top/dist/brace.new" "$top/dist/brace"
"$top/tools/sum.sh" >"$top/dist/brace.sum"
