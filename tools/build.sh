#!/bin/bash
# Builds the program from these sources, as out/brace-CHECKSUM, and says how far it is. The toolchain proves what it builds.
# A second call waits for the first; an interrupted or failed one leaves nothing that is run.
set -eu
top=$(cd "$(dirname "$(readlink -f "$0")")/.." && pwd)
sources=$1
built=$top/out/brace-$sources
log=$top/out/build.log

say() { echo "brace: $*"; }

if ! command -v rt >/dev/null; then
  say "dist/brace can't be used here, and there is no toolchain (rt) to build the program with"
  say "README.md, \"Where it runs\", says which machines run dist/brace, and what building takes"
  exit 1
fi
mkdir -p "$top/out"
exec 9>"$top/out/build.lock"
if ! flock -n 9; then
  say "another call builds the program; waiting for it"
  flock 9
fi
[ ! -x "$built" ] || exit 0

# The crates that the program stands on, itself included, lowest first.
crates=$(awk '{ sub(/:$/, "", $1); if ($1 != "") line[$1] = $0 }
  function visit(name,  words, n, i) {
    if (name in seen || !(name in line)) return
    seen[name]
    n = split(line[name], words, " ")
    for (i = 2; i <= n; i++) visit(words[i])
    print name
  }
  END { visit("brace_main") }' "$top/crates.txt")
total=$(echo "$crates" | wc -l)

say "building the program: the toolchain proves the $total crates that it builds, which took 10 minutes on four cores when none was proved"
started=$(date +%s)
set -m
(cd "$top/crates/brace_main" && exec rt run) >"$log" 2>&1 9>&- &
job=$!
trap 'kill -- -$job 2>/dev/null || true; say "interrupted; nothing was built"; exit 1' INT TERM HUP
told=
while kill -0 $job 2>/dev/null; do
  crate=$(sed -n 's/^rt: chose --jobs [0-9]* for //p' "$log" | tail -1)
  number=$(echo "$crates" | grep -nx "$crate" | cut -d : -f 1)
  now="crate $number of $total ($crate), $((($(date +%s) - started) / 60)) min"
  if [ -n "$crate" ] && [ "$now" != "$told" ]; then
    say "$now"
    told=$now
  fi
  sleep 1
done
wait $job || true
made=$top/crates/brace_main/out/brace_main
if [ "$("$top/tools/sum.sh")" != "$sources" ]; then
  say "the sources changed while the program was built; call again"
  exit 1
fi
# Run with no words, the program says how it is used.
if ! grep -q '^brace: usage$' "$log" || [ ! -x "$made" ]; then
  say "the program could not be built; see $log"
  exit 1
fi
rm -f "$top"/out/brace-*
cp "$made" "$top/out/new-$sources"
mv "$top/out/new-$sources" "$built"
say "built in $((($(date +%s) - started) / 60)) min"
