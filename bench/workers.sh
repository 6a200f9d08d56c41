#!/usr/bin/env bash
# Runs a school of fish over a plane of twelve parts with 1, 2, 3, 8 and 16 workers, 200 times each,
# every run in another order and with or without inversion: rows, message and saved worlds have to be
# the same bytes each time. Ends with 0 where they are.
set -eu
top=$(cd "$(dirname "$0")/.." && pwd)
work=$(mktemp -d)
trap 'rm -rf "$work"' EXIT
"$top/brace" check --script "$top/bench/fish.brasil"
# The program that ./brace runs.
program=$top/out/brace-$("$top/tools/sum.sh")
[ -x "$program" ] || program=$top/dist/brace
python3 - "$program" "$work" "$top" "${1:-200}" <<'P'
import os, random, subprocess, sys, time
program, work, top, times = sys.argv[1:]
r = random.Random(7)
with open(f"{work}/a", "w") as f:
    for i in range(120):
        x, y = (f"{r.randrange(30)}.{r.randrange(10**6):06}" for _ in "xy")
        f.write(f"Fish,{i},{x},{y},{r.randrange(-1, 2)},0.5\n")
with open(f"{work}/k", "w") as f:
    f.write("at 0 x 6 12 22 y 9 20\nat 6 x 8 15 20 y 11 19\nat 12 x 2 14 28 y 1 15\n")


def came(workers, order, invert):
    """Rows, message and saved worlds of a run."""
    words = [program, "run", "--script", f"{top}/bench/fish.brasil", "--agents", f"{work}/a", "--ticks", "15",
             "--epoch", "3", "--seed", "7", "--cuts", f"{work}/k", "--save", f"{work}/c",
             "--workers", str(workers), "--order", str(order), *(["--invert"] if invert else [])]
    run = subprocess.run(words, capture_output=True)
    if run.returncode != 0:
        sys.exit(f"{words} ended with status {run.returncode}: {run.stderr}")
    saved = {}
    for name in sorted(os.listdir(work)):
        if name.startswith("c."):
            with open(f"{work}/{name}", "rb") as f:
                saved[name] = f.read()
            os.remove(f"{work}/{name}")
    return run.stdout, run.stderr, saved


wanted = came(1, 0, False)
print(f"{len(wanted[0])} bytes of rows, {len(wanted[2])} saved worlds", flush=True)
for workers in (1, 2, 3, 8, 16):
    start = time.monotonic()
    for order in range(int(times)):
        if came(workers, order, order % 2 == 1) != wanted:
            sys.exit(f"{workers} workers, order {order}: other bytes")
    print(f"{workers} workers: {times} runs, {time.monotonic() - start:.1f} s, the same bytes", flush=True)
P
