#!/usr/bin/env bash
# Publishes files of 2, 200 and 2,000 MB in one part, and audits them; writes the seconds and the peak
# memory of both into docs/PERFORMANCE.md. It needs 2 GB of room in TMPDIR.
set -eu
top=$(cd "$(dirname "$0")/.." && pwd)
work=$(mktemp -d)
trap 'rm -rf "$work"' EXIT
cat >"$work/s" <<'S'
class P {
  #reach[2.0];
  public state fixed x : x + vx; public state fixed y : y + vy - 0.5;
  public state fixed vx; public state fixed vy : vy + 0.25;
}
S
"$top/brace" check --script "$work/s"
# The program that ./brace runs.
program=$top/out/brace-$("$top/tools/sum.sh")
[ -x "$program" ] || program=$top/dist/brace
PYTHONPATH=$top/bench python3 - "$program" "$work" <<'P'
import os, random, sys, time
from measure import written
program, work = sys.argv[1:]
AGENTS = 10_000
draw = random.Random(1)
with open(f"{work}/a", "w") as file:
    for number in range(AGENTS):
        x = f"{draw.randrange(1000)}.{draw.randrange(10**6):06}"
        file.write(f"P,{number},{x},{draw.randrange(1000)},{draw.randrange(-2, 3)},0\n")


def timed(words, out):
    """Seconds, and peak memory in MiB, of a command that has to end with status 0."""
    begun = time.monotonic()
    process = os.posix_spawn(words[0], words, os.environ, file_actions=[
        (os.POSIX_SPAWN_OPEN, 1, out, os.O_WRONLY | os.O_CREAT | os.O_TRUNC, 0o600)])
    _, status, usage = os.wait4(process, 0)
    if status != 0:
        raise SystemExit(f"{words} ended with status {status}")
    return time.monotonic() - begun, usage.ru_maxrss / 1024


lines = ["| MB | run, seconds | audit, seconds | run, MiB | audit, MiB |", "|---|---|---|---|---|"]
for ticks in (3, 350, 3500):
    words = ["--script", f"{work}/s", "--agents", f"{work}/a", "--ticks", str(ticks)]
    run = timed([program, "run", *words], f"{work}/p")
    audit = timed([program, "audit", *words, "--published", f"{work}/p"], f"{work}/yes")
    size = os.path.getsize(f"{work}/p") / 1e6
    lines.append(f"| {size:,.0f} | {run[0]:.2f} | {audit[0]:.2f} | {run[1]:.0f} | {audit[1]:.0f} |")
    print(lines[-1], flush=True)
written("Published files, and their audits", lines, "once each")
P
