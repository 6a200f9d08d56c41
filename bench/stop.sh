#!/usr/bin/env bash
# How soon a run answers that has come to its end early: a fault at tick 1, a reader that takes
# three lines, a checkpoint that is not saved, memory that is refused in the first epoch (60,000 KiB
# of addresses, for agents that double in each of its 16 ticks). Each over 1, 8 and 64 parts, with
# 1, 2 and 16 workers, once with 32 ticks and once with 4,294,967,296; writes the seconds into
# docs/PERFORMANCE.md. A run that takes more than a minute is stopped.
set -eu
top=$(cd "$(dirname "$0")/.." && pwd)
work=$(mktemp -d)
trap 'rm -rf "$work"' EXIT
cat > "$work/fault" <<'S'
class D {
  public state fixed x : x;
  public state fixed y : y;
  public state int d : 1 / d;
}
S
cat > "$work/rest" <<'S'
class D {
  public state fixed x : x;
  public state fixed y : y;
}
S
cat > "$work/double" <<'S'
class D {
  public state fixed x : x;
  public state fixed y : y;
  spawn when true { }
}
S
"$top/brace" check --script "$work/fault"
# The program that ./brace runs.
program=$top/out/brace-$("$top/tools/sum.sh")
[ -x "$program" ] || program=$top/dist/brace
PYTHONPATH=$top/bench python3 - "$program" "$work" <<'P'
import subprocess, sys, time
from measure import written
program, work = sys.argv[1:]
LIMIT = 60
SEVEN = "10 20 30 40 50 60 70"
CUTS = {1: ("", ""), 8: (SEVEN, ""), 64: (SEVEN, SEVEN)}
with open(f"{work}/d", "w") as file:
    file.write("D,1,5,5,0\n")
with open(f"{work}/r", "w") as file:
    file.write("D,1,5,5\n")
with open(f"{work}/m", "w") as file:
    file.writelines(f"D,{n},5,5\n" for n in range(1, 1001))
FILES = {"fault": ("fault", "d"), "no memory": ("double", "m")}
for parts, (x, y) in CUTS.items():
    with open(f"{work}/k{parts}", "w") as file:
        file.write(" ".join(f"at 0 x {x} y {y}".split()) + "\n")


def seconds(parts, workers, ticks, kind):
    """How long a run took to its end."""
    script, agents = FILES.get(kind, ("rest", "r"))
    words = [program, "run", "--script", f"{work}/{script}", "--agents", f"{work}/{agents}",
             "--ticks", str(ticks), "--cuts", f"{work}/k{parts}", "--workers", str(workers),
             "--epoch", "16" if kind == "no memory" else "4"]
    if kind == "no memory":
        words = ["prlimit", "--as=61440000", *words]
    if kind == "unsaved":
        words += ["--save", f"{work}/none/c"]
    start = time.monotonic()
    piped = kind == "three lines"
    run = subprocess.Popen(words, stdout=subprocess.PIPE if piped else subprocess.DEVNULL,
                           stderr=subprocess.DEVNULL)
    try:
        if piped:
            for _ in range(3):
                run.stdout.readline()
            run.stdout.close()
        run.wait(LIMIT)
    except subprocess.TimeoutExpired:
        run.kill()
        return f"> {LIMIT}"
    return f"{time.monotonic() - start:.3f}"


lines = ["| run | parts | workers | 32 ticks | 4,294,967,296 ticks |", "|---|---|---|---|---|"]
for kind in ("fault", "three lines", "unsaved", "no memory"):
    for parts in CUTS:
        for workers in (1, 2, 16):
            short, long = (seconds(parts, workers, ticks, kind) for ticks in (32, 2**32))
            lines.append(f"| {kind} | {parts} | {workers} | {short} | {long} |")
written("A run that comes to its end early", lines, "one run each")
P
