#!/usr/bin/env bash
# Kills a run at a random moment, 50 times, and resumes it from its last checkpoint with other cuts,
# epochs and inversion: the rows up to the checkpoint's tick and those of the resumed run have to be
# the rows of the run that was not killed. One world in three is large, so that a run may be killed
# within a save. Ends with 0 where all of them are.
set -eu
top=$(cd "$(dirname "$0")/.." && pwd)
work=$(mktemp -d)
trap 'rm -rf "$work"' EXIT
"$top/brace" check --script "$top/bench/fish.brasil"
# The program that ./brace runs.
program=$top/out/brace-$("$top/tools/sum.sh")
[ -x "$program" ] || program=$top/dist/brace
python3 - "$program" "$work" "$top" "${1:-50}" <<'P'
import os, random, subprocess, sys, time
program, work, top, times = sys.argv[1:]
EIGHTHS = "125 250 375 500 625 750 875"
r = random.Random()


def agents(name, count):
    """A file of fish over a plane of 1000 units, or 30 where they are few."""
    size = 1000 if count > 1000 else 30
    with open(f"{work}/{name}", "w") as f:
        for i in range(count):
            x, y = (f"{r.randrange(size)}.{r.randrange(10**6):06}" for _ in "xy")
            f.write(f"Fish,{i},{x},{y},{r.randrange(-1, 2)},0.5\n")


def run(mode, ticks, *more):
    """The words of a run; `mode` has the options that say where it begins."""
    return [program, *mode, "--script", f"{top}/bench/fish.brasil", "--ticks", str(ticks), *more]


def rows_to(text, tick):
    """The rows of the ticks up to one."""
    end = text.find(b"\n%d," % (tick + 1))
    return text if end < 0 else text[: end + 1]


worlds = {"few": (200, 400), "some": (3_000, 20), "many": (60_000, 3)}
whole, seconds = {}, {}
for name, (count, ticks) in worlds.items():
    agents(name, count)
    with open(f"{work}/{name}.k", "w") as f:
        f.write(f"at 0 x {EIGHTHS} y {EIGHTHS}\n")
    start = time.monotonic()
    words = run(["run", "--agents", f"{work}/{name}", "--seed", "7"], ticks, "--cuts", f"{work}/{name}.k")
    whole[name] = subprocess.run(words, capture_output=True, check=True).stdout
    seconds[name] = time.monotonic() - start
    print(f"{name}: {count} agents, {ticks} ticks, {seconds[name]:.1f} s", flush=True)
with open(f"{work}/k", "w") as f:
    f.write("at 0 x 95.5 190.5 310 420 570 690 800 y 5 110 205 330 490 610 820\n")
outcomes = {"resumed": 0, "before the first checkpoint": 0, "within a save": 0, "ended before it was killed": 0}
for number in range(int(times)):
    name = r.choice(list(worlds))
    ticks = worlds[name][1]
    for old in os.listdir(work):
        if old.startswith(("c.", ".brace-part-")):
            os.remove(f"{work}/{old}")
    epoch = str(r.choice([1, 2, 3, 5, 16]))
    words = run(["run", "--agents", f"{work}/{name}", "--seed", "7"], ticks,
                "--cuts", f"{work}/{name}.k", "--epoch", epoch, "--save", f"{work}/c")
    with open(f"{work}/rows", "wb") as out:
        process = subprocess.Popen(words, stdout=out)
        time.sleep(r.uniform(0, 1.2 * seconds[name]))
        process.kill()
        status = process.wait()
    with open(f"{work}/rows", "rb") as f:
        rows = f.read()
    if not whole[name].startswith(rows):
        sys.exit(f"{words}: not a front of the rows")
    left = os.listdir(work)
    if any(old.startswith(".brace-part-") for old in left):
        outcomes["within a save"] += 1
    ends = [int(old[2:]) for old in left if old.startswith("c.")]
    if status == 0:
        outcomes["ended before it was killed"] += 1
    if not ends:
        outcomes["before the first checkpoint"] += 1
        continue
    last = max(ends)
    again = run(["resume", "--from", f"{work}/c.{last}"], ticks, "--cuts", f"{work}/k",
                "--epoch", str(r.randrange(1, 17)), "--order", str(r.randrange(99)), *r.choice([[], ["--invert"]]))
    rest = subprocess.run(again, capture_output=True, check=True).stdout
    if len(rows_to(rows, last)) < len(rows_to(whole[name], last)):
        sys.exit(f"{words}: rows up to tick {last} are not all there")
    if rows_to(rows, last) + rest != whole[name]:
        sys.exit(f"{again}: not the rows that are left")
    outcomes["resumed"] += 1
print(f"{times} runs:", ", ".join(f"{count} {what}" for what, count in outcomes.items()))
P
