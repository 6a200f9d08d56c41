#!/usr/bin/env python3
"""Runs agents that bear and die over many divisions of the plane, and resumes their runs.

    tools/tests/test_births.py [--program PROGRAM]

The predators of examples/ are run under ten cut plans by 1, 2, 3 and 16 workers: all rows are the
same bytes, under one plan all counts are the same, and each end that was saved is resumed with the
rows that are left. A population that doubles comes to the limits of a world and ends in the fault
of the first parent that goes too far, whoever has it. Run by hand; it takes a minute, and 1 GB.
"""
import argparse
import os
import subprocess
import sys
import tempfile

TOP = os.path.realpath(os.path.join(os.path.dirname(__file__), "..", ".."))
HERE = os.path.join(TOP, "examples", "predators")
SCRIPT = ["--script", os.path.join(HERE, "predators.brasil")]
TICKS, EPOCH = 300, 16
WORKERS = ("1", "2", "3", "16")

PLANS = [
    "at 0 x y\n",
    "at 0 x 20 y\n",
    "at 0 x y 20\n",
    "at 0 x 8 16 24 32 y 20\n",
    "at 0 x 13 27 y 13 27\n",
    "at 0 x 0 y 40\n",
    "at 0 x 5 10 15 20 25 30 35 y 5 10 15 20 25 30 35\n",
    "at 0 x 20 y\nat 16 x 10 y\nat 160 x 30 y\n",
    "at 0 x 10 20 y\nat 32 x 20 30 y\nat 48 x 5 35 y\nat 288 x 1 2 y\n",
    "at 0 x 20 y 20\nat 144 x 39.999999 y 0.000001\n",
]

# A script, a start, plans, and the line in which the run of a population that doubles ends: with
# 2^20 agents the first parent goes too far; of six values each, 699,050 agents have all that may be.
DOUBLING = "class B { #reach[1.0]; public state fixed x; public state fixed y;%s spawn when true " \
           "{ x <- x + 0.5; } }\n"
LIMITS = [
    ("", "B,0,0,0\n", "brace: tick 20 birth agent 0 site 1: TooMany\n"),
    ("".join(f" public state int n{i};" for i in range(4)), "B,0,0,0,1,2,3,4\n",
     "brace: tick 19 birth agent 174762 site 1: TooMany\n"),
]
DIVISIONS = ("at 0 x y\n", "at 0 x 2 y\n", "at 0 x 0.5 3 5 y 0\n")


class Checks:
    def __init__(self):
        self.count = self.failed = 0

    def same(self, what, found, wanted):
        self.count += 1
        if found != wanted:
            self.failed += 1
            print(f"FAILED {what}: {str(found)[:200]}, wanted {str(wanted)[:200]}")


def run(program, folder, words):
    """The status, the rows and the message of a command in a folder."""
    made = subprocess.run([program, *words], cwd=folder, capture_output=True, check=False)
    return made.returncode, made.stdout, made.stderr.decode()


def write(folder, name, text):
    with open(os.path.join(folder, name), "w", encoding="utf-8") as file:
        file.write(text)


def check_predators(checks, program, folder):
    words = ["run", *SCRIPT, "--agents", os.path.join(HERE, "agents.csv"), "--ticks", str(TICKS)]
    status, rows, message = run(program, folder, [*words, "--save", "end"])
    checks.same("the predators", (status, message), (0, ""))
    write(folder, "rows.csv", rows.decode())
    audit = ["audit", *words[1:], "--published", "rows.csv"]
    checks.same("audit", run(program, folder, audit), (0, b"audit yes\n", ""))
    for number, plan in enumerate(PLANS):
        write(folder, "plan", plan)
        cut = [*words, "--cuts", "plan", "--stats"]
        for more in ([], ["--invert"]):
            alone = run(program, folder, [*cut, *more])
            checks.same(f"plan {number} {more}", (alone[0], alone[1] == rows), (0, True))
            for workers in WORKERS:
                found = run(program, folder, [*cut, *more, "--workers", workers])
                checks.same(f"plan {number} {more} by {workers}", found == alone, True)
    check_ends(checks, program, folder, rows)


def check_ends(checks, program, folder, rows):
    """Each saved end is resumed with the rows that are left, and saves the ends behind it."""
    lines = rows.splitlines(keepends=True)
    ends = [*range(EPOCH, TICKS, EPOCH), TICKS]
    for number, end in enumerate(ends):
        write(folder, "plan", PLANS[number % len(PLANS)])
        words = ["resume", *SCRIPT, "--from", f"end.{end}", "--ticks", str(TICKS), "--save", "later",
                 "--cuts", "plan", "--workers", WORKERS[number % len(WORKERS)]]
        status, rest, message = run(program, folder, words)
        left = b"".join(line for line in lines if int(line.split(b",", 1)[0]) > end)
        checks.same(f"from {end}", (status, rest == left, message), (0, True, ""))
        for later in ends[number + 1:]:
            with open(os.path.join(folder, f"end.{later}"), "rb") as one, \
                    open(os.path.join(folder, f"later.{later}"), "rb") as other:
                checks.same(f"from {end} the file of {later}", one.read() == other.read(), True)


def check_limits(checks, program, folder):
    for states, agents, told in LIMITS:
        write(folder, "double.brasil", DOUBLING % states)
        write(folder, "agents.csv", agents)
        for plan in DIVISIONS:
            write(folder, "plan", plan)
            words = ["run", "--script", "double.brasil", "--agents", "agents.csv", "--ticks", "64",
                     "--every", "64", "--cuts", "plan", "--workers", "4"]
            status, _, message = run(program, folder, words)
            checks.same(f"{plan.strip()}", (status, message), (7, told))


def main():
    words = argparse.ArgumentParser(description=__doc__.split("\n", 1)[0], allow_abbrev=False)
    words.add_argument("--program", default=os.path.join(TOP, "brace"))
    program = os.path.abspath(words.parse_args().program)
    checks = Checks()
    with tempfile.TemporaryDirectory() as folder:
        check_predators(checks, program, folder)
        check_limits(checks, program, folder)
    print(f"{checks.count - checks.failed} passed, {checks.failed} failed")
    return 1 if checks.failed else 0


if __name__ == "__main__":
    sys.exit(main())
