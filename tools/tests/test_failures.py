#!/usr/bin/env python3
"""Lets each request for memory and each call of the host fail in turn, one in each run.

    tools/tests/test_failures.py [--program PROGRAM] [--most N]

A run has to answer as it does without the failure, or to name it, with a front of its rows, each
saved file as it was or whole, and no draft. A command is given N times for each kind of call at
most, spread over all of them. The calls fail in failing.c, a library that is loaded before the C
library, so this needs Linux and a C compiler. Run by hand.
"""
import argparse
import os
import subprocess
import sys
import tempfile

HERE = os.path.dirname(os.path.realpath(__file__))
TOP = os.path.dirname(os.path.dirname(HERE))
PLACES = "public state fixed x; public state fixed y; "
STEPS = "class P { #reach[2.0]; public state fixed x : x + 1.5; public state fixed y; }"
PAIRS = ("class H { #visible[3.0]; " + PLACES + "public state int n : c; "
         "public effect int c : count; public void run() { foreach (H p : Extent<H>) { "
         "foreach (H q : Extent<H>) { p.c <- 1; } } } }")
BEARING = ("class B { #reach[1.0]; " + PLACES + "public state int a : a + 1; "
           "spawn when a % 2 == 0 { x <- x + 0.5; } }")
STEPPING = {"s": STEPS, "a": "P,7,0,0\n"}
PAIRED = {"s": PAIRS, "a": "H,1,0,0,0\nH,2,3,0,0\nH,3,6,0,0\n", "k": "at 0 x 0.000001 4 y\n"}
WATCHED = {**PAIRED, "k": "at 0 x 0.000001 4 y 0\n", "w": "count H\nsum H n where n > 0\n"}
SAVED = "brace checkpoint 1\ntick 2\nseed 0\nclass P x:fixed y:fixed\nP,7,3.000000,0.000000\nend 1\n"
RUN = ("run", "--script", "s", "--agents", "a")
# Files, and words.
COMMANDS = (
    (PAIRED, (*RUN, "--ticks", "1", "--cuts", "k", "--stats")),
    (PAIRED, (*RUN, "--ticks", "1", "--cuts", "k", "--stats", "--invert")),
    ({**STEPPING, "c.2": "old"}, (*RUN, "--ticks", "2", "--epoch", "2", "--save", "c")),
    (STEPPING, (*RUN, "--ticks", "3", "--epoch", "2", "--save", "c", "--workers", "4")),
    ({"s": BEARING, "a": "B,1,0,0,0\nB,2,3,1,1\n", "k": "at 0 x 1 y\n"},
     (*RUN, "--ticks", "4", "--cuts", "k", "--epoch", "2", "--save", "c", "--workers", "2")),
    ({"s": STEPS, "c.2": SAVED}, ("resume", "--script", "s", "--from", "c.2", "--ticks", "3")),
    (WATCHED, (*RUN, "--ticks", "3", "--cuts", "k", "--epoch", "2", "--save", "c", "--watch", "w",
               "--workers", "4")),
    ({}, ("trial", "--count", "500", "--ticks", "4", "--epoch", "2", "--stats", "--workers", "2")),
)
# What a failing call may come to: a read, a write or a save that failed, no memory, or nothing. The
# host's own want of memory is a failure of its call, and a failure of standard error no status.
KINDS = {"memory": (0, 8, 10, 11), "open": (8, 10), "read": (8,), "write": (0, 9, 10),
         "statx": (10,), "fchmod": (10,), "fsync": (10,), "rename": (10,), "close": (0, 8, 10)}

tally = {"passed": 0, "failed": 0}


def same(what, found, wanted):
    tally["passed" if found == wanted else "failed"] += 1
    if found != wanted:
        print(f"FAILED {what}: {found!r}, wanted {wanted!r}"[:300])


class Command:
    """A command in a folder of its own, and what it comes to where no call fails."""

    def __init__(self, program, library, folder, files, words):
        self.words, self.library = [program, *words], library
        self.folder, self.files = folder, files
        self.count = os.path.join(folder, "..", "count")
        self.whole = self.run("none", 0)

    def run(self, kind, at):
        """Status, rows, messages, files, and how many calls of the kind were made, of which one
        failed."""
        for name in os.listdir(self.folder):
            os.remove(os.path.join(self.folder, name))
        for name, text in self.files.items():
            with open(os.path.join(self.folder, name), "w", encoding="utf-8") as file:
                file.write(text)
        with open(self.count, "wb") as file:
            file.write(bytes(8))
        more = {"LD_PRELOAD": self.library, "FAILING": kind, "FAILING_AT": str(at),
                "FAILING_COUNT": self.count}
        made = subprocess.run(self.words, cwd=self.folder, env={**os.environ, **more}, check=False,
                              capture_output=True, text=True, timeout=600)
        held = {}
        for name in sorted(os.listdir(self.folder)):
            with open(os.path.join(self.folder, name), encoding="utf-8") as file:
                held[name] = file.read()
        with open(self.count, "rb") as file:
            calls = int.from_bytes(file.read(8), sys.byteorder)
        return made.returncode, made.stdout, made.stderr, held, calls

    def messages(self, kind, status):
        """The messages that a status may have where a call of this kind failed."""
        if status == 0:
            return (self.whole[2], "") if kind == "write" else (self.whole[2],)
        if status in (9, 11):
            return (f"brace: {'write fault' if status == 9 else 'no memory'}\n",)
        what = "read" if status == 8 else "save"
        return [f"brace: {name}: {what} fault\n" for name in self.whole[3]
                if (name in self.words) == (status == 8)]

    def is_right(self, kind, found):
        """Whether this may come of the command where a call of this kind failed."""
        status, out, err, held, _ = found
        if status not in KINDS[kind] or err not in self.messages(kind, status):
            return False
        if status == 0:
            return (out, held) == (self.whole[1], self.whole[3])
        saved = all(text in (self.whole[3].get(name), self.files.get(name))
                    for name, text in held.items())
        return saved and self.whole[1].startswith(out) and (status != 8 or not out)

    def fail(self, kind, most):
        """Lets calls of a kind fail, at most so many, one in each run; how many were made."""
        calls = self.run(kind, 0)[4]
        for at in range(1, calls + 1, max(1, -(-calls // most))):
            found = self.run(kind, at)
            what = f"{' '.join(self.words[1:])}: call {at} of {kind}"
            same(what, (self.is_right(kind, found), found[:4]), (True, found[:4]))
        return calls


def main():
    words = argparse.ArgumentParser(description=__doc__.split("\n", 1)[0], allow_abbrev=False)
    built = os.path.join(TOP, "dist", "brace")
    words.add_argument("--program", default=built, help="dist/brace else")
    words.add_argument("--most", type=int, default=400, help="runs for a kind of call, 400 else")
    asked = words.parse_args()
    program = os.path.realpath(asked.program)
    with tempfile.TemporaryDirectory() as shelf:
        library, folder = os.path.join(shelf, "failing.so"), os.path.join(shelf, "folder")
        os.mkdir(folder)
        subprocess.run(["cc", "-O1", "-shared", "-fPIC", "-o", library,
                        os.path.join(HERE, "failing.c")], check=True)
        for files, asking in COMMANDS:
            command = Command(program, library, folder, files, asking)
            same("a command where no call fails", command.whole[0], 0)
            made = {kind: command.fail(kind, asked.most) for kind in KINDS}
            told = ", ".join(f"{calls} {kind}" for kind, calls in made.items())
            print(" ".join(asking) + ":", told)
    print(f"{tally['passed']} passed, {tally['failed']} failed")
    return 1 if tally["failed"] else 0


if __name__ == "__main__":
    sys.exit(main())
