#!/usr/bin/env python3
"""For developers: which functions of built libraries have most steps for the prover to read.

    tools/dev/steps.py [LINES] [CLONE]     (CLONE: whose libraries; else this clone's)

A library keeps what was generated for each of its functions. The bytes of a function's steps grow
with its calls, `?`, arms and drops, and its proof costs somewhat more than in proportion to them. So
this tells in a second, for all crates that were built, where a function is best cut; the seconds
themselves `times.py` takes from a check. The form of what is read is the toolchain's own, so a new
kit may break it.
"""
import argparse
import glob
import json
import os
import re

TOP = os.path.realpath(os.path.join(os.path.dirname(__file__), "..", ".."))
STEPS = re.compile(r"proofs/(.*)/Lts(?:-([^/]*))?$")


def steps(library):
    """The functions of a library with the bytes of their steps."""
    name = ""
    with open(os.path.join(library, "lang", "antt", "made.json")) as file:
        for line in file:
            if line.startswith('"'):
                name = json.loads(line)
                continue
            found = STEPS.match(name)
            if found and line.startswith('{"Lts":'):
                yield "/".join(filter(None, found.groups())), len(line)


def main():
    words = argparse.ArgumentParser(description=__doc__.split("\n", 1)[0], allow_abbrev=False)
    words.add_argument("lines", metavar="LINES", type=int, nargs="?", default=40)
    words.add_argument("clone", metavar="CLONE", nargs="?", default=TOP)
    asked = words.parse_args()
    functions, crates = [], []
    for library in glob.glob(os.path.join(asked.clone, "crates", "*", "out", "rlib", "*.rlib")):
        crate = os.path.basename(library).removesuffix(".rlib")
        own = [(size, crate, function) for function, size in steps(library)]
        functions += own
        crates.append((sum(size for size, _, _ in own), crate, f"{len(own)} functions"))
    for rows in (sorted(crates, reverse=True), sorted(functions, reverse=True)[:asked.lines]):
        for size, crate, what in rows:
            print(f"{size / 1000:8.0f} KB {crate:20} {what}")
        print()


if __name__ == "__main__":
    main()
