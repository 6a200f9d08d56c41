#!/usr/bin/env python3
"""For developers: where the time of a crate's check goes, by function and by step.

    tools/dev/times.py FOLDER CRATE [LINES]     (FOLDER: as crates/NAME/out/incremental)

A check over an incremental folder keeps a file for each module that it has checked. A module counts
as many seconds of the clock as lie between its file and the one kept before it. So look at one
check from nothing, with one job; on a busy machine the seconds are too many, but not the shares.
`Lts` is the borrow checker's reading of a function, `Proof` its proof, `Tie` what ties the two to
its contract, `file` the lemma files.
"""
import argparse
import collections
import glob
import os
import re

STEPS = ("Lts", "Proof", "Tie", "TheLink", "Layout", "Code", "Statement", "Met", "Given", "Goals",
         "Answers", "Invariants", "TheInside", "Kinds")
PAUSE = 90


def modules(folder, crate):
    """The names of the crate's modules of proofs, with the seconds that each took."""
    name = re.compile(rf"Rattle-{crate}-proofs\.(.*)\.oantt$")
    kept = [(os.stat(path).st_mtime, os.path.basename(path))
            for path in glob.glob(os.path.join(folder, "**", "*.oantt"), recursive=True)]
    before = None
    for time, file in sorted(kept):
        found = name.match(file)
        if found and before is not None and time - before < PAUSE:
            yield found[1].split("."), time - before
        before = time


def main():
    words = argparse.ArgumentParser(description=__doc__.split("\n", 1)[0], allow_abbrev=False)
    words.add_argument("folder", metavar="FOLDER", help="where a check kept its modules")
    words.add_argument("crate", metavar="CRATE")
    words.add_argument("lines", metavar="LINES", type=int, nargs="?", default=30)
    asked = words.parse_args()
    steps, functions = collections.Counter(), collections.Counter()
    for parts, seconds in modules(asked.folder, asked.crate):
        at = next((i for i, part in enumerate(parts) if part.split("-")[0] in STEPS), len(parts))
        whole = "file" if len(parts) == 1 else "function"
        steps[parts[at].split("-")[0] if at < len(parts) else whole] += seconds
        functions[".".join(parts[:at])] += seconds
    print(f"{sum(steps.values()):8.1f} s in all")
    for counts, most in ((steps, None), (functions, asked.lines)):
        print()
        for name, seconds in counts.most_common(most):
            print(f"{seconds:8.1f} {name}")


if __name__ == "__main__":
    main()
