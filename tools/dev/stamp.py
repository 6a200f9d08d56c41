#!/usr/bin/env python3
"""For developers: takes libraries that another clone has built, where its sources are the same.

    tools/dev/stamp.py FROM CRATE..     the libraries of these crates
    tools/dev/stamp.py FROM --below CRATE..     of all of the repository that they stand on

Copies crates/NAME/out/rlib from the clone FROM into this one and stamps it with the checksum of
this clone's sources, so that `rt check` of a crate above does not build it anew. It does not look
whether FROM was built from the same sources: that is the caller's word, and the gate believes none
of it, since `rt ci` keeps its own. Needs the toolchain's module rtlib, so a new kit may break it.
"""
import argparse
import os
import shutil
import sys

TOP = os.path.realpath(os.path.join(os.path.dirname(__file__), "..", ".."))


def toolchain():
    """The toolchain's module of crates, which lies beside the command `rt`."""
    command = shutil.which("rt")
    if command is None:
        sys.exit("stamp.py: there is no rt on the PATH")
    sys.path.insert(0, os.path.dirname(os.path.realpath(command)))
    import rtlib
    return rtlib


def crate(rtlib, name):
    folder = os.path.join(TOP, "crates", name)
    if not os.path.isdir(folder):
        sys.exit(f"stamp.py: there is no crate {name}")
    # The toolchain looks for what a crate stands on from the folder in which it is called.
    os.chdir(folder)
    return rtlib.Crate(folder, rtlib.root_above(folder) or folder, {})


def take(found, source):
    """Copies and stamps one library; says what came of it."""
    name = os.path.basename(found.folder)
    old = os.path.join(source, "crates", name, "out", "rlib")
    new = os.path.join(found.folder, "out", "rlib")
    if not os.path.isdir(old) or not os.listdir(old):
        return f"{name}: not built in {source}"
    shutil.rmtree(new, ignore_errors=True)
    os.makedirs(os.path.dirname(new), exist_ok=True)
    shutil.copytree(old, new)
    with open(os.path.join(new, "stamp"), "w", encoding="utf-8") as file:
        file.write(found.stamp())
    return f"{name}: {'taken' if found.is_built() else 'taken, and not held for built'}"


def main():
    words = argparse.ArgumentParser(description=__doc__.split("\n", 1)[0], allow_abbrev=False)
    words.add_argument("source", metavar="FROM", help="the clone that has built them")
    words.add_argument("crates", nargs="+", metavar="CRATE")
    words.add_argument("--below", action="store_true", help="all that these crates stand on")
    asked = words.parse_args()
    source, rtlib = os.path.realpath(asked.source), toolchain()
    for name in asked.crates:
        top = crate(rtlib, name)
        for found in top.below() if asked.below else [top]:
            if os.path.realpath(found.folder).startswith(TOP + os.sep):
                print(take(found, source))


if __name__ == "__main__":
    main()
