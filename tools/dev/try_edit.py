#!/usr/bin/env python3
"""For developers: whether the contracts of one module refuse a must-fail edit.

    tools/dev/try_edit.py CRATE EDIT MODULE

Applies crates/CRATE/must-fail/EDIT.edit, calls `rt check --only MODULE` (a module or a function, as
`brace_num::list`), prints what it says of proofs, and takes the edit back. In a clone in which the
crate was checked before, this takes half a minute, where `rt must-fail` first checks the whole crate
anew; the gate believes none of it. Ends with 0 where the edit is refused.
"""
import os
import re
import subprocess
import sys

TOP = os.path.realpath(os.path.join(os.path.dirname(__file__), "..", ".."))
PARTS = re.compile(r"^(file|old|new):(.*(?:\n(?!file:|old:|new:).*)*)", re.M)
TOLD = ("not proved", "error", "only=", "logic=")


def changed(edit):
    """The texts of the files that an edit changes, before and after."""
    before, after, name, old = {}, {}, None, None
    with open(edit) as file:
        parts = PARTS.findall(file.read())
    for kind, text in parts:
        text = text.rstrip("\n").removeprefix(" ")
        if kind == "file":
            name = text.strip()
            if name not in before:
                with open(name) as file:
                    before[name] = after[name] = file.read()
        elif kind == "old":
            old = text
        elif after[name].count(old) != 1:
            sys.exit(f"try_edit.py: the old text stands {after[name].count(old)} times in {name}")
        else:
            after[name] = after[name].replace(old, text)
    return before, after


def write(texts):
    for name, text in texts.items():
        with open(name, "w") as file:
            file.write(text)


def main():
    if len(sys.argv) != 4:
        sys.exit(__doc__)
    crate, edit, module = sys.argv[1:]
    os.chdir(os.path.join(TOP, "crates", crate))
    before, after = changed(f"must-fail/{edit}.edit")
    write(after)
    try:
        done = subprocess.run(["rt", "check", "--only", module], capture_output=True, text=True)
    finally:
        write(before)
    for line in (done.stdout + done.stderr).splitlines():
        if any(word in line for word in TOLD):
            print(line[:200])
    return 0 if done.returncode else 1


if __name__ == "__main__":
    sys.exit(main())
