#!/usr/bin/env python3
"""For developers: definitions and lemmas in a crate's proofs/ that nothing names.

    tools/dev/unused.py CRATE..     (or no name: all crates)

A name of a file of crates/NAME/proofs/ is told where no source, definition or proof of any crate
has it but at its own declaration. It is a search by words: a name that stands in a comment counts
as used, and what the toolchain's tactics find without naming it is told although it is needed. So
try `rt check` without it before it goes.
"""
import argparse
import glob
import os
import re

TOP = os.path.realpath(os.path.join(os.path.dirname(__file__), "..", ".."))
DECLARED = re.compile(r"^\s*(?:pub )?(?:abbrev |record |data )?(?:pub )?([a-zA-Z_][\w-]*)"
                      r"(?:\s+(?:\{[^}]*\}|\([^)]*\)))*\s*:", re.M)


def texts():
    """The text of each source, definition and proof of the repository, by its path."""
    found = {}
    for form in ("src/**/*.rt", "specs/**/*.antt", "proofs/**/*.antt"):
        for path in glob.glob(os.path.join(TOP, "crates", "*", form), recursive=True):
            with open(path, encoding="utf-8") as file:
                found[path] = file.read()
    return found


def own_lines(text, name):
    """How many lines declare a name: its signature, and each clause, as far to the right."""
    begins = rf"^( *)(?:pub )?(?:abbrev )?(?:pub )?{re.escape(name)}(?![\w-])"
    found = [(len(line[1]), line[0]) for line in re.finditer(begins + ".*", text, re.M)]
    signature = begins + r"(?:\s+(?:\{[^}]*\}|\([^)]*\)))*\s*:"
    margins = {margin for margin, line in found if re.match(signature, line)}
    return sum(margin in margins and bool(re.match(signature + r"|.* =(?: |$)", line))
               for margin, line in found)


def main():
    words = argparse.ArgumentParser(description=__doc__.split("\n", 1)[0], allow_abbrev=False)
    words.add_argument("crates", nargs="*", metavar="CRATE")
    asked = words.parse_args()
    all_texts, counts = texts(), {}
    for text in all_texts.values():
        for word in re.findall(r"[a-zA-Z_][\w-]*", text):
            counts[word] = counts.get(word, 0) + 1
    for path, text in sorted(all_texts.items()):
        crate, folder, *rest = os.path.relpath(path, os.path.join(TOP, "crates")).split(os.sep)
        if folder != "proofs" or len(rest) != 1 or (asked.crates and crate not in asked.crates):
            continue
        for name in dict.fromkeys(DECLARED.findall(text)):
            own = own_lines(text, name)
            if counts[name] <= own:
                print(f"{crate}/proofs/{rest[0]}: {name}")


if __name__ == "__main__":
    main()
