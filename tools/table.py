#!/usr/bin/env python3
"""Makes of published rows one CSV with a heading for each class, for tools that read tables.

    table.py rows.csv --script fish.brasil --out tables

writes tables/Fish.csv, with the columns tick, id and the states of Fish by name, and so on for each
class that the rows have. --tick N takes the rows of one tick alone; it may be given several times.
"""
import argparse
import contextlib
import os
import sys

import cudrenal


def split(path, script, folder, ticks):
    """Writes the tables, and answers to each class its file and how many rows it has."""
    classes, counts = cudrenal.states(script), {}
    os.makedirs(folder, exist_ok=True)
    with contextlib.ExitStack() as kept:
        files = {}
        rows = kept.enter_context(open(path, encoding="utf-8", newline="\n"))
        for count, line in enumerate(rows, 1):
            tick, _, rest = line.partition(",")
            kind, _, rest = rest.partition(",")
            if kind not in classes or not line.endswith("\n"):
                raise ValueError(f"{path}: row {count} is cut off" if kind in classes else
                                 f"{path}: row {count}: the script has no class {kind[:60]!r}")
            # The id and its comma stand before the values.
            if rest.count(",") != len(classes[kind]):
                raise ValueError(f"{path}: row {count} has {rest.count(',')} values, and {kind} "
                                 f"{len(classes[kind])} states")
            if ticks and int(tick) not in ticks:
                continue
            if kind not in files:
                name = os.path.join(folder, f"{kind}.csv.part")
                kept.callback(lambda name=name: os.path.exists(name) and os.remove(name))
                files[kind] = kept.enter_context(open(name, "w", encoding="utf-8", newline=""))
                files[kind].write(",".join(("tick", "id", *classes[kind])) + "\n")
                counts[kind] = 0
            files[kind].write(f"{tick},{rest}")
            counts[kind] += 1
        for kind, file in files.items():
            file.close()
            os.replace(file.name, os.path.join(folder, f"{kind}.csv"))
    return {kind: (os.path.join(folder, f"{kind}.csv"), count) for kind, count in counts.items()}


def main():
    words = argparse.ArgumentParser(
        prog="table.py", description="One CSV with a heading for each class.", allow_abbrev=False)
    words.add_argument("rows", help="the rows that brace run wrote")
    words.add_argument("--script", required=True, help="the script, which names the columns")
    words.add_argument("--out", default=".", metavar="FOLDER", help="where CLASS.csv goes")
    words.add_argument("--tick", type=int, action="append", help="the rows of this tick alone")
    asked = words.parse_args()
    try:
        for name, count in split(asked.rows, asked.script, asked.out, asked.tick).values():
            print(f"{name}: {count} rows")
    except ValueError as error:
        sys.exit(f"table.py: {error}")
    except OSError as error:
        sys.exit(f"table.py: {error.filename}: {error.strerror}")


if __name__ == "__main__":
    main()
