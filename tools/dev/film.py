#!/usr/bin/env python3
"""For developers: makes docs/pictures/flock.svg, the school of examples/flock as it moves.

    tools/dev/film.py [--out PICTURE.svg]

Each fish is a dot that goes through its places at every fifth tick, by the animation of SVG itself.
"""
import argparse
import os
import sys

TOP = os.path.realpath(os.path.join(os.path.dirname(__file__), "..", ".."))
sys.path.insert(0, os.path.join(TOP, "tools"))
import cudrenal  # noqa: E402 (in the folder above)

TICKS, STEP, SECONDS = 150, 5, 15
WIDTH, MARGIN = 640, 12


def film(rows):
    """The text of the picture: rows of ticks that rise, with the same agents in each."""
    places, leads = {}, set()
    for row in rows:
        x, y, _, _, wish, *_ = row.values
        places.setdefault(row.id, []).append((x, y))
        if wish:
            leads.add(row.id)
    every = [place for line in places.values() for place in line]
    left, low = min(x for x, _ in every), min(y for _, y in every)
    right, top = max(x for x, _ in every), max(y for _, y in every)
    scale = (WIDTH - 2 * MARGIN) / (right - left)
    height = round((top - low) * scale) + 2 * MARGIN
    lines = [f'<svg xmlns="http://www.w3.org/2000/svg" viewBox="0 0 {WIDTH} {height}" '
             f'width="{WIDTH}" height="{height}">',
             f'<rect width="{WIDTH}" height="{height}" fill="#f6f8fa"/>']
    for name, line in places.items():
        values = ";".join(f"{MARGIN + (x - left) * scale:.0f} {MARGIN + (top - y) * scale:.0f}"
                          for x, y in line)
        fill = "#e07b1a" if name in leads else "#2f7ed8"
        lines.append(f'<circle r="3" fill="{fill}"><animateTransform attributeName="transform" '
                     f'type="translate" dur="{SECONDS}s" repeatCount="indefinite" '
                     f'values="{values}"/></circle>')
    return "\n".join(lines + ["</svg>", ""])


def main():
    words = argparse.ArgumentParser(description=__doc__.split("\n", 1)[0], allow_abbrev=False)
    words.add_argument("--out", default=os.path.join(TOP, "docs", "pictures", "flock.svg"))
    asked = words.parse_args()
    school = os.path.join(TOP, "examples", "flock")
    made = cudrenal.run(os.path.join(school, "flock.brasil"), os.path.join(school, "agents.csv"),
                        TICKS, every=STEP)
    with open(asked.out, "w", encoding="utf-8") as file:
        file.write(film(made.rows()))


if __name__ == "__main__":
    main()
