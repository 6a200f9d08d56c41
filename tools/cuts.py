#!/usr/bin/env python3
"""Makes a cut plan of strips along x and along y, with about as many agents in each.

    cuts.py agents.csv --script fish.brasil --across 8 --up 8 --out fish.plan

cuts the plane into 8 x 8 parts; cuts that would be at one place are left out, so there may be fewer.
It tells how many parts the plan has, and how many agents are in the fullest. Strips along x alone
are cut best by `brace balance`, which shows that no others do better.
"""
import argparse
import bisect
import collections
import decimal
import sys

import cudrenal


def loads(path, agents):
    """How many parts the first line of a plan has, and how many agents are in the fullest."""
    with open(path, encoding="utf-8") as file:
        words = file.readline().split()
    along_x, along_y = words[3:words.index("y")], words[words.index("y") + 1:]
    cuts = [[decimal.Decimal(cut) for cut in along] for along in (along_x, along_y)]
    # An agent on a cut belongs to the part above it.
    counts = collections.Counter(
        tuple(bisect.bisect_right(along, decimal.Decimal(str(agent[axis])))
              for axis, along in zip("xy", cuts)) for agent in agents)
    return (len(along_x) + 1) * (len(along_y) + 1), max(counts.values(), default=0)


def main():
    words = argparse.ArgumentParser(
        prog="cuts.py", description="A cut plan with about as many agents in each strip.",
        allow_abbrev=False)
    words.add_argument("agents", help="the agent file")
    words.add_argument("--script", required=True, help="the script, which names the states")
    words.add_argument("--across", type=int, default=1, help="how many strips along x")
    words.add_argument("--up", type=int, default=1, help="how many strips along y")
    words.add_argument("--out", required=True, metavar="PLAN", help="where the plan goes")
    asked = words.parse_args()
    try:
        agents = list(cudrenal.read_agents(asked.agents, asked.script))
        cudrenal.write_cuts(asked.out, agents, asked.across, asked.up)
        parts, fullest = loads(asked.out, agents)
        print(f"{asked.out}: {parts} parts, {fullest} of {len(agents)} agents in the fullest")
    except (OSError, UnicodeError, ValueError) as met:
        sys.exit(f"cuts.py: {met}")


if __name__ == "__main__":
    main()
