#!/usr/bin/env python3
"""Runs each example, and looks whether its README tells what it does.

    tools/tests/test_examples.py [--program PROGRAM] [--print]

A script is canonical but for its comments, `agents.py` prints `agents.csv`, the command ends with 0
and stands in the README, and so does the table of figures that is made here of the rows. --print
prints these tables. Run by hand.
"""
import argparse
import math
import os
import re
import shlex
import subprocess
import sys
import tempfile
import types

TOP = os.path.realpath(os.path.join(os.path.dirname(__file__), "..", ".."))
sys.path.insert(0, os.path.join(TOP, "tools"))
import plot  # noqa: E402 (beside this folder)


def mean(values):
    values = list(values)
    return sum(values) / len(values) if values else 0.0


def share(flags):
    return f"{100 * mean(map(bool, flags)):.0f} %"


def apart(one, other):
    return math.hypot(one.x - other.x, one.y - other.y)


def nearest(agent, agents):
    return min((other for other in agents if other is not agent), key=lambda o: apart(agent, o))


def turned(agent, x, y):
    """The angle, in degrees, between an agent's heading and a direction."""
    along, across = agent.vx * x + agent.vy * y, agent.vx * y - agent.vy * x
    return abs(math.degrees(math.atan2(across, along)))


def birds(agents, _):
    return {"next bird is of its kind": share(nearest(a, agents).kind == a.kind for a in agents),
            "of its kind in sight": f"{mean(a.own for a in agents):.1f}",
            "of the other kind": f"{mean(a.other for a in agents):.1f}"}


def door(agents, first):
    return {"in the room": sum(a.x >= 0.3 for a in agents),
            "in the passage": sum(a.x < 0.3 for a in agents),
            "out": len(first) - len(agents)}


def drift(agents, _):
    return {"mean x": f"{mean(a.x for a in agents):.1f}",
            "mean y": f"{mean(a.y for a in agents):.1f}",
            "mean vx": f"{mean(a.vx for a in agents):.2f}"}


def epidemic(agents, first):
    return {"ill": sum(a.ill > 0 for a in agents), "immune": sum(a.immune > 0 for a in agents),
            "dead": len(first) - len(agents)}


def flock(agents, first):
    leader = next(a for a in first if a.wx or a.wy)
    long = [math.hypot(a.vx, a.vy) for a in agents]
    alike = math.hypot(mean(a.vx / v for a, v in zip(agents, long)),
                       mean(a.vy / v for a, v in zip(agents, long)))
    others = [a for a in agents if not a.wx and not a.wy]
    return {"of one direction": f"{alike:.2f}",
            "as the leaders wish": share(turned(a, leader.wx, leader.wy) < 30 for a in others),
            "to the next fish": f"{mean(apart(a, nearest(a, agents)) for a in agents):.2f}"}


def orbit(agents, _):
    far = [math.hypot(a.x, a.y) for a in agents if a.kind == "Planet"]
    return {"nearest planet": f"{min(far):.1f}", "mean": f"{mean(far):.1f}",
            "farthest": f"{max(far):.1f}"}


def predators(agents, _):
    return {"hares": sum(a.kind == "Hare" for a in agents),
            "foxes": sum(a.kind == "Fox" for a in agents),
            "the last id": max(a.id for a in agents)}


def road(agents, _):
    found = {}
    for radius in sorted({a.radius for a in agents}):
        ring = [a for a in agents if a.radius == radius]
        found[f"ring of {radius:.0f} m"] = (
            f"{mean(a.v for a in ring):.1f} ({share(a.v < 1 for a in ring)})")
    return found


def rumour(agents, _):
    return {what: sum(a.news == news for a in agents)
            for news, what in enumerate(("know nothing", "the rumour", "the denial"))}


# What is told of each example, and at which ticks.
FIGURES = {
    "birds": (birds, (0, 10, 20, 40, 200)),
    "door": (door, (0, 20, 60, 100, 140, 180, 185)),
    "drift": (drift, (0, 3, 24)),
    "epidemic": (epidemic, (0, 10, 20, 40, 200)),
    "flock": (flock, (0, 20, 40, 100, 200)),
    "orbit": (orbit, (0, 60, 200)),
    "predators": (predators, (0, 32, 47, 75, 115, 150, 166, 194, 229, 258, 280, 300)),
    "road": (road, (0, 50, 100, 150, 200)),
    "rumour": (rumour, (0, 40, 80, 120, 160, 200)),
}


def world(script, rows, ticks):
    """The agents of each of these ticks, with their states by name."""
    columns, found = plot.Columns(script), {}
    for tick, kind, name, texts in plot.Rows(rows, columns.types).read():
        if tick in ticks:
            states = dict(zip(columns.names(kind), map(plot.number, texts)))
            found.setdefault(tick, []).append(types.SimpleNamespace(kind=kind, id=name, **states))
    return found


def table(script, rows, name):
    figures, ticks = FIGURES[name]
    found, lines = world(script, rows, ticks), []
    for tick in ticks:
        if tick not in found:
            return f"no agents at tick {tick}"
        told = figures(found[tick], found[ticks[0]])
        if not lines:
            lines = [f"| tick | {' | '.join(told)} |", "|---" * (1 + len(told)) + "|"]
        lines.append(f"| {tick} | {' | '.join(map(str, told.values()))} |")
    return "\n".join(lines) + "\n"


def read(*path):
    with open(os.path.join(TOP, *path), encoding="utf-8") as file:
        return file.read()


def output(words):
    made = subprocess.run(words, cwd=TOP, capture_output=True, text=True)
    return made.stdout if made.returncode == 0 else f"{made.returncode} {made.stderr}"


def check(same, name, program, printed):
    folder = os.path.join("examples", name)
    path, maker = os.path.join(folder, f"{name}.brasil"), os.path.join(folder, "agents.py")
    page, command = read(folder, "README.md"), read(folder, "command")
    bare = "".join(line for line in read(path).splitlines(keepends=True)
                   if not line.lstrip().startswith("//"))
    same("canonical", output([program, "fmt", "--script", path]), bare)
    if os.path.exists(os.path.join(TOP, maker)):
        same("agents.py", output([sys.executable, maker]), read(folder, "agents.csv"))
    same("README has the command", command.strip() in re.sub(r" \\\n +", " ", page), True)
    with tempfile.TemporaryDirectory() as work:
        rows = os.path.join(work, "rows.csv")
        with open(rows, "wb") as out:
            made = subprocess.run([program, *shlex.split(command)[1:]], cwd=TOP, stdout=out,
                                  stderr=subprocess.PIPE, text=True)
        same("run", (made.returncode, made.stderr), (0, ""))
        told = table(os.path.join(TOP, path), rows, name) if made.returncode == 0 else "no figures"
    if printed:
        print(f"{name}\n{told}")
    same("README has the figures", told in page, True)


def main():
    words = argparse.ArgumentParser(description=__doc__.split("\n", 1)[0], allow_abbrev=False)
    words.add_argument("--program", default="./brace", help="what runs the examples, ./brace else")
    words.add_argument("--print", action="store_true", dest="printed", help="print the tables")
    asked = words.parse_args()
    count = failed = 0
    for name in sorted(os.listdir(os.path.join(TOP, "examples"))):
        if not os.path.isdir(os.path.join(TOP, "examples", name)):
            continue

        def same(what, found, wanted):
            nonlocal count, failed
            count += 1
            if found != wanted:
                failed += 1
                print(f"FAILED {name}, {what}: {found!r}, wanted {wanted!r}"[:400])

        check(same, name, asked.program, asked.printed)
    print(f"{count - failed} passed, {failed} failed")
    return 1 if failed else 0


if __name__ == "__main__":
    sys.exit(main())
