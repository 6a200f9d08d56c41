"""Makes agents of a line of values a state.

A line is items with blanks or commas between them, each for the next agent, and the last one for
all that are left: a value (`0.5`, `-3`, `true`), or a draw between two (`0..90`). `*N` behind an
item gives it to N agents. So `9*4 0` is 9 for the first four and 0 for all others.
"""
import decimal
import random
import re

import cudrenal

NUMBER = r"-?[0-9]+(?:\.[0-9]{1,6})?"
ITEM = re.compile(rf"(?:(?P<flag>true|false)|(?P<low>{NUMBER})(?:\.\.(?P<high>{NUMBER}))?)"
                  r"(?:\*(?P<times>[0-9]{1,7}))?", re.A)
MILLION = 10 ** 6


class BadLine(ValueError):
    """A line of values that is none, or of another type than its state."""


class Line:
    """A line of values for a state of a type; `value` gives that of each agent in turn."""

    def __init__(self, kind, text):
        self.kind, self.items = kind, []
        for word in text.replace(",", " ").split():
            found = ITEM.fullmatch(word)
            if not found:
                raise BadLine(f"{word[:40]!r} is no value")
            self.items.append((self.ends(found), int(found["times"] or 1)))
        if not self.items:
            raise BadLine("there is no value")

    def ends(self, found):
        """The least and the greatest value of an item, as whole numbers of the type's steps."""
        if (self.kind == "bool") != bool(found["flag"]):
            raise BadLine(f"{found[0]!r} is no {self.kind}")
        if self.kind == "bool":
            return (found["flag"],) * 2
        low, high = (self.steps(found[name] or found["low"]) for name in ("low", "high"))
        if low > high:
            raise BadLine(f"{found[0]!r} falls")
        return low, high

    def steps(self, number):
        """How many of the least steps of the type a number is."""
        if self.kind == "int":
            if "." in number:
                raise BadLine(f"{number!r} is no whole number")
            return int(number)
        return int(decimal.Decimal(number) * MILLION)

    def value(self, number, draw):
        """The text of the value of the agent of this number, from 0 on."""
        for (low, high), times in self.items:
            number -= times
            if number < 0:
                break
        if self.kind == "bool":
            return low
        drawn = draw.randint(low, high)
        return str(drawn) if self.kind == "int" else spelled(drawn)


def spelled(millionths):
    """The text of a fixed number, as rows have it."""
    size = abs(millionths)
    return f"{'-' if millionths < 0 else ''}{size // MILLION}.{size % MILLION:06}"


def lines(states, area, values):
    """The line of each state: of a place the side of the area, of others what is given, or 0."""
    left, low, right, top = area
    sides = {"x": f"{left:.6f}..{right:.6f}", "y": f"{low:.6f}..{top:.6f}"}
    found = []
    for name, kind in states.items():
        given = sides.get(name) or values.get(name) or ("false" if kind == "bool" else "0")
        try:
            found.append(Line(kind, given))
        except BadLine as error:
            raise BadLine(f"{name}: {error}") from None
    return found


def made(script, crowds, seed):
    """The text of an agent file: `crowds` are class, count, area and values, in order of ids."""
    classes, draw, text, number = cudrenal.states(script), random.Random(seed), [], 0
    for crowd in crowds:
        if crowd["class"] not in classes:
            raise BadLine(f"the script has no class {crowd['class'][:64]}")
        states = lines(classes[crowd["class"]], crowd["area"], crowd["values"])
        for place in range(crowd["count"]):
            values = ",".join(line.value(place, draw) for line in states)
            text.append(f"{crowd['class']},{number},{values}\n")
            number += 1
    return "".join(text)
