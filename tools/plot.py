#!/usr/bin/env python3
"""Draws published rows as SVG, for papers: the agents of one tick, or a column over all ticks; and
the figures that a run watched.

    plot.py rows.csv --script fish.brasil --tick 100 --out school.svg
    plot.py rows.csv --script fish.brasil --series vx --out speed.svg
    plot.py rows.csv --script ill.brasil --counts status --out cases.svg
    plot.py rows.csv --script foxes.brasil --counts class --out waves.svg
    plot.py --figures ill.watch --out ill.svg
    plot.py --figures ill.watch --boxes 1 --out where.svg

A column is named as in the script, or by CLASS.NAME; without a script by its number, from 1.
Figures are those of all files NAME.k; a figure is named by its line of NAME, the watch file, or by
its number where that is not there. With --boxes one figure is drawn as a band a box.
"""
import argparse
import collections
import gc
import glob
import itertools
import math
import operator
import os
import re
import sys
from html import escape

COLOURS = ["#2f7ed8", "#e07b1a", "#2a9d60", "#c9408c", "#8a63d2", "#c4483a", "#1f9eab", "#8f8a2c"]
SCALE = ["#3a6fd8", "#1fa3a8", "#5fb04a", "#e0a020", "#d9482b"]
FORMS = {"fixed": r"-?[0-9]+\.[0-9]{1,6}", "int": "-?[0-9]+", "bool": "(?:true|false)"}
VALUE = re.compile("|".join(f"(?P<{kind}>{form})" for kind, form in FORMS.items()))
DIGITS, NAME = re.compile("[0-9]+"), re.compile(r"[A-Za-z_]\w*", re.A)
WIDTH, HEIGHT = 640, 480
LEFT, RIGHT, TOP, BOTTOM = 70, 620, 40, 430
# Bytes that are read at once: few first, in which the classes are met.
FIRST, CHUNK = 1 << 16, 1 << 20


class Refusal(Exception):
    """What is wrong with a file or with what was asked, in one line."""


def read_script(path):
    """The classes of a script: to each name the names and types of its states, in order."""
    with open(path, encoding="utf-8", errors="replace") as file:
        bare = re.sub(r"//[^\n]*|/\*.*?\*/", " ", file.read(), flags=re.S)
    classes, states = {}, None
    for name, kind, state in re.findall(
            r"\bclass\s+(\w+)\s*\{|\bstate\s+(\w+)\s+(\w+)\s*[:;]", bare, re.A):
        if name:
            states = classes.setdefault(name, [])
        elif states is not None:
            states.append((state, kind))
    if not classes:
        raise Refusal(f"{path}: has no class")
    return classes


def number(text):
    return float(text == "true" if text in ("true", "false") else text)


def numbers(kind, texts):
    """The numbers of values of one type, spelled in bytes."""
    return list(map(b"true".__eq__ if kind == "bool" else float, texts))


def kinds_of(texts):
    """The types of spelled values."""
    kinds = []
    for column, text in enumerate(texts, 1):
        found = VALUE.fullmatch(text)
        if not found:
            raise Refusal(f"has {text[:60]!r} for value {column}")
        kinds.append(found.lastgroup)
    return kinds


class Rows:
    """A file of rows; `types` has the types of each class's values, first those of the script."""

    def __init__(self, path, types):
        self.path = path
        self.types = types
        self.forms = {}

    def read(self, last=math.inf):
        """Gives tick, class, id and the texts of the values of each row up to the tick `last`."""
        before = (-1, -1)
        with open(self.path, encoding="utf-8", errors="replace", newline="\n") as file:
            for count, line in enumerate(file, 1):
                try:
                    row = self.row(line, before)
                except Refusal as refusal:
                    raise Refusal(f"{self.path}: row {count} {refusal}") from None
                if row[0] > last:
                    return
                before = row[0], row[2]
                yield row
        if before == (-1, -1):
            raise Refusal(f"{self.path}: the file has no rows")

    def pieces(self, wanted, last=math.inf):
        """Gives tick, class and columns of rows that lie together, up to the tick `last`.

        `wanted(kind)` says which columns of a class, by rising index; each is given under its
        index, as the list of its texts in bytes.
        """
        count, before, rest, size, pattern = 0, (-1, -1), b"", FIRST, None
        with open(self.path, "rb") as file:
            while piece := file.read(size):
                lines, feed, rest = (rest + piece).rpartition(b"\n")
                lines, size = lines + feed, CHUNK
                found = pattern and pattern.read(lines, before)
                if not found:
                    found = self.slowly(lines, count, before, wanted)
                    pattern = Pattern(self.types, {kind: wanted(kind) for kind in self.forms})
                for tick, kind, columns, before in found:
                    if tick > last:
                        return
                    yield tick, kind, columns
                count += lines.count(b"\n")
        if rest:
            list(self.slowly(rest, count, before, wanted))
        if before == (-1, -1):
            raise Refusal(f"{self.path}: the file has no rows")

    def slowly(self, lines, count, before, wanted):
        """The rows of some lines one by one, behind `count` rows of which the last was `before`."""
        found = []
        for count, line in enumerate(lines.splitlines(keepends=True), count + 1):
            try:
                tick, kind, name, texts = self.row(line.decode("utf-8", "replace"), before)
            except Refusal as refusal:
                raise Refusal(f"{self.path}: row {count} {refusal}") from None
            before = tick, name
            found.append((tick, kind, {i: [texts[i].encode()] for i in wanted(kind)}, before))
        return found

    def row(self, line, before):
        if not line.endswith("\n"):
            raise Refusal("ends before its line feed; is the file cut off?")
        line = line.rstrip("\r\n")
        parts = line.split(",", 3)
        if len(parts) < 4:
            raise Refusal(f"is not tick,class,id,values: {line[:60]!r}")
        for what, text, form in zip(("a tick", "a class", "an id"), parts, (DIGITS, NAME, DIGITS)):
            if not form.fullmatch(text):
                raise Refusal(f"has {text[:60]!r} for {what}")
        tick, kind, name = int(parts[0]), parts[1], int(parts[2])
        if tick < before[0]:
            raise Refusal(f"is of tick {tick}, behind rows of tick {before[0]}")
        if (tick, name) <= before:
            raise Refusal(f"has the id {name} behind {before[1]}; in a tick ids rise")
        return tick, kind, name, self.values(kind, parts[3])

    def values(self, kind, text):
        texts = text.split(",")
        if kind not in self.forms:
            wanted = self.types.setdefault(kind, kinds_of(texts))
            self.forms[kind] = re.compile(",".join(FORMS[value] for value in wanted))
        if not self.forms[kind].fullmatch(text):
            raise Refusal(f"has values of the types {' '.join(kinds_of(texts))}, and {kind} has "
                          f"{' '.join(self.types[kind]) or 'none'}")
        return texts


class Pattern:
    """Reads many rows at once, where they are of known classes and in order, and else none."""

    def __init__(self, types, wanted):
        self.kinds, rows, group = [], [], 1
        for kind, indexes in wanted.items():
            self.kinds.append((kind, group, indexes))
            group += 1 + len(indexes)
            forms = [f"({FORMS[value]})" if i in indexes else FORMS[value]
                     for i, value in enumerate(types[kind])]
            rows.append(f"{kind},([0-9]+),{','.join(forms)}")
        self.form = re.compile(f"^([0-9]+),(?:{'|'.join(rows)})\n".encode(), re.M)

    def read(self, lines, before):
        """Tick, class, columns and the last row of each piece, or None."""
        rows = self.form.findall(lines)
        # A row has one line feed and begins a line, so these are all of the lines.
        if not rows or len(rows) != lines.count(b"\n"):
            return None
        groups = list(zip(*rows))
        names = groups[self.kinds[0][1]]
        for _, group, _ in self.kinds[1:]:
            names = map(operator.add, names, groups[group])
        names = list(map(int, names))
        found, end = [], 0
        for text, run in itertools.groupby(groups[0]):
            tick, at, end = int(text), end, end + len(list(run))
            run = names[at:end]
            if (tick, run[0]) <= before or not all(map(operator.lt, run, run[1:])):
                return None
            before = tick, run[-1]
            for kind, group, indexes in self.kinds:
                mine = groups[group][at:end]
                if any(mine):
                    found.append((tick, kind, {
                        index: list(itertools.compress(groups[group + 1 + i][at:end], mine))
                        for i, index in enumerate(indexes)}, before))
        return found


class Columns:
    """Names the columns of each class: by the script, or else by their numbers."""

    def __init__(self, script):
        self.states = read_script(script) if script else None
        self.types = {name: [kind for _, kind in states]
                      for name, states in (self.states or {}).items()}

    def known(self, kind):
        if self.states is not None and kind not in self.states:
            raise Refusal(f"the script has no class {kind}, and the rows have")

    def names(self, kind):
        if self.states is not None:
            return [name for name, _ in self.states[kind]]
        return [str(i) for i in range(1, len(self.types[kind]) + 1)]

    def index(self, kind, column):
        """The place of a column in a class, or None; CLASS.NAME is of that class alone."""
        owner, _, name = column.rpartition(".")
        names = self.names(kind)
        return names.index(name) if owner in ("", kind) and name in names else None

    def place(self, kind):
        """The places of x and y; without a script the first two columns of fixed values."""
        if self.states is not None:
            return self.index(kind, "x"), self.index(kind, "y")
        fixed = [i for i, value in enumerate(self.types[kind]) if value == "fixed"]
        return tuple((fixed + [None, None])[:2])


def round_step(least):
    """The step of 1, 2 or 5 times a power of ten that is at least `least`."""
    power = 10 ** math.floor(math.log10(least))
    return next(times * power for times in (1, 2, 5, 10) if times * power >= least * 0.999)


def brief(number):
    return f"{number:.6g}"


class Axes:
    """Two axes over the frame of the picture; with `square` one unit is as long up as across."""

    def __init__(self, across, up, square=False):
        (self.left, right), (self.low, top) = wide(across), wide(up)
        self.by_x = (RIGHT - LEFT) / (right - self.left)
        self.by_y = (BOTTOM - TOP) / (top - self.low)
        if square:
            self.by_x = self.by_y = min(self.by_x, self.by_y)
            self.left = (self.left + right) / 2 - (RIGHT - LEFT) / 2 / self.by_x
            self.low = (self.low + top) / 2 - (BOTTOM - TOP) / 2 / self.by_y

    def x(self, value):
        return LEFT + (value - self.left) * self.by_x

    def y(self, value):
        return BOTTOM - (value - self.low) * self.by_y

    def drawn(self):
        parts = ['<g stroke="#d5d9e0" fill="none">']
        labels = ['<g fill="#4a5361">']
        step = round_step(80 / self.by_x)
        for i in range(math.ceil(self.left / step), 1 + math.floor(
                (self.left + (RIGHT - LEFT) / self.by_x) / step)):
            x = self.x(i * step)
            parts.append(f'<path d="M{x:.1f} {TOP}V{BOTTOM}"/>')
            labels.append(f'<text x="{x:.1f}" y="{BOTTOM + 18}" text-anchor="middle">'
                          f'{brief(i * step)}</text>')
        step = round_step(50 / self.by_y)
        for i in range(math.ceil(self.low / step), 1 + math.floor(
                (self.low + (BOTTOM - TOP) / self.by_y) / step)):
            y = self.y(i * step)
            parts.append(f'<path d="M{LEFT} {y:.1f}H{RIGHT}"/>')
            labels.append(f'<text x="{LEFT - 8}" y="{y + 4:.1f}" text-anchor="end">'
                          f'{brief(i * step)}</text>')
        frame = f'<path d="M{LEFT} {TOP}H{RIGHT}V{BOTTOM}H{LEFT}Z"/>'
        return parts + [frame, "</g>"] + labels + ["</g>"]


def wide(ends):
    """The ends of an axis, a little apart where they are one."""
    low, top = ends
    pad = (top - low) * 0.04 or max(abs(low) * 0.04, 0.5)
    return low - pad, top + pad


def picture(title, key, across, parts):
    """The text of an SVG file: its title, the key's colours and words, the axis, what is drawn."""
    lines = [f'<svg xmlns="http://www.w3.org/2000/svg" viewBox="0 0 {WIDTH} {HEIGHT}" '
             f'width="{WIDTH}" height="{HEIGHT}" font-family="sans-serif" font-size="12">',
             f'<rect width="{WIDTH}" height="{HEIGHT}" fill="#ffffff"/>',
             f'<text x="{LEFT}" y="26" font-size="15" fill="#1c2430">{escape(title)}</text>']
    at = RIGHT
    for colour, word in reversed(key):
        at -= 7 * len(word)
        lines += [f'<text x="{at}" y="26" fill="#1c2430">{escape(word)}</text>',
                  f'<circle cx="{at - 10}" cy="22" r="5" fill="{colour}"/>']
        at -= 34
    middle = (LEFT + RIGHT) // 2
    lines += parts + [f'<text x="{middle}" y="{HEIGHT - 10}" text-anchor="middle" fill="#4a5361">'
                      f"{escape(across)}</text>", "</svg>", ""]
    return "\n".join(lines)


def shade(part):
    """The colour at a part, from 0 to 1, of the scale."""
    at = min(len(SCALE) - 1.001, max(0.0, part * (len(SCALE) - 1)))
    low, high = SCALE[int(at)], SCALE[int(at) + 1]
    mixed = []
    for i in (1, 3, 5):
        begin, end = int(low[i:i + 2], 16), int(high[i:i + 2], 16)
        mixed.append(round(begin + (at - int(at)) * (end - begin)))
    return "#%02x%02x%02x" % tuple(mixed)


def draw_tick(path, columns, tick, colour):
    """The agents of one tick, as dots on the plane."""
    rows, dots, last = Rows(path, columns.types), [], None

    def wanted(kind):
        columns.known(kind)
        found = {*columns.place(kind), columns.index(kind, colour) if colour else None}
        return sorted(found - {None})

    for last, kind, texts in rows.pieces(wanted, tick):
        places = columns.place(kind)
        if last == tick and None not in places:
            across, up = (numbers("fixed", texts[place]) for place in places)
            index = columns.index(kind, colour) if colour else None
            values = [None] * len(across) if index is None else numbers(
                rows.types[kind][index], texts[index])
            dots += zip(across, up, itertools.repeat(kind), values)
    if not dots:
        raise Refusal(f"{path}: has no agents at tick {tick}; the last tick read is {last}")
    axes = Axes((min(x for x, *_ in dots), max(x for x, *_ in dots)),
                (min(y for _, y, *_ in dots), max(y for _, y, *_ in dots)), square=True)
    kinds = sorted({kind for _, _, kind, _ in dots}, key=list(columns.types).index)
    dots.sort(key=lambda dot: kinds.index(dot[2]))
    fills = {kind: COLOURS[i % len(COLOURS)] for i, kind in enumerate(kinds)}
    key = [(fills[kind], kind) for kind in kinds]
    if colour:
        values = [value for *_, value in dots if value is not None]
        if not values:
            raise Refusal(f"no class at tick {tick} has a column {colour}")
        low, top = min(values), max(values)
        key = [(SCALE[0], f"{colour} {brief(low)}"), (SCALE[-1], brief(top))]
    radius = 3 if len(dots) < 2000 else 1.5
    parts = axes.drawn()
    for x, y, kind, value in dots:
        fill = fills[kind] if not colour else (
            "#9aa3af" if value is None else shade((value - low) / ((top - low) or 1)))
        parts.append(f'<circle cx="{axes.x(x):.2f}" cy="{axes.y(y):.2f}" r="{radius}" '
                     f'fill="{fill}"/>')
    return picture(f"tick {tick}, {len(dots)} agents", key, "x", parts)


def column_of(path, columns, column):
    """The name of a column, and tick, type and texts of its values, piece by piece."""
    rows, owner, found = Rows(path, columns.types), None, []

    def wanted(kind):
        columns.known(kind)
        index = columns.index(kind, column)
        return [] if index is None else [index]

    for tick, kind, texts in rows.pieces(wanted):
        for index, values in texts.items():
            if owner not in (None, kind):
                raise Refusal(f"{column} is a column of {owner} and of {kind}; "
                              f"say {owner}.{column}")
            owner = kind
            found.append((tick, rows.types[kind][index], values))
    if not found:
        raise Refusal(f"{path}: no class has a column {column}")
    return column if "." in column else f"{owner}.{column}", found


def points(axes, line):
    return [f"{axes.x(tick):.2f},{axes.y(value):.2f}" for tick, value in line.items()]


def draw_series(path, columns, column):
    """The least, mean and greatest value of a column over all ticks."""
    name, pieces = column_of(path, columns, column)
    least, total, count, greatest = {}, {}, {}, {}
    for tick, kind, texts in pieces:
        values = numbers(kind, texts)
        least[tick] = min(least.get(tick, math.inf), min(values))
        total[tick] = total.get(tick, 0.0) + sum(values)
        count[tick] = count.get(tick, 0) + len(values)
        greatest[tick] = max(greatest.get(tick, -math.inf), max(values))
    axes = Axes((min(least), max(least)), (min(least.values()), max(greatest.values())))
    band = " ".join(points(axes, greatest) + points(axes, least)[::-1])
    mean = " ".join(points(axes, {tick: total[tick] / count[tick] for tick in total}))
    parts = axes.drawn() + [
        f'<polygon points="{band}" fill="{COLOURS[0]}" fill-opacity="0.2"/>',
        f'<polyline points="{mean}" fill="none" stroke="{COLOURS[0]}" stroke-width="2"/>']
    return picture(name, [(COLOURS[0], "mean"), ("#c5dbf5", "least to greatest")], "tick", parts)


def draw_counts(path, columns, column):
    """How many agents have each value of a column, over all ticks."""
    name, pieces = column_of(path, columns, column)
    counts, total = {}, collections.Counter()
    for tick, kind, texts in pieces:
        if kind == "fixed":
            raise Refusal(f"{name} is fixed; --counts takes an int or a bool")
        counts.setdefault(tick, collections.Counter()).update(texts)
    for found in counts.values():
        total.update(found)
    # The commonest values have lines of their own, by rising value; the others one together.
    told = [value for value, _ in total.most_common(len(COLOURS))]
    told.sort(key=lambda text: (len(text), text) if text[:1].isalpha() else (0, int(text)))
    lines = [(COLOURS[i], value.decode(), {tick: found[value] for tick, found in counts.items()})
             for i, value in enumerate(told)]
    if len(total) > len(told):
        lines.append(("#9aa3af", "others", {tick: sum(found.values()) - sum(map(
            found.__getitem__, told)) for tick, found in counts.items()}))
    return draw_lines(name, counts, lines)


def draw_classes(path, columns):
    """How many agents each class has, over all ticks."""
    rows, counts = Rows(path, columns.types), {}

    def wanted(kind):
        columns.known(kind)
        return [0]

    for tick, kind, texts in rows.pieces(wanted):
        counts.setdefault(tick, collections.Counter())[kind] += len(texts[0])
    kinds = [kind for kind in columns.types if any(found[kind] for found in counts.values())]
    lines = [(COLOURS[i % len(COLOURS)], kind, {tick: found[kind] for tick, found in counts.items()})
             for i, kind in enumerate(kinds)]
    return draw_lines("class", counts, lines)


def draw_lines(name, ticks, lines):
    """Numbers of agents over ticks; a line has a colour, a word and a number at each tick."""
    axes = Axes((min(ticks), max(ticks)), (0, max(max(line.values()) for *_, line in lines)))
    parts = axes.drawn()
    parts += [f'<polyline points="{" ".join(points(axes, line))}" fill="none" stroke="{colour}" '
              f'stroke-width="2"/>' for colour, _, line in lines]
    key = [(colour, word) for colour, word, _ in lines]
    return picture(f"agents by {name}", key, "tick", parts)


class Figures:
    """The figures of all files NAME.k: to each number, to each tick the whole and its boxes."""

    FORM = re.compile(r"([0-9]+),([0-9]+)((?:,(?:none|-?[0-9]+(?:\.[0-9]{6})?))+)")

    def __init__(self, name):
        self.name, self.found, last = name, {}, -1
        ends = [(int(path[len(name) + 1:]), path) for path in glob.glob(glob.escape(name) + ".*")
                if DIGITS.fullmatch(path[len(name) + 1:])]
        for _, path in sorted(ends):
            last = self.read(path, last)
        if not self.found:
            raise Refusal(f"{name}: no figures are in files {name}.k")

    def read(self, path, last):
        """Reads a file whose ticks are behind `last`; its own last one."""
        before = last
        with open(path, encoding="utf-8", errors="replace", newline="\n") as file:
            for count, line in enumerate(file, 1):
                parts = self.FORM.fullmatch(line[:-1]) if line.endswith("\n") else None
                if not parts:
                    raise Refusal(f"{path}: line {count} is not tick,number,figures: {line[:60]!r}")
                tick, number = int(parts[1]), int(parts[2])
                if tick <= before or tick < last:
                    raise Refusal(f"{path}: line {count} is of tick {tick}, which other lines have")
                last = tick
                self.found.setdefault(number, {})[tick] = [
                    None if text == "none" else float(text) for text in parts[3][1:].split(",")]
        return last

    def words(self):
        """What each figure is, by its number."""
        try:
            with open(self.name, encoding="utf-8", errors="replace") as file:
                lines = file.read().split("\n")
        except FileNotFoundError:
            lines = []
        return {n: lines[n - 1] if n <= len(lines) else f"figure {n}" for n in self.found}


def runs(line):
    """The pieces of a line without the ticks that have no value."""
    for told, piece in itertools.groupby(line.items(), lambda item: item[1] is not None):
        if told:
            yield dict(piece)


def draw_figures(name):
    """A line for each figure of all agents, over all ticks."""
    figures = Figures(name)
    words = figures.words()
    lines = [(COLOURS[i % len(COLOURS)], words[n], {tick: all_[0] for tick, all_ in line.items()})
             for i, (n, line) in enumerate(sorted(figures.found.items()))]
    values = [value for *_, line in lines for value in line.values() if value is not None]
    if not values:
        raise Refusal(f"{name}: all figures are none")
    ticks = [tick for *_, line in lines for tick in line]
    axes = Axes((min(ticks), max(ticks)), (min(values + [0]), max(values)))
    parts = axes.drawn()
    for i, (colour, word, line) in enumerate(lines):
        parts += [f'<polyline points="{" ".join(points(axes, run))}" fill="none" '
                  f'stroke="{colour}" stroke-width="2"/>' for run in runs(line)]
        parts += [f'<circle cx="{LEFT + 14}" cy="{TOP + 14 + 18 * i}" r="5" fill="{colour}"/>',
                  f'<text x="{LEFT + 26}" y="{TOP + 18 + 18 * i}" fill="#1c2430">'
                  f"{escape(word)}</text>"]
    return picture("watched figures", [], "tick", parts)


def draw_boxes(name, number):
    """A figure over all ticks, as a band for each box, one upon the other."""
    figures = Figures(name)
    if number not in figures.found:
        raise Refusal(f"{name}: has no figure {number}")
    line = figures.found[number]
    if any(value is None or value < 0 for all_ in line.values() for value in all_):
        raise Refusal(f"{name}: figure {number} is below 0 or none somewhere, and has no bands")
    axes = Axes((min(line), max(line)), (0, max(all_[0] for all_ in line.values())))
    parts, below = axes.drawn(), dict.fromkeys(line, 0.0)
    for box in range(max(len(all_) for all_ in line.values()) - 1):
        top = {tick: below[tick] + (all_[1:] + [0.0] * box)[box] for tick, all_ in line.items()}
        band = " ".join(points(axes, top) + points(axes, below)[::-1])
        parts.append(f'<polygon points="{band}" fill="{COLOURS[box % len(COLOURS)]}" '
                     f'fill-opacity="0.6"><title>box {box}</title></polygon>')
        below = top
    whole_line = {tick: all_[0] for tick, all_ in line.items()}
    parts.append(f'<polyline points="{" ".join(points(axes, whole_line))}" fill="none" '
                 f'stroke="#1c2430" stroke-width="2"/>')
    return picture(figures.words()[number], [], "tick", parts)


def save(path, text):
    """Writes a file whole or not at all."""
    part = f"{path}.{os.getpid()}.part"
    try:
        with open(part, "x", encoding="utf-8") as file:
            file.write(text)
        os.replace(part, path)
    except OSError:
        if os.path.exists(part):
            os.remove(part)
        raise


def whole(text):
    if not re.fullmatch("[0-9]{1,19}", text):
        raise argparse.ArgumentTypeError(f"{text!r} is no tick")
    return int(text)


def main():
    words = argparse.ArgumentParser(
        prog="plot.py", description="Draws published rows as an SVG picture.", allow_abbrev=False)
    words.add_argument("rows", nargs="?", help="the rows that brace run wrote")
    words.add_argument("--script", help="the script, which names the columns")
    what = words.add_mutually_exclusive_group(required=True)
    what.add_argument("--tick", type=whole, help="draw the agents of this tick")
    what.add_argument("--series", metavar="COLUMN", help="draw a column over all ticks")
    what.add_argument("--counts", metavar="COLUMN",
                      help="draw how many agents have each value of a column, or are of each "
                      "class (class), over all ticks")
    what.add_argument("--figures", metavar="NAME",
                      help="draw the figures of the files NAME.k, which brace run saved")
    words.add_argument("--boxes", metavar="N", type=whole,
                       help="draw figure N alone, as a band for each box")
    words.add_argument("--colour", metavar="COLUMN", help="colour the agents by a column")
    words.add_argument("--out", required=True, metavar="PICTURE.svg")
    asked = words.parse_args()
    if asked.colour and asked.tick is None:
        words.error("--colour goes with --tick")
    if asked.boxes is not None and asked.figures is None:
        words.error("--boxes goes with --figures")
    if (asked.rows is None) == (asked.figures is None):
        words.error("rows are drawn, or --figures")
    # Millions of short texts, and no cycles.
    gc.disable()
    try:
        columns = Columns(asked.script)
        if asked.boxes is not None:
            text = draw_boxes(asked.figures, asked.boxes)
        elif asked.figures:
            text = draw_figures(asked.figures)
        elif asked.series:
            text = draw_series(asked.rows, columns, asked.series)
        elif asked.counts == "class":
            text = draw_classes(asked.rows, columns)
        elif asked.counts:
            text = draw_counts(asked.rows, columns, asked.counts)
        else:
            text = draw_tick(asked.rows, columns, asked.tick, asked.colour)
        save(asked.out, text)
    except Refusal as refusal:
        sys.exit(f"plot.py: {refusal}")
    except OSError as error:
        name = asked.out if str(error.filename).endswith(".part") else error.filename
        sys.exit(f"plot.py: {name}: {error.strerror}")


if __name__ == "__main__":
    main()
