"""What the pages say of a fault: docs/TROUBLE.md, and the table of refusals in docs/LANGUAGE.md."""
import collections
import os
import re

import sites

DOCS = os.path.join(os.path.dirname(__file__), "..", "..", "docs")
WORD = re.compile(r"[A-Za-z_]\w*", re.A)
RESERVED = set("""class public private state effect void run foreach Extent const if else this true
    false int fixed bool abs min max sqrt trunc rand sum count or die spawn when""".split())
# How many rows are told of a kind, those that are most alike.
MOST_TOLD = 3
# The file of the page whose rows are of a status; rows of what is typed are of any.
FILES = {3: "fish.brasil", 4: "fish.csv", 5: "cuts.plan", 6: "saved.1"}

Slip = collections.namedtuple("Slip", "file wrong said why write around")


def cells(row):
    """The cells of a table's row, without the backquotes that are about a whole cell."""
    parts = re.split(r"(?<!\\)\|", row.strip())[1:-1]
    bare = (re.sub(r"^(`+) ?([^`]*) ?\1$", r"\2", part.strip()) for part in parts)
    return [part.replace("\\|", "|") for part in bare]


def tables(text):
    """The tables of a page: their heads, and their rows."""
    for found in re.finditer(r"^\| .*\n\|[-|]+\n((?:\|.*\n)*)", text, re.M):
        yield cells(found[0].split("\n", 1)[0]), list(map(cells, found[1].splitlines()))


def reasoned(rows):
    """The rows of a table of slips; where a reason is that of the row above, it stands there."""
    last = ""
    for wrong, said, why, right in rows:
        last = last if why.startswith("the same") else why
        yield wrong, said, last, right


def kind_of(token):
    """A token itself, but for names and numbers, which are all alike."""
    if WORD.fullmatch(token) and token not in RESERVED:
        return "a name"
    return "a number" if token[:1].isdigit() else token


def offset(text, line, column):
    """Where in a text a place is that is told by its line, and its column in bytes."""
    lines = text.split("\n")
    before = lines[line - 1].encode()[:column - 1] if line <= len(lines) else b""
    return sum(map(len, lines[:line - 1])) + line - 1 + len(before.decode(errors="replace"))


def around(text, line, column):
    """The token before a place, and the one at it; '' where there is none."""
    end, at, before = offset(text, line, column), 0, ""
    while at < end:
        found = sites.TOKEN.match(text, at)
        before = found["token"] or before if found else text[at]
        at = found.end() if found else at + 1
    found = sites.TOKEN.match(text, end)
    return before, (found["token"] or "" if found else text[end:end + 1])


def likeness(one, other):
    """How alike two places are: the same tokens count more than tokens of one kind."""
    return sum(3 * (a == b) + 2 * (kind_of(a) == kind_of(b)) for a, b in zip(one, other))


class Trouble:
    """The pages' words on faults, read once."""

    def __init__(self, folder=DOCS):
        with open(os.path.join(folder, "TROUBLE.md"), encoding="utf-8") as file:
            page = file.read()
        with open(os.path.join(folder, "LANGUAGE.md"), encoding="utf-8") as file:
            language = file.read()
        shown = re.search(r"^`fish\.brasil`:\n\n((?:    .*\n|\n(?=    ))+)", page, re.M)
        self.base = re.sub("^    ", "", shown[1], flags=re.M)
        self.slips = [self.slip(heads[0], row) for heads, rows in tables(page)
                      if "It says" in heads for row in reasoned(rows)]
        self.faults = {row[0]: row for heads, rows in tables(page) for row in rows
                       if heads[1:] == ["Most often", "Write"]}
        self.kinds = {row[0]: row[1] for heads, rows in tables(language) for row in rows
                      if heads == ["Kind", "Where", "Script", "Place"]}

    def slip(self, head, row):
        """A row of a table of slips, with what stands about its place where that is a script's."""
        wrong, said, why, right = row
        place = re.match(r"([0-9]+):([0-9]+): ", said)
        text = self.base.replace(right, wrong)
        near = around(text, int(place[1]), int(place[2])) if place else None
        return Slip(head.replace("In ", "").strip("`"), wrong, said, why, right, near)

    def similar(self, failure, kind, script):
        """The slips of a kind, those that are most alike first."""
        word = re.compile(rf"\b{re.escape(kind.split()[0])}\b" if kind else "$.")
        found = [slip for slip in self.slips if word.search(slip.said)
                 and slip.file in (FILES.get(failure.status), "You type")]
        if failure.status == 3 and getattr(failure, "line", None):
            near = around(script, failure.line, failure.column)
            return sorted(found, key=lambda slip: -likeness(near, slip.around or ("", "")))
        return sorted(found, key=lambda slip: not slip.said.endswith(kind))

    def told(self, failure, script):
        """What is said of a failure of the program (cudrenal.Failure), under this script."""
        kind = getattr(failure, "kind", None) or failure.message.rpartition(": ")[2]
        if failure.status == 7:
            row = self.faults.get(kind)
            return {"kind": kind, "what": row[1] if row else "",
                    "slips": [{"wrong": "", "why": "", "write": row[2]}] if row else []}
        found = {}
        for slip in self.similar(failure, kind, script):
            found.setdefault(slip.why, slip)
        return {"kind": kind, "what": self.kinds.get(kind, "") if failure.status == 3 else "",
                "slips": [{"wrong": slip.wrong, "why": slip.why, "write": slip.write}
                          for slip in list(found.values())[:MOST_TOLD]]}
