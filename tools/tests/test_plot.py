#!/usr/bin/env python3
"""Draws small runs with tools/plot.py: what the pictures hold, what is refused, what is left."""
import os
import subprocess
import sys
import tempfile
import xml.etree.ElementTree

PLOT = os.path.join(os.path.dirname(os.path.realpath(__file__)), "..", "plot.py")
SVG = "{http://www.w3.org/2000/svg}"
SCRIPT = """class A { // state int none;
  public state fixed x : x + 1.0; public state fixed y; public state int n; }
class B { public state bool b; public state fixed x; public state fixed y; }
"""
ROWS = "".join(f"{tick},A,1,{tick}.000000,2.000000,{tick * tick}\n{tick},A,2,0.500000,-1.000000,0\n"
               f"{tick},B,3,true,4.000000,1.000000\n" for tick in (0, 3, 6))

# Words behind the rows, and how many dots or points the picture has.
DRAWN = [
    ("--script s --tick 3", ("circle", 3)),
    ("--tick 6", ("circle", 3)),
    ("--script s --tick 3 --colour n", ("circle", 3)),
    ("--script s --series n", ("polyline", 3)),
    ("--script s --series B.b", ("polyline", 3)),
    ("--series A.3", ("polyline", 3)),
    ("--script s --counts n", ("polyline", 3)),
    ("--script s --counts B.b", ("polyline", 3)),
    ("--script s --counts class", ("polyline", 3)),
    ("--counts class", ("polyline", 3)),
]

# Words, what the rows are, and the line of the refusal.
REFUSED = [
    ("--tick 4", ROWS, "rows: has no agents at tick 4; the last tick read is 3"),
    ("--tick 9", ROWS, "rows: has no agents at tick 9; the last tick read is 6"),
    ("--script s --series z", ROWS, "rows: no class has a column z"),
    ("--script s --series x", ROWS, "x is a column of A and of B; say A.x"),
    ("--script s --tick 0 --colour z", ROWS, "no class at tick 0 has a column z"),
    ("--script s --counts A.x", ROWS, "A.x is fixed; --counts takes an int or a bool"),
    ("--script s --counts class", "0,C,1,2\n", "the script has no class C, and the rows have"),
    ("--script s --counts z", ROWS, "rows: no class has a column z"),
    ("--script absent --tick 0", ROWS, "absent: No such file or directory"),
    ("--script rows --tick 0", ROWS, "rows: has no class"),
    ("--script s --tick 0", "0,C,1,2\n", "the script has no class C, and the rows have"),
    ("--script s --tick 0", "0,A,1,2\n",
     "rows: row 1 has values of the types int, and A has fixed fixed int"),
    ("--tick 0", "", "rows: the file has no rows"),
    ("--tick 0", "0,A,1\n", "rows: row 1 is not tick,class,id,values: '0,A,1'"),
    ("--tick 0", "0,A,1,2.000000,no\n", "rows: row 1 has 'no' for value 2"),
    ("--tick 0", "-1,A,1,2\n", "rows: row 1 has '-1' for a tick"),
    ("--tick 0", "0,A,1,2\n0,A,1,2\n", "rows: row 2 has the id 1 behind 1; in a tick ids rise"),
    ("--series 1", "1,A,1,2\n0,A,1,2\n", "rows: row 2 is of tick 0, behind rows of tick 1"),
    ("--series 1", "1,A,1,2\n2,A,1,",
     "rows: row 2 ends before its line feed; is the file cut off?"),
]


# Files of figures: of two ends of a run over two boxes, and of others that are wrong.
FIGURES = {
    "w": "count A\nmax A n where n < 2\n",
    "w.2": "0,1,3,1,2\n0,2,none,none,none\n2,1,4,1,3\n2,2,1.500000,1.500000,none\n",
    "w.10": "3,1,5,5,0\n3,2,1.000000,1.000000,none\n10,1,5,0,5\n10,2,-1.000000,-1.000000,none\n",
    "w.10x": "no figures", "late.4": "4,1,1,1\n", "late.5": "4,1,1,1\n", "bad.1": "0,1,1.5,1\n",
    "cut.1": "0,1,1,1\n0,2,1", "none.1": "0,1,none,none\n",
}
# Words, and how many lines and bands the picture has.
FIGURES_DRAWN = [("--figures w", 2, 0), ("--figures w --boxes 1", 1, 2)]
# Words and the line of the refusal.
FIGURES_REFUSED = [
    ("--figures absent", "absent: no figures are in files absent.k"),
    ("--figures late", "late.5: line 1 is of tick 4, which other lines have"),
    ("--figures bad", "bad.1: line 1 is not tick,number,figures: '0,1,1.5,1\\n'"),
    ("--figures cut", "cut.1: line 2 is not tick,number,figures: '0,2,1'"),
    ("--figures none", "none: all figures are none"),
    ("--figures w --boxes 2", "w: figure 2 is below 0 or none somewhere, and has no bands"),
    ("--figures w --boxes 3", "w: has no figure 3"),
]

# Many rows, of which all but the first are read in pieces; and rows that are wrong among them.
MANY = [f"{tick},A,{name},{name}.500000,-{tick}.250000,{name % 3}\n" if name % 4 else
        f"{tick},B,{name},{'true' if tick > 1 else 'false'},0.000000,{tick}.000000\n"
        for tick in range(4) for name in range(4000)]
WRONG = [
    (9000, "2,A,1001,1.500000,-2.250000,yes\n", "has 'yes' for value 3"),
    (9000, "2,A,1001,1.500000,-2.250000,1.0\n",
     "has values of the types fixed fixed fixed, and A has fixed fixed int"),
    (9000, "2,A,5,1.500000,-2.250000,1\n", "has the id 5 behind 999; in a tick ids rise"),
    (9000, "1,A,1001,1.500000,-2.250000,1\n", "is of tick 1, behind rows of tick 2"),
    (9000, "\n", "is not tick,class,id,values: ''"),
    (15999, "3,A,3999,1.50", "ends before its line feed; is the file cut off?"),
]


def plot(folder, words, out="out.svg"):
    return subprocess.run([sys.executable, PLOT, "rows", *words.split(), "--out", out], cwd=folder,
                          capture_output=True, text=True)


def write(folder, name, text):
    with open(os.path.join(folder, name), "w", encoding="utf-8") as file:
        file.write(text)


def drawn(folder, words, form):
    """The number of dots inside the frame, or of points of the line."""
    plot(folder, words)
    root = xml.etree.ElementTree.parse(os.path.join(folder, "out.svg")).getroot()
    if form == "circle":
        return sum(float(dot.get("cy")) > 30 for dot in root.iter(SVG + form))
    return len(next(root.iter(SVG + form)).get("points").split())


def check_many(same, folder):
    """Rows in pieces come to what they come to one by one; the first wrong one is told."""
    write(folder, "rows", "".join(MANY))
    for words in ("--series A.x", "--series b", "--counts n", "--counts b", "--counts class",
                  "--tick 2 --colour n", "--tick 3"):
        plot(folder, f"--script s {words}")
        with open(os.path.join(folder, "out.svg"), encoding="utf-8") as file:
            pieces = file.read()
        write(folder, "rows", "".join(MANY).replace("\n", "\r\n"))
        plot(folder, f"--script s {words}")
        with open(os.path.join(folder, "out.svg"), encoding="utf-8") as file:
            same(f"many rows {words}", file.read() == pieces and len(pieces) > 1000, True)
        write(folder, "rows", "".join(MANY))
    for at, line, told in WRONG:
        write(folder, "rows", "".join(MANY[:at] + [line] + MANY[at + 1:] * line.endswith("\n")))
        made = plot(folder, "--script s --series n")
        same(told, made.stderr, f"plot.py: rows: row {at + 1} {told}\n")


def draw(folder, words):
    return subprocess.run([sys.executable, PLOT, *words.split(), "--out", "out.svg"], cwd=folder,
                          capture_output=True, text=True)


def check_figures(same):
    """Figures are drawn, a line each or as bands; what is no file of figures is refused."""
    with tempfile.TemporaryDirectory() as folder:
        for name, text in FIGURES.items():
            write(folder, name, text)
        for words, lines, bands in FIGURES_DRAWN:
            made = draw(folder, words)
            same(words, made.stderr, "")
            root = xml.etree.ElementTree.parse(os.path.join(folder, "out.svg")).getroot()
            same(f"lines of {words}", len(list(root.iter(SVG + "polyline"))), lines)
            same(f"bands of {words}", len(list(root.iter(SVG + "polygon"))), bands)
        for words, line in FIGURES_REFUSED:
            same(words, draw(folder, words).stderr, f"plot.py: {line}\n")
        for words in ("rows --figures w", "--boxes 1 rows --tick 0", "--tick 0"):
            same(words, draw(folder, words).returncode, 2)


def main():
    count = failed = 0

    def same(what, found, wanted):
        nonlocal count, failed
        count += 1
        if found != wanted:
            failed += 1
            print(f"FAILED {what}: {found!r}, wanted {wanted!r}")

    with tempfile.TemporaryDirectory() as folder:
        write(folder, "s", SCRIPT)
        write(folder, "rows", ROWS)
        for words, (form, wanted) in DRAWN:
            same(words, drawn(folder, words, form), wanted)
        write(folder, "out.svg", "old")
        for words, rows, line in REFUSED:
            write(folder, "rows", rows)
            made = plot(folder, words)
            same(words, (made.returncode, made.stderr, made.stdout), (1, f"plot.py: {line}\n", ""))
        with open(os.path.join(folder, "out.svg"), encoding="utf-8") as file:
            same("a refusal leaves the picture", file.read(), "old")
        check_many(same, folder)
        check_figures(same)
        write(folder, "rows", ROWS)
        made = plot(folder, "--tick 0", "none/out.svg")
        same("no folder", made.stderr, "plot.py: none/out.svg: No such file or directory\n")
        same("two pictures", plot(folder, "--tick 0 --series x").returncode, 2)
        same("what is left", sorted(os.listdir(folder)), ["out.svg", "rows", "s"])
    print(f"{count - failed} passed, {failed} failed")
    return 1 if failed else 0


if __name__ == "__main__":
    sys.exit(main())
