#!/usr/bin/env python3
"""Opens tools/view.html in each browser that is installed, gives it rows, and looks at the page.

    tools/tests/test_view.py [--program PROGRAM] [--rows FOLDER] [--pictures FOLDER]

The rows are those of each example's `command`; with --rows they are FOLDER/NAME.csv. With
--pictures the first browser's view of each example is kept as FOLDER/NAME.png. Run by hand; where
no browser is installed there are 0 tests.
"""
import argparse
import collections
import json
import os
import shlex
import shutil
import subprocess
import sys
import tempfile

import browsers
import small_png

TOP = os.path.realpath(os.path.join(os.path.dirname(__file__), "..", ".."))
sys.path.insert(0, os.path.join(TOP, "tools"))
import plot  # noqa: E402 (beside this folder)

PAGE = os.path.join(TOP, "tools", "view.html")
WIDTH, HEIGHT = 1000, 620

# Bad files, and what the page says of them.
A1 = "0,A,1,1.000000,2.000000\n"
BAD = [
    ("", "the file has no rows"),
    ("x,A,1,1.000000\n", "row 1 has 'x' for a tick"),
    ("0,9A,1,1.000000\n", "row 1 has '9A' for a class"),
    ("0,A,-1,1.000000\n", "row 1 has '-1' for an id"),
    ("0,A,1\n", "row 1 is not tick,class,id,values: '0,A,1'"),
    (A1 + "\n", "row 2 is not tick,class,id,values: ''"),
    (A1 + A1, "row 2 has the id 1 behind 1; in a tick ids rise"),
    ("1,A,1,1.000000\n0,A,1,1.000000\n", "row 2 is of tick 0, behind rows of tick 1"),
    ("0,A,1,1.000000,yes\n", "row 1 has 'yes' for value 2"),
    (A1 + "0,A,2,1.000000\n", "row 2 has 1 values, and rows of A above 2"),
    (A1 + "0,A,2,1.000000,2.000000,3\n", "row 2 has more values than rows of A above, 2"),
    (A1 + "0,A,2,1.000000,2\n", "row 2 has '2' for value 2 of A, which is fixed above"),
    (A1 + "1,A,1,1.000000,2.000000\n1,A,2,1.0", "row 3 ends before its line feed; is the file cut "
     "off?. Ticks before it, which are shown: 1"),
    ("\0" * 200000, "row 1 is longer than any row"),
]

# How each example is shown in its picture: a tick, and what else is set.
SCENES = {
    "birds": (40, "$('trail').value = 8; $('charted').value = '0 5'"),
    "door": (40, "$('colour').value = 'crowd'; $('charted').value = '0 3'"),
    "drift": (24, "$('trail').value = 24; $('charted').value = '0 2'"),
    "flock": (100, "$('colour').value = 'wx'; $('trail').value = 12; $('charted').value = '0 6'"),
    "epidemic": (10, "$('colour').value = 'ill'; $('charted').value = '0 3'"),
    "predators": (130, ""),
    "road": (150, "$('colour').value = 'v'; $('charted').value = '0 4'"),
    "rumour": (120, "$('colour').value = 'news'; $('charted').value = '0 2'"),
    "orbit": (60, "$('trail').value = 20; $('charted').value = '0 4'; shown.followed = 20"),
}

Example = collections.namedtuple("Example", "name script rows")


def examples(folder, given, program):
    """The examples whose rows are there or can be made now."""
    for name in sorted(os.listdir(os.path.join(TOP, "examples"))):
        here = os.path.join(TOP, "examples", name)
        script = os.path.join(here, f"{name}.brasil")
        if not os.path.exists(script):
            continue
        rows = os.path.join(given or folder, f"{name}.csv")
        if given is None:
            with open(os.path.join(here, "command"), encoding="utf-8") as file:
                words = [program, *shlex.split(file.read())[1:]]
            with open(rows, "wb") as out:
                made = subprocess.run(words, cwd=TOP, stdout=out, stderr=subprocess.PIPE, text=True)
            if made.returncode != 0:
                print(f"skipped {name}: {made.stderr.strip()}")
                continue
        if os.path.exists(rows):
            yield Example(name, script, rows)
        else:
            print(f"skipped {name}: no {rows}")


def last_tick(example):
    """The last tick of the rows, and the places of its agents."""
    columns, dots, last = plot.Columns(example.script), [], None
    for tick, kind, _, texts in plot.Rows(example.rows, columns.types).read():
        if tick != last:
            last, dots = tick, []
        across, up = columns.place(kind)
        dots.append((float(texts[across]), float(texts[up])))
    return last, dots


class Page:
    def __init__(self, browser):
        self.browser = browser
        browser.open(PAGE)

    def text(self, name):
        return self.browser.value(f"document.getElementById('{name}').textContent")

    def do(self, statements):
        self.browser.value(f"(() => {{ {statements} }})()")

    def load(self, *paths):
        before = self.browser.value("shown.loads")
        self.browser.choose("#files", paths)
        browsers.wait(lambda: self.browser.value(
            f"shown.loads > {before} && shown.loads === shown.loaded"))

    def painted(self, dots):
        """How many places have the colour of a class at their pixel."""
        return self.browser.value("""(dots => {
            const { width, height } = plane, ratio = window.devicePixelRatio;
            const { data } = plane.getContext('2d').getImageData(0, 0, width, height);
            const colours = CLASS_COLOURS.map(
                colour => [1, 3, 5].map(i => parseInt(colour.slice(i, i + 2), 16)));
            return dots.filter(([x, y]) => {
                const at = 4 * (Math.floor(toY(y) * ratio) * width + Math.floor(toX(x) * ratio));
                return colours.some(
                    colour => colour.every((part, i) => Math.abs(part - data[at + i]) < 4));
            }).length;
        })(%s)""" % json.dumps(dots))


class Checks:
    def __init__(self):
        self.count = self.failed = 0

    def same(self, what, found, wanted):
        self.count += 1
        if found != wanted:
            self.failed += 1
            print(f"FAILED {what}: {found!r}, wanted {wanted!r}")


def check_example(checks, page, example):
    """The last tick, its agents, each dot, the names of the columns, an agent's values."""
    page.load(example.rows, example.script)
    tick, dots = last_tick(example)
    checks.same(f"{example.name} message", page.text("message"), "")
    page.do("go(Infinity)")
    checks.same(f"{example.name} last tick", page.text("tick"), str(tick))
    checks.same(f"{example.name} agents", page.text("count"), str(len(dots)))
    checks.same(f"{example.name} dots", page.painted(dots), len(dots))
    checks.same(f"{example.name} x to the right and y up",
                page.browser.value("toX(1) > toX(0) && toY(1) < toY(0)"), True)
    wanted = []
    for kind, states in plot.read_script(example.script).items():
        wanted += [f"{kind}.{name}" for name, _ in states]
    found = page.browser.value("[...$('charted').options].slice(1).map(o => o.textContent)"
                               ".filter(text => !text.includes(' '))")
    present = {name.split(".")[0] for name in found}
    checks.same(f"{example.name} columns", sorted(found),
                sorted(name for name in wanted if name.split(".")[0] in present))
    x, y = page.browser.value(f"(([x, y]) => [toX(x), toY(y) + plane.getBoundingClientRect().top])"
                              f"({json.dumps(dots[0])})")
    page.browser.point(round(x), round(y))
    browsers.wait(lambda: page.browser.value("$('agent').querySelector('table') !== null"))
    with open(example.rows, encoding="utf-8") as file:
        rows = {line.rstrip().split(",", 1)[1] for line in file if line.startswith(f"{tick},")}
    shown = page.browser.value("[...$('agent').querySelectorAll('td')].map(c => c.textContent)")
    checks.same(f"{example.name} values of the agent pointed at",
                ",".join([shown[0]] + shown[1::2]) in rows, True)


def check_bad_files(checks, page, folder):
    path = os.path.join(folder, "bad.csv")
    for number, (content, message) in enumerate(BAD):
        with open(path, "w", encoding="utf-8") as file:
            file.write(content)
        page.load(path)
        checks.same(f"bad file {number}", page.text("message"), f"bad.csv: {message}")


def check_playing(checks, page, folder):
    """Playing goes from the first tick to the last and stops there; the keys step and jump."""
    path = os.path.join(folder, "play.csv")
    with open(path, "w", encoding="utf-8") as file:
        for tick in range(0, 60, 2):
            file.write(f"{tick},A,1,{tick}.000000,2.000000\n")
    page.load(path)
    checks.same("first tick", page.text("tick"), "0")
    page.do("$('speed').value = '60'; $('play').click()")
    checks.same("the button while playing", page.text("play"), "Pause")
    browsers.wait(lambda: page.text("tick") == "58")
    checks.same("the button at the end", page.text("play"), "Play")
    for key, tick in (("Home", "0"), ("ArrowRight", "2"), ("End", "58"), ("ArrowLeft", "56")):
        page.do(f"document.body.dispatchEvent(new KeyboardEvent('keydown', "
                f"{{ key: '{key}', bubbles: true }}))")
        checks.same(f"the key {key}", page.text("tick"), tick)


def check_drop(checks, page):
    """Files that are dropped on the page are read as those that are chosen."""
    before = page.browser.value("shown.loads")
    page.do("""const dropped = new DataTransfer();
        dropped.items.add(new File(['3,A,1,1.000000,2.000000\\n'], 'dropped.csv'));
        dropped.items.add(new File(['class A { state fixed x; state fixed y; }'], 'a.brasil'));
        document.body.dispatchEvent(
            new DragEvent('drop', { dataTransfer: dropped, bubbles: true, cancelable: true }));""")
    browsers.wait(lambda: page.browser.value(f"shown.loaded > {before}"))
    checks.same("dropped files", page.text("loaded"), "dropped.csv · a.brasil")
    checks.same("dropped tick", page.text("tick"), "3")


def check_misfit(checks, page, folder):
    rows, script = os.path.join(folder, "rows.csv"), os.path.join(folder, "other.brasil")
    with open(rows, "w", encoding="utf-8") as file:
        file.write(A1)
    for source, message in (
            ("class B { state int a; }", "other.brasil has no class A"),
            ("class A { state int a; }", "other.brasil: the states of A are int, its values in "
             "the rows fixed fixed"),
            ("class A { state fixed x; /* state int a; */ // state int b;\n state fixed y: 1; }",
             "")):
        with open(script, "w", encoding="utf-8") as file:
            file.write(source)
        page.load(rows, script)
        checks.same(f"script {source}", page.text("message"), message)


def check_counts(checks, page, folder):
    """The chart by a column has a line for each value, and one for what is too many."""
    path = os.path.join(folder, "counts.csv")
    with open(path, "w", encoding="utf-8") as file:
        for tick in range(3):
            for name in range(30):
                file.write(f"{tick},A,{name},1.000000,2.000000,{-1 if name < 10 * tick else 7},"
                           f"{'true' if name == tick else 'false'},{name}\n")
    page.load(path)
    read = "shown.figures.map(({ label, line }) => `${label}: ${[...line]}`).join('; ')"
    for chosen, wanted in (
            ("counts 0 2", "-1: 0,10,20; 7: 30,20,10"),
            ("counts 0 3", "false: 29,29,29; true: 1,1,1"),
            ("counts 0 4", "; ".join(f"{i}: 1,1,1" for i in range(8)) + "; others: 22,22,22")):
        page.do(f"$('charted').value = '{chosen}'; rechart()")
        checks.same(chosen, page.browser.value(read), wanted)


def check_many_dots(checks, page, folder):
    """100,000 agents in a tick: each is painted, and a frame takes no longer than is told here."""
    path = os.path.join(folder, "many.csv")
    with open(path, "w", encoding="utf-8") as file:
        for tick in range(2):
            for name in range(100000):
                file.write(f"{tick},A,{name},{name % 400}.000000,{name // 400}.000000,"
                           f"{name % 7}\n")
    page.load(path)
    page.do("fit()")
    dots = [(name % 400, name // 400) for name in range(0, 100000, 977)]
    checks.same("many dots", page.painted(dots), len(dots))
    measure = ("(() => {{ const start = performance.now(); for (let i = 0; i < 10; i++) go(i % 2);"
               " plane.getContext('2d').getImageData(0, 0, 1, 1);"
               " return (performance.now() - start) / 10; }})()")
    took = min(page.browser.value(measure.format()) for _ in range(3))
    print(f"a frame of 100,000 dots took {took:.0f} ms")
    checks.same("a frame of 100,000 dots within a quarter of a second", took < 250, True)
    page.do("$('colour').value = 'value 3'; recolour()")
    found = page.browser.value("""(() => {
        const { data } = plane.getContext('2d').getImageData(0, 0, plane.width, plane.height);
        const at = 4 * (Math.floor(toY(249)) * plane.width + Math.floor(toX(399)));
        return `rgb(${[...data.slice(at, at + 3)].join(' ')})` === SHADE[
          Math.floor((99999 % 7) / 6 * SHADES)]; })()""")
    checks.same("the shade of the last of many dots", found, True)


def check_pictures(checks, page, folder):
    """The picture is kept as a PNG; the film, where the browser makes one, as a film."""
    path = os.path.join(folder, "short.csv")
    with open(path, "w", encoding="utf-8") as file:
        for tick in range(4):
            file.write(f"{tick},A,1,{tick}.000000,2.000000\n")
    page.load(path)
    page.do("HTMLAnchorElement.prototype.click = () => {}; shown.kept = null; go(2);"
            "$('picture').click()")
    browsers.wait(lambda: page.browser.value("!!shown.kept"))
    checks.same("picture", page.browser.value(
        "[shown.kept.name, shown.kept.type, shown.kept.size > 500]"),
        ["short-2.png", "image/png", True])
    if page.browser.value("$('film').hidden"):
        print("this browser makes no films")
        return
    page.do("shown.kept = null; go(0); $('speed').value = '5'; $('film').click()")
    checks.same("film's button", page.text("film"), "End film")
    browsers.wait(lambda: page.browser.value("!!shown.kept"))
    checks.same("film", page.browser.value(
        "[shown.kept.name.startsWith('short-film.'), shown.kept.type.startsWith('video/'),"
        " shown.kept.size > 500, $('film').textContent, shown.frame]"),
        [True, True, True, "Film", 3])


def take_picture(page, example, folder):
    tick, settings = SCENES.get(example.name, (0, ""))
    page.browser.point(WIDTH - 2, 2)
    page.do(f"{settings}; recolour(); rechart(); go({tick}); fitTick()")
    browsers.wait(lambda: page.text("agent") != "")
    with open(os.path.join(folder, f"{example.name}.png"), "wb") as file:
        file.write(small_png.smaller(page.browser.picture()))


def run(kind, program, shown, folder, pictures):
    checks = Checks()
    try:
        browser = kind(program, WIDTH, HEIGHT, dark=False)
    except (RuntimeError, OSError) as error:
        print(f"{os.path.basename(program)} does not start: {error}")
        return 1
    try:
        page = Page(browser)
        for example in shown:
            check_example(checks, page, example)
            if pictures:
                take_picture(page, example, pictures)
                page = Page(browser)
        check_bad_files(checks, page, folder)
        check_misfit(checks, page, folder)
        check_playing(checks, page, folder)
        check_drop(checks, page)
        check_counts(checks, page, folder)
        check_many_dots(checks, page, folder)
        check_pictures(checks, page, folder)
    finally:
        browser.close()
    print(f"{os.path.basename(program)}: {checks.count - checks.failed} passed, "
          f"{checks.failed} failed")
    return checks.failed


def main():
    words = argparse.ArgumentParser(description=__doc__.split("\n", 1)[0], allow_abbrev=False)
    words.add_argument("--program", default="./brace", help="what runs the examples, ./brace else")
    words.add_argument("--rows", metavar="FOLDER", help="where NAME.csv is, for each example")
    words.add_argument("--pictures", metavar="FOLDER", help="where NAME.png is to be kept")
    asked = words.parse_args()
    installed = []
    for kind in (browsers.Chromium, browsers.Firefox):
        program = next(filter(None, map(shutil.which, kind.names)), None)
        if program:
            installed.append((kind, program))
    if not installed:
        print("no browser is installed (chromium or firefox): 0 tests")
        return 0
    failed = 0
    with tempfile.TemporaryDirectory() as folder:
        shown = list(examples(folder, asked.rows, asked.program))
        for number, (kind, program) in enumerate(installed):
            failed += run(kind, program, shown, folder, asked.pictures if number == 0 else None)
    return 1 if failed else 0


if __name__ == "__main__":
    sys.exit(main())
