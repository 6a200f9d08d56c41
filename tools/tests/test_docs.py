#!/usr/bin/env python3
"""Runs the commands of README, the man page and docs/ as written, and compares what they show.

    tools/tests/test_docs.py [PAGE ..] [--program PROGRAM]

In a page an indented block is
- a file, where the line before it ends with its name as in `fish.brasil`: or `agents.csv`:,
- a console, where its first line begins with '$ ': each such line is a command, and the lines up to
  the next are all that it writes; '..' on a line of its own stands for any lines,
- a command, where its first line begins with one of STARTS: it has to end with 0,
- a Python session, where its first line begins with '>>> ': it is run by doctest.
A row in docs/TROUBLE.md's tables is a slip: the command or file with it has to say what is told,
and without it nothing; a row of docs/LANGUAGE.md's refusals is a script and its place. Each page is
run in a folder of its own, from which ./brace, tools/, docs/ and examples/ are reached. Commands
that need the toolchain (rt), and sessions that need pandas where it is not installed, are not run.
Run by hand.
"""
import argparse
import doctest
import glob
import importlib.util
import os
import re
import subprocess
import sys
import tempfile

TOP = os.path.realpath(os.path.join(os.path.dirname(__file__), "..", ".."))
STARTS = ("./brace ", "tools/", "examples/", "python3 ", "tail ", "mkdir ", "man ")
NAMED = re.compile(r"`([\w./-]+\.[\w.]+)`:\s*$")
PATIENCE = 600


class Checks:
    def __init__(self):
        self.count = self.failed = self.left = 0

    def same(self, what, found, wanted):
        self.count += 1
        if found != wanted:
            self.failed += 1
            print(f"FAILED {what}\n--- found\n{found}\n--- wanted\n{wanted}")


def blocks(text):
    """The indented blocks of a page: the number of the first line, the line before it, the text."""
    lines, at, before = text.split("\n"), 0, ""
    while at < len(lines):
        if not lines[at].startswith("    ") or (before and not NAMED.search(before)
                                                and lines[at - 1].strip()):
            before = lines[at] if lines[at].strip() else before
            at += 1
            continue
        first = at
        while at < len(lines) and (lines[at].startswith("    ") or not lines[at].strip()):
            at += 1
        block = "\n".join(line[4:] for line in lines[first:at]).rstrip("\n") + "\n"
        yield first + 1, before, block
        before = ""


def manual(text):
    """The examples of a man page, as blocks."""
    examples = text[text.index(".SH EXAMPLES"):]
    for found in re.finditer(r"^\.nf\n(.*?)^\.fi$", examples, re.S | re.M):
        line = text.count("\n") - examples.count("\n") + examples[:found.start()].count("\n")
        yield line + 2, "", found.group(1).replace("\\-", "-").replace("\\e", "\\")


def pattern(wanted):
    """What fits shown output, in which a line of '..' stands for any lines."""
    lines = [re.escape(line) + "\n" if line != ".." else "(?:.*\n)*?" for line in wanted]
    return re.compile("".join(lines))


class Page:
    def __init__(self, checks, name, folder):
        self.checks, self.name, self.folder = checks, name, folder
        # In the man page the program is called by its name alone.
        self.more = ("brace ",) if name.endswith(".1") else ()
        self.env = dict(os.environ, HOME=folder, PYTHONPATH=os.path.join(TOP, "tools"),
                        MANPAGER="cat", PATH=folder + os.pathsep + os.environ["PATH"])

    def shell(self, command):
        made = subprocess.run(["/bin/bash", "-ec", command], cwd=self.folder, env=self.env,
                              stdin=subprocess.DEVNULL, stdout=subprocess.PIPE, timeout=PATIENCE,
                              stderr=subprocess.STDOUT, text=True, errors="replace", check=False)
        return made.returncode, made.stdout

    def run(self, line, before, block):
        what = f"{self.name}:{line}"
        name = NAMED.search(before)
        if name:
            path = os.path.join(self.folder, name.group(1))
            os.makedirs(os.path.dirname(path), exist_ok=True)
            with open(path, "w", encoding="utf-8") as file:
                file.write(block)
        elif block.startswith("$ "):
            self.console(what, block)
        elif block.startswith(">>> "):
            if "import pandas" in block and importlib.util.find_spec("pandas") is None:
                self.checks.left += 1
            else:
                self.session(what, block, line)
        elif block.startswith((*STARTS, *self.more)) and " NAME" not in block:
            status, said = self.shell(block)
            self.checks.same(f"{what} {block}", (status, said if status else ""), (0, ""))
        elif re.match(r"(rt|\$ rt|git) ", block):
            self.checks.left += 1

    def console(self, what, block):
        for command, shown in re.findall(r"^\$ ((?:.*\\\n)*.*\n)((?:(?!\$ ).*\n)*)", block, re.M):
            if command.startswith("rt "):
                self.checks.left += 1
                continue
            said = self.shell(command)[1]
            wanted = shown.rstrip("\n").split("\n") if shown.strip() else []
            fits = pattern(wanted).fullmatch(said) is not None
            self.checks.same(f"{what} $ {command}", said if not fits else "", "" if fits else shown)

    def session(self, what, block, line):
        here, sys.path[:0] = os.getcwd(), [os.path.join(TOP, "tools")]
        os.chdir(self.folder)
        try:
            if not hasattr(self, "names"):
                self.names = {}
            told = []
            test = doctest.DocTestParser().get_doctest(block, self.names, what, self.name, line - 1)
            runner = doctest.DocTestRunner(optionflags=doctest.ELLIPSIS, verbose=False)
            failed = runner.run(test, out=told.append, clear_globs=False).failed
            self.names.update(test.globs)
            self.checks.same(what, "".join(told) if failed else "", "")
        finally:
            os.chdir(here)
            del sys.path[0]


# ---- docs/TROUBLE.md. ----

def cells(row):
    """The cells of a row of a table; a bar behind a backslash is part of a cell."""
    parts = re.split(r"(?<!\\)\|", row.strip())[1:-1]
    return [part.strip().replace("\\|", "|") for part in parts]


def bare(cell):
    """What stands between the backquotes of a cell, or None."""
    found = re.fullmatch(r"(`+) ?(.*?) ?\1", cell)
    return found.group(2) if found else None


class Slips:
    """Tables of slips: what is written, what is said of it, why, and what is to be written."""

    def __init__(self, page):
        self.page, self.count = page, 0

    def table(self, line, heads, rows):
        kind = heads[0]
        for number, row in enumerate(rows, line + 2):
            what = f"{self.page.name}:{number}"
            wrong, said, _, right = row
            wrong, said, right = bare(wrong), bare(said), bare(right)
            if kind == "You type":
                self.words(what, wrong, said, right)
            else:
                self.text(what, kind, wrong, said, right)
            self.count += 1

    def words(self, what, wrong, said, right):
        for words, wanted in ((wrong, said + "\n"), (right, "")):
            if words is None:
                continue
            found = self.page.shell(words)
            last = found[1].split("\n")[-2] + "\n" if found[0] else ""
            self.page.checks.same(f"{what} {words}", last, wanted)

    def text(self, what, kind, wrong, said, right):
        """In the page's file `right` stands; with `wrong` in its place the file is refused."""
        name, command = {"In fish.brasil": ("fish.brasil", "./brace check --script {}"),
                         "In fish.csv": ("fish.csv", "./brace run --script fish.brasil --agents {} "
                                         "--ticks 1"),
                         "In cuts.plan": ("cuts.plan", "./brace run --script fish.brasil --agents "
                                          "fish.csv --ticks 1 --cuts {}"),
                         "In saved.1": ("saved.1", "./brace resume --script fish.brasil --from {} "
                                        "--ticks 2")}[kind.replace("`", "")]
        with open(os.path.join(self.page.folder, name), encoding="utf-8") as file:
            base = file.read()
        checks = self.page.checks
        checks.same(f"{what} {right!r} stands once in {name}", base.count(right), 1)
        self.page.shell("mkdir -p slip")
        path = os.path.join("slip", name)
        with open(os.path.join(self.page.folder, path), "w", encoding="utf-8") as file:
            file.write(base.replace(right, wrong))
        found = self.page.shell(command.format(path) + " >out")[1]
        told = f"brace: {name}:{'' if name.endswith('.brasil') else ' '}{said}\n"
        checks.same(f"{what} {wrong}", found.replace("slip/", ""), told)
        found = self.page.shell(command.format(name) + " >out")
        checks.same(f"{what} {name}", found, (0, ""))


def tables(text):
    """The tables of slips: the line of their heads, their heads, and their rows."""
    lines = text.split("\n")
    for at, line in enumerate(lines):
        heads = cells(line) if line.startswith("| ") else []
        if len(heads) == 4 and heads[1] == "It says":
            end = at + 2
            while end < len(lines) and lines[end].startswith("|"):
                end += 1
            yield at + 1, heads, [cells(row) for row in lines[at + 2:end]]


def refusals(page, text):
    """Tries the scripts of tables of kinds: each is refused so, at its place."""
    for number, line in enumerate(text.split("\n"), 1):
        row = cells(line) if line.startswith("| ") else []
        script = bare(row[2]) if len(row) == 4 else None
        if script and re.fullmatch("[0-9]+:[0-9]+", row[3]):
            with open(os.path.join(page.folder, "refused.brasil"), "w", encoding="utf-8") as file:
                file.write(script)
            found = page.shell("./brace check --script refused.brasil || true")[1]
            told = f"brace: refused.brasil:{row[3]}: {row[0]}\n"
            page.checks.same(f"{page.name}:{number}", found, told)


def prepared(folder, program):
    """The folder in which a page is run: links to what it names, and a model of one's own."""
    for name in ("tools", "docs", "examples", "bench", "README.md", "crates"):
        os.symlink(os.path.join(TOP, name), os.path.join(folder, name))
    os.symlink(program, os.path.join(folder, "brace"))
    for name, source in (("my.brasil", "flock.brasil"), ("agents.csv", "agents.csv")):
        with open(os.path.join(TOP, "examples", "flock", source), encoding="utf-8") as file:
            text = file.read()
        with open(os.path.join(folder, name), "w", encoding="utf-8") as file:
            file.write(text)


def check_page(checks, path, program):
    with open(path, encoding="utf-8") as file:
        text = file.read()
    name = os.path.relpath(path, TOP)
    before = checks.count
    with tempfile.TemporaryDirectory(prefix="docs-test-") as folder:
        prepared(folder, program)
        page = Page(checks, name, folder)
        slips = Slips(page)
        for line, above, block in manual(text) if path.endswith(".1") else blocks(text):
            page.run(line, above, block)
        for line, heads, rows in tables(text):
            slips.table(line, heads, rows)
        refusals(page, text)
    told = f", {slips.count} slips" if slips.count else ""
    print(f"{name}: {checks.count - before} checks{told}", flush=True)


def main():
    words = argparse.ArgumentParser(description=__doc__.split("\n", 1)[0], allow_abbrev=False)
    words.add_argument("pages", nargs="*", help="else README, docs/, examples/, tools/editors")
    words.add_argument("--program", default=os.path.join(TOP, "brace"), help="./brace else")
    asked = words.parse_args()
    pages = asked.pages or [
        os.path.join(TOP, "README.md"), *sorted(glob.glob(os.path.join(TOP, "docs", "*.md"))),
        os.path.join(TOP, "docs", "brace.1"),
        *sorted(glob.glob(os.path.join(TOP, "examples", "**", "README.md"), recursive=True)),
        os.path.join(TOP, "tools", "editors", "README.md")]
    checks = Checks()
    for path in pages:
        check_page(checks, os.path.realpath(path), os.path.realpath(asked.program))
    print(f"{checks.count - checks.failed} passed, {checks.failed} failed, "
          f"{checks.left} not run (they need rt, or pandas where it is not installed)")
    return 1 if checks.failed else 0


if __name__ == "__main__":
    sys.exit(main())
