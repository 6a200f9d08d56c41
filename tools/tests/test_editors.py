#!/usr/bin/env python3
"""Runs every script of examples/ and of docs/LANGUAGE.md through the syntax files of tools/editors.

Each token must get a class of its kind, and only what begins no token may be shown as an error. The
TextMate grammar is run by Python's `re`; Vim's file by Vim, where it is installed. A word names
another page in place of docs/LANGUAGE.md.
"""
import glob
import json
import os
import re
import shutil
import subprocess
import sys
import tempfile

TOP = os.path.realpath(os.path.join(os.path.dirname(__file__), "..", ".."))
VIM = os.path.join(TOP, "tools", "editors", "vim")
GRAMMAR = os.path.join(TOP, "tools", "editors", "vscode", "syntaxes", "brasil.tmLanguage.json")

RESERVED = set("""class public private state effect void run foreach Extent const if else this true
    false int fixed bool abs min max sqrt trunc rand sum count or die spawn when""".split())
# The tokens of the language, in the order in which they are tried.
TOKEN = re.compile(r"""
    (?P<comment> //[^\n]* | /\*.*?(?:\*/|\Z) )
  | (?P<range> \#(?:visible|reach)(?!\w) )
  | (?P<word> [A-Za-z_]\w* )
  | (?P<number> [0-9]+(?:\.[0-9]+)? )
  | (?P<symbol> <- | [<>=!]= | && | \|\| | [][{}();:,.?=<>!+*/%-] )
  | (?P<bad> \S )""", re.X | re.S | re.A)

# What each kind of token may be shown as.
SCOPES = {
    "comment": r"comment\.", "range": r"keyword\.other\.range", "number": r"constant\.numeric",
    "symbol": r"keyword\.operator|punctuation", "bad": r"invalid",
    "name": r"variable\.other|entity\.name",
    "reserved": r"storage|keyword\.control|support\.function|constant\.language|variable\.language",
}
GROUPS = {
    "comment": "Comment|Todo", "range": "Range", "number": "Number", "symbol": "Symbol|Operator",
    "bad": "Bad", "name": "Name",
    "reserved": "Declaration|Statement|Type|Function|Combinator|Constant|Boolean",
}


def tokens(source):
    """The kind of each token, and where it begins and ends."""
    for found in TOKEN.finditer(source):
        kind = found.lastgroup
        if kind == "word":
            kind = "reserved" if found.group() in RESERVED else "name"
        yield kind, found.start(), found.end()


class Grammar:
    """A TextMate grammar, as far as this one goes: matches, captures, regions without patterns."""

    def __init__(self, path):
        with open(path, encoding="utf-8") as file:
            self.whole = json.load(file)
        self.rules = list(self.flat(self.whole["patterns"]))

    def flat(self, patterns):
        for rule in patterns:
            if "include" in rule:
                rule = self.whole["repository"][rule["include"][1:]]
            if "patterns" in rule:
                yield from self.flat(rule["patterns"])
            else:
                yield rule, re.compile(rule.get("match") or rule["begin"], re.A)

    def scopes(self, source):
        """The scope of each character, line by line as editors do; None where it has none."""
        shown, start, region = [None] * len(source), 0, None
        for line in source.splitlines(keepends=True):
            at = 0
            while at <= len(line):
                if region:
                    found = re.search(region["end"], line[at:])
                    stop = at + found.end() if found else len(line)
                    shown[start + at:start + stop] = [region["name"]] * (stop - at)
                    region = None if found else region
                    at = stop if found else len(line) + 1
                    continue
                firsts = [(found.start(), i, found) for i, (_, form) in enumerate(self.rules)
                          if (found := form.search(line, at))]
                if not firsts:
                    break
                _, number, found = min(firsts, key=lambda first: first[:2])
                rule = self.rules[number][0]
                self.paint(shown, start, rule, found)
                region = rule if "begin" in rule else None
                at = found.end()
            start += len(line)
        return shown

    @staticmethod
    def paint(shown, start, rule, found):
        spans = [(0, rule.get("name"))]
        spans += [(int(i), capture["name"]) for i, capture in rule.get("captures", {}).items()]
        for group, name in spans:
            if name and found.group(group):
                begin, stop = found.span(group)
                shown[start + begin:start + stop] = [name] * (stop - begin)


def vim_groups(source):
    """The syntax group of each character, as Vim shows it."""
    with tempfile.TemporaryDirectory() as folder:
        script, out = os.path.join(folder, "a.brasil"), os.path.join(folder, "groups")
        with open(script, "w", encoding="utf-8") as file:
            file.write(source)
        ask = ("call writefile(map(range(1, line('$')), {_, l -> join(map(range(1, len(getline(l)))"
               ", {_, c -> synIDattr(synID(l, c, 1), 'name')[6:] }), ' ')}), '" + out + "')")
        subprocess.run(["vim", "-u", "NONE", "-i", "NONE", "-es", "-N", "-n", "-c",
                        f"set encoding=utf-8 synmaxcol=0 rtp^={VIM}", "-c", "filetype on",
                        "-c", "syntax on", "-c", f"edit {script}", "-c", ask, "-c", "qall!"],
                       check=True, timeout=60, stdin=subprocess.DEVNULL, capture_output=True)
        with open(out, encoding="utf-8") as file:
            lines = [line.rstrip("\n").split(" ") for line in file]
    shown = []
    for line, groups in zip(source.split("\n"), lines):
        shown += (groups if line else []) + [""]
    return shown[:len(source)]


def scripts():
    """Each script with a name: those of the examples and those of the page on the language."""
    for path in sorted(glob.glob(os.path.join(TOP, "examples", "*", "*.brasil"))):
        with open(path, encoding="utf-8") as file:
            yield os.path.relpath(path, TOP), file.read()
    name = os.path.join("docs", "LANGUAGE.md")
    path = sys.argv[1] if len(sys.argv) > 1 else os.path.join(TOP, name)
    with open(path, encoding="utf-8") as file:
        page = file.read()
    for number, found in enumerate(re.finditer(r"`(class [^`\n]*)`", page), 1):
        yield f"{name} script {number}", found.group(1).replace("\\|", "|")
    for number, found in enumerate(re.finditer(r"(?:^    .*\n|^\n(?=    ))+", page, re.M), 1):
        block = re.sub("^    ", "", found.group(), flags=re.M)
        if "class " in block:
            yield f"{name} block {number}", block


def wrong(source, shown, wanted):
    """The first token that is shown as another kind, or '' where all is right."""
    for kind, begin, end in tokens(source):
        for at in range(begin, end):
            is_shown = shown[at] and re.match(wanted[kind], shown[at])
            if not source[at].isspace() and not is_shown:
                line = source.count("\n", 0, at) + 1
                return f"line {line}: {source[begin:end]!r}, a {kind}, is shown as {shown[at]}"
    return ""


def main():
    grammar, has_vim = Grammar(GRAMMAR), shutil.which("vim") is not None
    count = failed = 0
    for name, source in scripts():
        found = [("TextMate", wrong(source, grammar.scopes(source), SCOPES))]
        if has_vim:
            found.append(("Vim", wrong(source, vim_groups(source), GROUPS)))
        for editor, fault in found:
            count += 1
            if fault:
                failed += 1
                print(f"FAILED {editor}, {name}: {fault}")
    if not has_vim:
        print("vim is not installed: its syntax file was not tried")
    print(f"{count - failed} passed, {failed} failed")
    return 1 if failed else 0


if __name__ == "__main__":
    sys.exit(main())
