#!/usr/bin/env python3
"""Tells where the sites of a script stand: the numbers that the line of a fault has.

    sites.py fish.brasil 6        fish.brasil:11:20: site 6 is /
    sites.py fish.brasil          all sites, a line each

A site is an operation that can fault, or a draw; docs/LANGUAGE.md, "Sites and faults", says how
they are numbered. `brace plan` tells the same places; this tells what stands there too, and
needs no program. The script has to be one that `brace check` accepts.
"""
import argparse
import re
import sys

TOKEN = re.compile(r"//[^\n]*|/\*.*?\*/|\s+|(?P<token>\#?[A-Za-z_]\w*|[0-9]+(?:\.[0-9]+)?"
                   r"|<-|[<>=!]=|&&|\|\||[][{}();:,.?=<>!+*/%-])", re.S | re.A)
# From the loosest binding to the tightest, and which of them are sites.
LEVELS = ("||",), ("&&",), ("<", "<=", ">", ">=", "==", "!="), ("+", "-"), ("*", "/", "%")
OPERATIONS = {"+", "-", "*", "/", "%"}
CALLS = {"abs": True, "sqrt": True, "fixed": True, "rand": True, "trunc": False, "min": False,
         "max": False}


class NoScript(ValueError):
    """The text is no script; `brace check` says where."""


def tokens(text):
    """The tokens of a script with their lines and columns, as refusals count them."""
    found, at, line, begin = [], 0, 1, 0
    while at < len(text):
        met = TOKEN.match(text, at)
        if not met:
            raise NoScript(f"{line}:{at - begin + 1}: begins no token")
        if met["token"]:
            column = len(text[begin:at].encode()) + 1
            found.append((met["token"], line, column))
        at = met.end()
        line += met[0].count("\n")
        begin = text.rfind("\n", 0, at) + 1
    return found


class Walk:
    """Goes over a script in the order in which evaluation ends, and notes its sites."""

    def __init__(self, text):
        self.rest = tokens(text)[::-1]
        self.sites, self.sums, self.is_rule = [], set(), False

    def next(self):
        return self.rest[-1][0] if self.rest else ""

    def take(self, *wanted):
        if not self.rest or (wanted and self.next() not in wanted):
            raise NoScript("is no script")
        return self.rest.pop()

    def skip(self, last):
        while self.take()[0] != last:
            pass

    def script(self):
        while self.rest:
            self.take("class")
            self.take()
            self.sums = self.summed()
            self.take("{")
            while self.next() != "}":
                self.member()
            self.take("}")
        return self.sites

    def summed(self):
        """The effects of `sum` of the class that begins here: in a rule their names are sites."""
        found, depth, last = set(), 0, [""] * 5
        for token, _, _ in reversed(self.rest):
            depth += (token == "{") - (token == "}")
            last = last[1:] + [token]
            if last[0] == "effect" and last[3:] == [":", "sum"]:
                found.add(last[2])
            if depth == 0:
                break
        return found

    def member(self):
        word = self.take()
        self.is_rule = True
        if word[0] in ("public", "private"):
            kind = self.take()[0]
            if kind == "void":
                self.skip(")")
                self.is_rule = False
                self.block()
                return
            self.take()
            self.take()
            if self.next() == ":" and kind == "state":
                self.take()
                self.choice()
            self.skip(";")
        elif word[0] == "die":
            self.take("when")
            self.choice()
            self.take(";")
        elif word[0] == "spawn":
            self.take("when")
            self.choice()
            self.take("{")
            while self.next() != "}":
                self.given()
            self.take("}")
            self.sites.append(word)
        else:
            self.skip(";")

    def given(self):
        self.skip("<-")
        self.choice()
        self.take(";")

    def block(self):
        self.take("{")
        while self.next() != "}":
            if self.next() == "const":
                self.skip("=")
                self.choice()
                self.take(";")
            elif self.next() == "if":
                self.take()
                self.take("(")
                self.choice()
                self.take(")")
                self.block()
                if self.next() == "else":
                    self.take()
                    self.block()
            elif self.next() == "foreach":
                self.skip(")")
                self.block()
            else:
                self.given()
        self.take("}")

    def choice(self):
        self.level(0)
        if self.next() == "?":
            self.take()
            self.choice()
            self.take(":")
            self.choice()

    def level(self, number):
        if number == len(LEVELS):
            self.prefix()
            return
        self.level(number + 1)
        while self.next() in LEVELS[number]:
            operator = self.take()
            self.level(number + 1)
            if operator[0] in OPERATIONS:
                self.sites.append(operator)

    def prefix(self):
        word = self.take()
        if word[0] in ("-", "!"):
            self.prefix()
            if word[0] == "-":
                self.sites.append(word)
        elif word[0] == "(":
            self.choice()
            self.take(")")
        elif word[0] in CALLS:
            self.take("(")
            while self.next() != ")":
                self.choice()
                if self.next() == ",":
                    self.take()
            self.take(")")
            if CALLS[word[0]]:
                self.sites.append(word)
        else:
            name = word[0]
            if self.next() == ".":
                self.take()
                name = self.take()[0]
            if self.is_rule and name in self.sums:
                self.sites.append(word)


def sites(text):
    """What stands at each site of a script, by its number: the token, its line and its column."""
    return Walk(text).script()


def main():
    words = argparse.ArgumentParser(
        prog="sites.py", description=__doc__.split("\n", 1)[0], allow_abbrev=False)
    words.add_argument("script")
    words.add_argument("number", nargs="?", type=int, help="the site of a fault; else all")
    asked = words.parse_args()
    try:
        with open(asked.script, encoding="utf-8", errors="replace") as file:
            found = list(enumerate(sites(file.read())))
    except NoScript as error:
        sys.exit(f"sites.py: {asked.script}: {error}; see what brace check says")
    except OSError as error:
        sys.exit(f"sites.py: {asked.script}: {error.strerror}")
    if asked.number is not None and not 0 <= asked.number < len(found):
        sys.exit(f"sites.py: {asked.script}: has the sites 0 to {len(found) - 1}")
    for number, (token, line, column) in found:
        if asked.number in (None, number):
            print(f"{asked.script}:{line}:{column}: site {number} is {token}")


if __name__ == "__main__":
    main()
