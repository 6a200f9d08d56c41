#!/usr/bin/env python3
"""Tries tools/cuts.py: its plans, and what it tells of them, against counts made here.

    python3 tools/tests/test_cuts.py        (or -m unittest discover tools/tests)
"""
import decimal
import os
import random
import subprocess
import sys
import tempfile
import unittest

TOP = os.path.realpath(os.path.join(os.path.dirname(__file__), "..", ".."))
sys.path.insert(0, os.path.join(TOP, "tools"))
import cudrenal  # noqa: E402 (beside this folder)
import cuts  # noqa: E402

SCRIPT = """class A { public state fixed x; public state fixed y; public state bool b; }
class B { public state int n; public state fixed y; public state fixed x; }
"""


class Cuts(unittest.TestCase):
    def setUp(self):
        folder = tempfile.TemporaryDirectory()
        self.addCleanup(folder.cleanup)
        self.folder = folder.name
        self.script = self.file("s.brasil", SCRIPT)

    def file(self, name, text):
        path = os.path.join(self.folder, name)
        with open(path, "w", encoding="utf-8") as file:
            file.write(text)
        return path

    def call(self, agents, *words):
        out = os.path.join(self.folder, "plan")
        made = subprocess.run(
            [sys.executable, os.path.join(TOP, "tools", "cuts.py"), agents, "--script", self.script,
             "--out", out, *words], capture_output=True, text=True, check=False)
        return out, made

    def test_an_even_square(self):
        points = [(x, y) for x in range(8) for y in range(8)]
        agents = self.file("a", "".join(f"A,{n},{x},{y},true\n" for n, (x, y) in enumerate(points)))
        out, made = self.call(agents, "--across", "4", "--up", "2")
        self.assertEqual(made.stdout, f"{out}: 8 parts, 8 of 64 agents in the fullest\n")
        with open(out, encoding="utf-8") as file:
            self.assertEqual(file.read(), "at 0 x 2.000000 4.000000 6.000000 y 4.000000\n")

    def test_what_it_tells_is_so(self):
        draw = random.Random(3)
        rows = []
        for number in range(500):
            x, y = (f"{draw.randrange(-20, 20)}.{draw.randrange(1000000):06}" for _ in "xy")
            rows.append(f"A,{number},{x},{y},false\n" if number % 3 else f"B,{number},7,{y},{x}\n")
        agents = self.file("a", "".join(rows))
        for across, up in ((1, 1), (5, 1), (1, 7), (8, 8)):
            out, made = self.call(agents, "--across", str(across), "--up", str(up))
            told = list(cudrenal.read_agents(agents, self.script))
            with open(out, encoding="utf-8") as file:
                words = file.read().split()
            middle = words.index("y")
            places = [[decimal.Decimal(cut) for cut in part]
                      for part in (words[3:middle], words[middle + 1:])]
            counts = {}
            for agent in told:
                part = tuple(sum(cut <= decimal.Decimal(str(agent[axis])) for cut in along)
                             for axis, along in zip("xy", places))
                counts[part] = counts.get(part, 0) + 1
            self.assertEqual(made.stdout, f"{out}: {across * up} parts, {max(counts.values())} of 500 "
                             "agents in the fullest\n")

    def test_the_program_takes_its_plans(self):
        agents = self.file("a", "A,1,-3,2,true\nA,2,1,2,true\nB,3,0,0.5,1\n")
        out, made = self.call(agents, "--across", "2", "--up", "2")
        self.assertEqual(made.returncode, 0)
        words = [os.path.join(TOP, "dist", "brace"), "run", "--script", self.script,
                 "--agents", agents, "--ticks", "1"]
        plain = subprocess.run(words, capture_output=True, check=True).stdout
        parts = subprocess.run([*words, "--cuts", out], capture_output=True, check=True).stdout
        self.assertEqual(parts, plain)

    def test_agents_at_one_place_and_none(self):
        agents = self.file("a", "A,1,2,2,true\nA,2,2,2,true\n")
        out, made = self.call(agents, "--across", "4")
        self.assertEqual(made.stdout, f"{out}: 2 parts, 2 of 2 agents in the fullest\n")
        out, made = self.call(self.file("none", ""), "--across", "4")
        self.assertEqual(made.stdout, f"{out}: 1 parts, 0 of 0 agents in the fullest\n")

    def test_what_it_refuses(self):
        agents = self.file("a", "A,1,2,2,true\n")
        for words in (("--across", "0"), ("--across", "9", "--up", "8")):
            made = self.call(agents, *words)[1]
            self.assertEqual((made.returncode, made.stdout), (1, ""))
            self.assertEqual(made.stderr, "cuts.py: a plan has 1 to 64 parts\n")
        self.assertEqual(self.call(os.path.join(self.folder, "no"))[1].returncode, 1)
        self.assertEqual(self.call(self.file("b", "A,1,2\n"))[1].returncode, 1)


if __name__ == "__main__":
    unittest.main()
