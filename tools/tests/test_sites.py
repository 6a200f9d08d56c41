#!/usr/bin/env python3
"""Compares tools/sites.py with the program: each fault of a script is at the place that it tells.

    python3 tools/tests/test_sites.py        (or -m unittest discover tools/tests)
"""
import os
import re
import sys
import unittest

TOP = os.path.realpath(os.path.join(os.path.dirname(__file__), "..", ".."))
sys.path.insert(0, os.path.join(TOP, "tools"))
import cudrenal  # noqa: E402 (beside this folder)
import sites  # noqa: E402

# Where `a` is N the division by (a - N), and no other, faults.
SCRIPT = """/* é */ class A {
  #visible[9.5]; #reach[1]; // 1 / 0
  public state fixed x : x; public state fixed y;
  public state int a;
  public state int r : (a + 1) * 2 - 7 / (a - 1) + (a == 2 ? -3 / (a - 2) : abs(a) * 4);
  public effect fixed s : sum;
  private effect int m : min;
  public state fixed z : -s + abs(x) - sqrt(fixed(abs(a))) * this.s + fixed(7 / (a - 3)) + rand();
  die when !(3 % (a - 4) > 5) && s > 9.0 || trunc(s) / min(1, a - 5) > 100000;
  public void run() {
    const int k = 5 / (a - 6);
    if (a != 8 && 6 / (a - 7) >= 0 - 100) { s <- x * 2.0; } else { m <- k - -7 % (a - 8); }
    foreach (A p : Extent<A>) {
      p.s <- p.x + 1.0;
      foreach (A q : Extent<A>) { if (p.x < q.x) { this.m <- 1 + 1 / (p.a - 9); } }
    }
  }
  public state int late : s > 0.0 ? 9 / (a - 10) : max(1, 9 / (a - 11));
}
class B { public state fixed x; public state fixed y; public state int a : 4 / (a - 12);
  public effect int s : max; public state int b : s + 1 / (a - 13); }
"""


class Sites(unittest.TestCase):
    def test_faults_are_where_it_tells(self):
        found, lines = sites.sites(SCRIPT), SCRIPT.split("\n")
        rest = {"x": 0, "y": 0, "r": 0, "z": 0, "late": 0}
        for number in range(1, 14):
            kind = {"class": "B", "x": 0, "y": 0, "b": 0} if number > 11 else {"class": "A", **rest}
            agents = [{**kind, "id": 1, "a": number}]
            if number == 9:
                agents += [{**kind, "id": 2, "a": 20}, {**kind, "id": 3, "a": 20, "x": 1}]
            if number == 10:
                agents += [{**kind, "id": 2, "a": 20, "x": -1}]
            with self.assertRaises(cudrenal.Fault) as met:
                cudrenal.run(SCRIPT, agents, 1)
            token, line, column = found[met.exception.site]
            rest_of_line = lines[line - 1].encode()[column - 1:].decode()
            self.assertRegex(rest_of_line, rf"^[/%] (min\(1, |\()(p\.)?a - {number}\)", number)
            self.assertEqual(met.exception.kind, "DivZero")

    def test_a_sum_and_a_draw_are_sites(self):
        told = [(token, line) for token, line, _ in sites.sites(SCRIPT)]
        self.assertEqual([token for token, line in told if line == 8],
                         ["s", "-", "abs", "+", "abs", "fixed", "sqrt", "this", "*", "-", "-", "/",
                          "fixed", "+", "rand", "+"])

    def test_all_examples_have_places(self):
        for name in ("birds", "door", "epidemic", "flock", "orbit", "road", "rumour"):
            path = os.path.join(TOP, "examples", name, f"{name}.brasil")
            with open(path, encoding="utf-8") as file:
                text = file.read()
            bare = re.sub(r"//[^\n]*", lambda met: " " * len(met[0]), text).split("\n")
            for token, line, column in sites.sites(text):
                self.assertTrue(bare[line - 1][column - 1:].startswith(token), (name, line, column))

    def test_what_is_no_script(self):
        for text in ("class A {", "class A { public state fixed x : (1.0; }", "class A { ~ }", "x"):
            self.assertRaises(sites.NoScript, sites.sites, text)


if __name__ == "__main__":
    unittest.main()
