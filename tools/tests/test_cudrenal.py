#!/usr/bin/env python3
"""Runs tools/cudrenal.py and tools/table.py against the program.

    python3 tools/tests/test_cudrenal.py        (or -m unittest discover tools/tests)
"""
import decimal
import importlib.util
import os
import subprocess
import sys
import tempfile
import unittest

TOP = os.path.realpath(os.path.join(os.path.dirname(__file__), "..", ".."))
sys.path.insert(0, os.path.join(TOP, "tools"))
import cudrenal  # noqa: E402 (beside this folder)

FLOCK = os.path.join(TOP, "examples", "flock")
SCHOOL, FISH = os.path.join(FLOCK, "flock.brasil"), os.path.join(FLOCK, "agents.csv")
ONE = """class P { #visible[2.0]; #reach[1.0]; public state fixed x : x + 1.0; public state fixed y;
  public state int n : n + 1; public state bool on; }"""
TWO = """class A { public state fixed x; public state fixed y; public state int a; }
class B { public state fixed x; public state fixed y; public state bool b; }"""
DIVIDES = """class P { public state fixed x; public state fixed y; public state fixed v : 1.0 / x;
  public effect fixed s : sum; }"""
NEAR = """class P { #visible[9]; public state fixed x; public state fixed y;
  public effect int n : count;
  public void run() { foreach (P p : Extent<P>) { foreach (P q : Extent<P>) {
    if (1 / (trunc(x) - 1) > 0 && p.x < q.x) { n <- 1; } } } } }"""


def agent(**values):
    return {"x": 0, "y": 0, "n": 0, "on": False, **values}


class Spellings(unittest.TestCase):
    def test_values_as_agent_files_have_them(self):
        for kind, value, text in (
                ("fixed", 0.1 + 0.2, "0.300000"), ("fixed", 1e-3, "0.001000"),
                ("fixed", 3, "3.000000"),
                ("fixed", -1e-9, "0.000000"), ("fixed", decimal.Decimal("-0.25"), "-0.250000"),
                ("fixed", decimal.Decimal("9223372036854.775807"), "9223372036854.775807"),
                ("fixed", -1.5e6, "-1500000.000000"), ("int", 7, "7"), ("int", -3.0, "-3"),
                ("int", 2 ** 63 - 1, "9223372036854775807"), ("bool", True, "true"),
                ("bool", False, "false")):
            self.assertEqual(cudrenal.spelled(kind, value), text)

    def test_values_that_no_file_holds(self):
        for kind, value in (("fixed", float("nan")), ("fixed", float("inf")), ("fixed", 1e13),
                            ("fixed", "1"), ("fixed", True), ("fixed", None),
                            ("fixed", decimal.Decimal("0.0000001")), ("int", 1.5), ("int", 2 ** 63),
                            ("int", False), ("bool", 1), ("bool", "true")):
            with self.assertRaises(cudrenal.BadAgents, msg=f"{kind} {value!r}"):
                cudrenal.spelled(kind, value)


class Files(unittest.TestCase):
    def setUp(self):
        self.folder = tempfile.TemporaryDirectory()
        self.addCleanup(self.folder.cleanup)

    def path(self, name):
        return os.path.join(self.folder.name, name)

    def test_agents_of_two_classes(self):
        agents = [{"class": "B", "id": 5, "x": 1, "y": 0.5, "b": True, "a": float("nan")},
                  {"class": "A", "id": 2, "x": 0, "y": 0, "a": -1, "b": None}]
        self.assertEqual(cudrenal.write_agents(self.path("a"), agents, TWO), 2)
        with open(self.path("a"), encoding="utf-8") as file:
            self.assertEqual(file.read(), "B,5,1.000000,0.500000,true\nA,2,0.000000,0.000000,-1\n")
        kinds = [agent["class"] for agent in cudrenal.read_agents(self.path("a"), TWO)]
        self.assertEqual(kinds, ["B", "A"])

    def test_a_data_frame(self):
        class Frame:  # what is used of pandas' frames
            columns = ["x", "y", "n", "on"]

            def to_dict(self, form):
                assert form == "records"
                return [agent(x=1.5, n=2.0)]
        cudrenal.write_agents(self.path("a"), Frame(), ONE)
        with open(self.path("a"), encoding="utf-8") as file:
            self.assertEqual(file.read(), "P,0,1.500000,0.000000,2,false\n")

    def test_refused_agents_leave_no_file(self):
        for wrong, told in (({"n": 0.5}, "agent 2: n: 0.5 is no whole number"),
                            ({"z": 1}, "agent 2: P has no state z"), ({"class": "Q"}, "no class Q"),
                            ({"id": 0}, "the id 0 stands twice"), ({"id": -1}, "-1 is no id"),
                            ({"on": 1}, "on: 1 is no bool")):
            with self.assertRaisesRegex(cudrenal.BadAgents, told):
                agents = [agent(id=0), agent(**{"id": 9, **wrong})]
                cudrenal.write_agents(self.path("a"), agents, ONE)
            self.assertEqual(os.listdir(self.folder.name), [])
        with self.assertRaisesRegex(cudrenal.BadAgents, "agent 1: has no value for on"):
            cudrenal.write_agents(self.path("a"), [{"x": 0, "y": 0, "n": 0}], ONE)

    def test_one_table_a_class(self):
        agents = [{"class": "A", "x": 1, "y": 2, "a": 3}, {"class": "B", "x": 4, "y": 5, "b": True}]
        made = cudrenal.run(TWO, agents, 1)
        self.assertEqual(made.columns(ticks={1}), {
            "A": {"tick": [1], "id": [0], "x": [1.0], "y": [2.0], "a": [3]},
            "B": {"tick": [1], "id": [1], "x": [4.0], "y": [5.0], "b": [True]}})
        with open(self.path("s.brasil"), "w", encoding="utf-8") as file:
            file.write(TWO)
        words = [sys.executable, os.path.join(TOP, "tools", "table.py"), made.path, "--script",
                 self.path("s.brasil"), "--out", self.path("tables")]
        self.assertEqual(subprocess.run(words, capture_output=True, check=False).returncode, 0)
        with open(self.path("tables/B.csv"), encoding="utf-8") as file:
            self.assertEqual(file.read(), "tick,id,x,y,b\n0,1,4.000000,5.000000,true\n"
                             "1,1,4.000000,5.000000,true\n")
        self.assertEqual(sorted(os.listdir(self.path("tables"))), ["A.csv", "B.csv"])
        with open(made.path, "a", encoding="utf-8") as file:
            file.write("2,A,0,1.0")
        again = subprocess.run(words, capture_output=True, text=True, check=False)
        self.assertEqual((again.returncode, again.stderr),
                         (1, f"table.py: {made.path}: row 5 is cut off\n"))

    def test_a_plan_of_equal_counts(self):
        cudrenal.write_cuts(self.path("k"), FISH, 3, 2, SCHOOL)
        made = cudrenal.run(SCHOOL, FISH, 2, cuts=self.path("k"), stats=True)
        self.assertGreater(made.stats["border"], 0)
        with open(self.path("k"), encoding="utf-8") as file:
            words = file.read().split()
        self.assertEqual((len(words), words[:3], words[5]), (7, ["at", "0", "x"], "y"))
        parts = [0] * 3
        for fish in cudrenal.read_agents(FISH, SCHOOL):
            parts[sum(fish["x"] >= float(cut) for cut in words[3:5])] += 1
        self.assertEqual(parts, [100, 100, 100])


@unittest.skipUnless(importlib.util.find_spec("pandas"), "pandas is not installed")
class Frames(unittest.TestCase):
    def test_there_and_back(self):
        import pandas
        frame = pandas.DataFrame({"class": ["A", "B"], "x": [1, 2], "y": [0.5, 0.1 + 0.2],
                                  "a": [3, None], "b": [None, True]})
        made = cudrenal.run(TWO, frame, 2, every=2)
        tables = made.tables(ticks={2})
        self.assertEqual(tables["A"].to_dict("records"), [{"tick": 2, "id": 0, "x": 1.0, "y": 0.5,
                                                           "a": 3}])
        self.assertEqual(tables["B"].dtypes["b"], bool)
        self.assertEqual(tables["B"]["y"].tolist(), [0.3])
        tables["A"]["a"] += 1
        again = cudrenal.run(TWO.split("class B")[0], tables["A"].drop(columns="tick"), 0)
        self.assertEqual(again.columns()["A"]["a"], [4])


class Runs(unittest.TestCase):
    def setUp(self):
        self.folder = tempfile.TemporaryDirectory()
        self.addCleanup(self.folder.cleanup)
        self.path = lambda name: os.path.join(self.folder.name, name)

    def test_rows_are_those_of_the_program(self):
        words = [cudrenal.PROGRAM, "run", "--script", SCHOOL, "--agents", FISH, "--ticks", "20"]
        wanted = subprocess.run(words, capture_output=True, check=True).stdout
        heard = []
        made = cudrenal.run(SCHOOL, FISH, 20, workers=2, cuts="at 0 x 12 y 20\n", epoch=4,
                            progress=lambda tick, ticks: heard.append((tick, ticks)))
        with open(made.path, "rb") as file:
            self.assertEqual(file.read(), wanted)
        self.assertEqual(heard, sorted(set(heard)))
        self.assertEqual(heard[-1], (20, 20))
        first = next(made.rows(exact=True))
        self.assertEqual((first.tick, first.kind, first.id), (0, "Fish", 0))
        self.assertEqual(first.values[0], decimal.Decimal("4.837"))

    def test_resumed_rows_are_those_that_are_left(self):
        saved = self.path("saved")
        whole = list(cudrenal.run(SCHOOL, FISH, 12, save=saved, epoch=4).rows())
        rest = list(cudrenal.resume(SCHOOL, saved + ".8", 12, invert=True).rows())
        self.assertEqual(rest, [row for row in whole if row.tick > 8])

    def test_rows_may_be_kept_and_else_go_away(self):
        kept = cudrenal.run(ONE, [agent()], 1, out=self.path("rows"))
        made = cudrenal.run(ONE, [agent()], 1)
        path = made.path
        self.assertTrue(os.path.exists(path))
        del made
        self.assertFalse(os.path.exists(path))
        del kept
        self.assertTrue(os.path.exists(self.path("rows")))

    def test_what_the_callback_raises_ends_the_run(self):
        def stop(tick, ticks):
            raise KeyboardInterrupt
        with self.assertRaises(KeyboardInterrupt):
            cudrenal.run(SCHOOL, FISH, 100000, epoch=1, progress=stop)

    def test_canonical_text(self):
        self.assertEqual(cudrenal.fmt("class A{}"), "class A {\n}\n")
        cudrenal.check(ONE)

    def test_options_that_are_none(self):
        for call in (lambda: cudrenal.run(ONE, [agent()], 1, sed=1),
                     lambda: cudrenal.resume(ONE, "none", 1, seed=1)):
            self.assertRaises(TypeError, call)


class Failures(unittest.TestCase):
    def test_a_fault_has_its_parts_and_the_rows_before_it(self):
        with self.assertRaises(cudrenal.Fault) as met:
            cudrenal.run(DIVIDES, [{"id": 3, "x": 0, "y": 0, "v": 2}], 5)
        fault = met.exception
        self.assertEqual((fault.status, fault.tick, fault.phase, fault.agent, fault.outer,
                          fault.site, fault.kind), (7, 0, "update", 3, None, 0, "DivZero"))
        self.assertEqual([row.tick for row in fault.made.rows()], [0])
        with self.assertRaises(cudrenal.Fault) as met:
            cudrenal.run(NEAR, [{"x": 1, "y": 0}, {"x": 2, "y": 0}], 1)
        self.assertEqual((met.exception.agent, met.exception.outer, met.exception.inner), (0, 1, 1))

    def test_refusals_have_their_parts(self):
        with tempfile.TemporaryDirectory() as folder:
            bad = os.path.join(folder, "bad")
            with open(bad, "w", encoding="utf-8") as file:
                file.write("P,0,0,0,0.5,true\n")
            good = [agent()]
            saved = cudrenal.run(ONE, good, 1, save=os.path.join(folder, "saved"))
            with open(os.path.join(folder, "saved.1"), encoding="utf-8") as file:
                text = file.read()
            with open(os.path.join(folder, "saved.1"), "w", encoding="utf-8") as file:
                file.write(text.replace("true", "yes").replace("false", "no"))
            for call, wanted in (
                    (lambda: cudrenal.check("class A { x }"), (3, "NoReading", 1, 11, None)),
                    (lambda: cudrenal.run(ONE, bad, 1), (4, "BadValue 4", None, None, 1)),
                    (lambda: cudrenal.run(ONE, good, 1, cuts="at 0 y x\n"),
                     (5, "BadLine", 1, None, None)),
                    (lambda: cudrenal.resume(ONE, os.path.join(folder, "saved.1"), 2),
                     (6, "BadLine", 5, None, None))):
                with self.assertRaises(cudrenal.Refusal) as met:
                    call()
                told = met.exception
                found = told.status, told.kind, told.line, told.column, told.record
                self.assertEqual(found, wanted)
            self.assertEqual(sum(1 for _ in saved.rows()), 2)

    def test_other_failures_have_status_and_line(self):
        for call, status, message in (
                (lambda: cudrenal.run(ONE, "/none.csv", 1), 12, "brace: /none.csv: absent"),
                (lambda: cudrenal.run(ONE, [agent()], -1), 2, "brace: usage"),
                (lambda: cudrenal.run(ONE, [agent()], 1, workers=17), 2, "brace: usage")):
            with self.assertRaises(cudrenal.Failure) as met:
                call()
            self.assertEqual((met.exception.status, met.exception.message), (status, message))


if __name__ == "__main__":
    unittest.main()
