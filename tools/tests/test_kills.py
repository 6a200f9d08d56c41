#!/usr/bin/env python3
"""Kills runs that save at any moment, and resumes each from what stands until it is at its end.

    tools/tests/test_kills.py [--program PROGRAM] [--kills N] [--seed N]

A run that was killed is resumed from the last world that it saved, with other workers, cuts, epochs
and choice of inversion; the rows up to that world, and those that come of resuming it, have to be
the rows of one run that nobody kills. Each saved file is the whole world of its tick, and no row is
anything but the next one. Runs are begun until N of them were killed, 100 else. Run by hand.
"""
import argparse
import os
import random
import subprocess
import sys
import tempfile
import time

TOP = os.path.realpath(os.path.join(os.path.dirname(__file__), "..", ".."))
TICKS = 1000
# So many drafts that were left may stand, of a hundred that a folder has names for.
DRAFTS, MOST_DRAFTS = ".brace-part-", 50
SCRIPT = """class W {
  #visible[3.0];
  #reach[1.0];
  public state fixed x : x + rand() - 0.5 + pull / 100.0;
  public state fixed y : y + rand() - 0.5;
  public state int age : age + 1;
  public state int near : n;
  public effect fixed pull : sum;
  public effect int n : count;
  die when age > 60 && near > 2;
  spawn when age % 50 == 49 && near < 3 { age <- 0; x <- x + rand() - 0.5; }
  public void run() {
    foreach (W p : Extent<W>) {
      p.pull <- x - p.x;
      n <- true;
    }
  }
}
"""
PLANS = ("at 0 x y\n", "at 0 x 0 y\n", "at 0 x -3 3 y 0\n", "at 0 x 0 y 1\nat 48 x 1 y 2\n")

tally = {"passed": 0, "failed": 0}


def same(what, found, wanted):
    tally["passed" if found == wanted else "failed"] += 1
    if found != wanted:
        print(f"FAILED {what}: {found!r}, wanted {wanted!r}"[:300])


def agents(chance):
    return "".join(f"W,{number},{chance.randint(-9, 9)},{chance.randint(-9, 9)},{number % 50},0\n"
                   for number in range(40))


def tick_of(row):
    return int(row.split(b",", 1)[0])


class Walk:
    """A run in a folder, its rows and worlds where nobody kills it, and how it was killed."""

    def __init__(self, program, folder, chance):
        self.program, self.folder, self.chance = program, folder, chance
        self.kills = self.drafts = 0
        for name, text in {"s": SCRIPT, "a": agents(chance), **dict(zip("klmn", PLANS))}.items():
            self.put(name, text.encode())
        begun = time.time()
        made = self.start(("--agents", "a"), "whole", ("--epoch", "1", "--save", "w"))
        same("a run that nobody kills", made.wait(), 0)
        self.seconds = time.time() - begun
        self.rows = self.get("whole").splitlines(keepends=True)
        self.worlds = {tick: self.get(f"w.{tick}") for tick in range(1, TICKS + 1)}
        self.sweep("w.")

    def path(self, name):
        return os.path.join(self.folder, name)

    def put(self, name, data):
        with open(self.path(name), "wb") as file:
            file.write(data)

    def get(self, name):
        with open(self.path(name), "rb") as file:
            return file.read()

    def start(self, begin, rows, more):
        mode = "resume" if begin[0] == "--from" else "run"
        with open(self.path(rows), "wb") as out:
            words = [self.program, mode, "--script", "s", *begin, "--ticks", str(TICKS), *more]
            return subprocess.Popen(words, cwd=self.folder, stdout=out)

    def manner(self):
        """Words that say how a run is worked, none of which changes its rows."""
        chance = self.chance
        more = ["--save", "c", "--epoch", str(chance.choice((1, 2, 4, 16)))]
        plan = chance.choice(("", "k", "l", "m", "n"))
        if plan == "n":
            more[3] = chance.choice(("1", "2", "4", "16"))
        more += ["--cuts", plan] if plan else []
        more += ["--workers", str(chance.randint(1, 4))] if chance.random() < 0.7 else []
        return more + (["--invert"] if chance.random() < 0.3 else [])

    def behind(self, tick, last=TICKS):
        """The rows of the ticks behind one, up to another."""
        return [row for row in self.rows if tick < tick_of(row) <= last]

    def saved(self, begun):
        """The last tick whose world is saved, of those from one on; each has to be whole."""
        ticks = [int(name[2:]) for name in self.names("c.")]
        for tick in ticks:
            if tick >= begun:
                same(f"the world of {tick}", self.get(f"c.{tick}") == self.worlds[tick], True)
        return max(ticks, default=begun)

    def names(self, begin):
        return [name for name in os.listdir(self.folder) if name.startswith(begin)]

    def sweep(self, begin):
        for name in self.names(begin):
            os.remove(self.path(name))

    def killed(self, process):
        """Whether a run was killed before it ended."""
        try:
            process.wait(self.chance.uniform(0, self.seconds / 40))
        except subprocess.TimeoutExpired:
            process.kill()
            process.wait()
        if process.returncode == 0:
            return False
        same("how a run ends", process.returncode, -9)
        self.kills += 1
        self.drafts = max(self.drafts, len(self.names(DRAFTS)))
        if len(self.names(DRAFTS)) >= MOST_DRAFTS:
            self.sweep(DRAFTS)
        return True

    def once(self, most):
        """Runs it to its end, and kills it on the way until so many were killed."""
        joined, at, begin = [], -1, ("--agents", "a")
        while True:
            process = self.start(begin, "rows", self.manner())
            if self.kills >= most:
                same("the last run", process.wait(), 0)
            was_killed = self.kills < most and self.killed(process)
            rows = self.get("rows")
            same("the rows of a run", b"".join(self.behind(at)).startswith(rows), True)
            if not was_killed:
                joined += rows.splitlines(keepends=True)
                break
            now = self.saved(at)
            kept = self.behind(at, now)
            same(f"the rows up to {now}", rows.startswith(b"".join(kept)), True)
            joined, at = joined + kept, now
            begin = ("--from", f"c.{at}") if at >= 0 else begin
        same("all rows", joined == self.rows, True)
        self.sweep("c.")
        self.sweep(DRAFTS)


def main():
    words = argparse.ArgumentParser(description=__doc__.split("\n", 1)[0], allow_abbrev=False)
    built = os.path.join(TOP, "dist", "brace")
    words.add_argument("--program", default=built, help="dist/brace else")
    words.add_argument("--kills", type=int, default=100, help="how many runs are killed, 100 else")
    words.add_argument("--seed", type=int, default=random.randrange(2 ** 32))
    asked = words.parse_args()
    runs = 0
    with tempfile.TemporaryDirectory() as folder:
        walk = Walk(os.path.realpath(asked.program), folder, random.Random(asked.seed))
        while walk.kills < asked.kills:
            walk.once(asked.kills)
            runs += 1
    print(f"seed {asked.seed}: {runs} runs of {len(walk.rows)} rows, killed {walk.kills} times, "
          f"at most {walk.drafts} drafts left")
    print(f"{tally['passed']} passed, {tally['failed']} failed")
    return 1 if tally["failed"] else 0


if __name__ == "__main__":
    sys.exit(main())
