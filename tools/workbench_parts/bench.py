"""What one server holds: its processes, and what is made of their answers."""
import os
import re
import secrets
import shutil
import tempfile
import threading
import time

import cudrenal
from workbench_parts import models
from workbench_parts.jobs import Job
from workbench_parts.refused import Refused
from workbench_parts.trouble import Trouble

# How many processes there are at most, of runs and of all else.
MOST_JOBS = 24
# The most bytes that a text of the program has, a script in canonical form above all.
MOST_TEXT = 1 << 26
# So many ticks an epoch: rows come as epochs end, and no row is changed by it.
EPOCH = 4
# So many seconds a check may take, and so long the server waits for a page that is loaded anew.
PATIENCE, GRACE = 60, 10


class Run:
    """A run that is at work or has ended: its job, and what is said of its end."""

    def __init__(self):
        self.job = self.ending = None
        self.ended = threading.Event()


class Bench:
    """The key, the folder, the processes and the pages of one server, which ends with its pages."""

    def __init__(self, folder, program=cudrenal.PROGRAM, seconds=3600):
        self.program, self.seconds = os.path.realpath(program), seconds
        self.key = secrets.token_urlsafe(24)
        self.models, self.trouble = models.Models(folder), Trouble()
        self.folder = tempfile.mkdtemp(prefix="workbench-")
        self.lock, self.slots = threading.Lock(), threading.BoundedSemaphore(MOST_JOBS)
        self.jobs, self.runs, self.open_pages, self.is_over = set(), {}, 0, False
        self.last_asked, self.when_over = 0.0, lambda: None

    # ---- Pages. ----

    def page_opened(self):
        with self.lock:
            self.open_pages += 1

    def page_closed(self):
        """After the last page the server ends, but waits for one that is being loaded anew."""
        with self.lock:
            self.open_pages -= 1
        self.end_later(GRACE)

    def asked(self):
        """Notes that a page asks for something, which may not have said yet that it is open."""
        with self.lock:
            self.last_asked = time.monotonic()

    def end_later(self, seconds):
        timer = threading.Timer(seconds, self.end_if_alone)
        timer.daemon = True
        timer.start()

    def end_if_alone(self):
        """Ends the server where no page is open, and none has asked for anything lately."""
        with self.lock:
            is_alone, left = self.open_pages == 0, self.last_asked + GRACE - time.monotonic()
        if is_alone and left > 0:
            self.end_later(left)
        elif is_alone:
            self.when_over()

    def close(self):
        """Ends all processes, and takes the folder away."""
        with self.lock:
            self.is_over = True
            jobs = list(self.jobs)
        for job in jobs:
            job.stop("the workbench ended")
        shutil.rmtree(self.folder, ignore_errors=True)

    # ---- Processes. ----

    def work(self, words, folder, seconds, most, act):
        """What `act` makes of a process of the program, which has ended by then."""
        if not self.slots.acquire(timeout=PATIENCE):
            raise Refused(503, "too many processes are at work")
        try:
            with Job(self.program, words, folder, seconds, most) as job:
                with self.lock:
                    self.jobs.add(job)
                    is_over = self.is_over
                if is_over:
                    job.stop("the workbench ended")
                try:
                    return act(job)
                finally:
                    with self.lock:
                        self.jobs.discard(job)
        finally:
            self.slots.release()

    def written(self, files):
        """A new folder with these files, each a text by its name."""
        folder = tempfile.mkdtemp(dir=self.folder)
        for name, content in files.items():
            with open(os.path.join(folder, name), "w", encoding="utf-8", newline="") as file:
                file.write(content)
        return folder

    def answer(self, mode, name, script):
        """What a mode that reads a script alone says: its text, or the failure and its advice."""
        folder = self.written({name: script})

        def act(job):
            said = b"".join(job.pieces())
            status, message = job.end()
            return said, status, job.stopped or message

        try:
            said, status, message = self.work([mode, "--script", name], folder, PATIENCE, MOST_TEXT,
                                              act)
        finally:
            shutil.rmtree(folder, ignore_errors=True)
        if status == 0:
            return {"status": 0, "text": said.decode("utf-8", "replace")}
        return self.failed(status, message, script)

    def failed(self, status, message, script):
        """A failure, its parts, and what the pages say of it."""
        failure = cudrenal.failure(status, message, None)
        parts = {name: getattr(failure, name, None)
                 for name in ("line", "column", "record", "tick", "phase", "agent", "outer",
                              "inner", "site")}
        return {"status": status, "message": message, **parts,
                "advice": self.trouble.told(failure, script)}

    def ending(self, job, script, name):
        """What is said of a run at its end; a fault has the place of its site, too."""
        status, message = job.end()
        if job.stopped:
            return {"status": None, "message": job.stopped}
        if status == 0:
            return {"status": 0, "message": message}
        told = self.failed(status, message, script)
        if status == 7:
            plan = self.answer("plan", name, script)
            place = re.search(rf"^site {told['site']} ([0-9]+):([0-9]+)$", plan.get("text", ""),
                              re.M)
            if place:
                told.update(line=int(place[1]), column=int(place[2]))
        return told

    # ---- Runs. ----

    def prepared(self, asked):
        """A folder with the files of a run, and the words that run it there."""
        files = {asked["name"]: asked["script"], "agents.csv": asked["agents"]}
        folder = self.written(files)
        words = ["run", "--script", asked["name"], "--agents", "agents.csv", "--ticks",
                 str(asked["ticks"]), "--seed", str(asked["seed"]), "--every",
                 str(asked["every"]), "--epoch", str(EPOCH), "--workers", str(asked["workers"]),
                 "--stats"]
        if asked["cuts"]:
            words += self.cut(folder, asked)
        return folder, words

    @staticmethod
    def cut(folder, asked):
        """Writes the plan; agents that the program will refuse are left to it."""
        try:
            cudrenal.write_cuts(os.path.join(folder, "cuts.plan"),
                                os.path.join(folder, "agents.csv"), *asked["cuts"],
                                script=os.path.join(folder, asked["name"]))
        except (ValueError, LookupError, ArithmeticError):
            return []
        return ["--cuts", "cuts.plan"]

    def begin(self):
        """A new run under a name of its own; runs that have ended long ago are forgotten."""
        name, run = secrets.token_hex(8), Run()
        with self.lock:
            self.runs[name] = run
            for old in list(self.runs)[:-MOST_JOBS]:
                if self.runs[old].ended.is_set():
                    del self.runs[old]
        return name, run

    def run(self, name):
        with self.lock:
            found = self.runs.get(name)
        if found is None:
            raise Refused(404, "there is no such run")
        return found
