"""A workbench that is started for tests, and what is asked of it over its port."""
import contextlib
import http.client
import json
import os
import re
import subprocess
import sys
import tempfile

import browsers

TOP = os.path.realpath(os.path.join(os.path.dirname(__file__), "..", ".."))
WORKBENCH = os.path.join(TOP, "tools", "workbench.py")

WALK = """class A {
  #reach[1.0];
  public state fixed x : x + rand() - 0.5;
  public state fixed y;
}
"""
SLOW = {"name": "a.brasil", "script": WALK, "agents": "A,1,0,0\n", "ticks": 1000000, "every": 1,
        "seed": 0, "cuts": None, "workers": 1}


class Checks:
    def __init__(self):
        self.count = self.failed = 0

    def same(self, what, found, wanted):
        self.count += 1
        if found != wanted:
            self.failed += 1
            print(f"FAILED {what}: {str(found)[:600]!r}, wanted {str(wanted)[:600]!r}", flush=True)


class Served:
    """A workbench that was started as a person would, without a browser."""

    def __init__(self, program, *words, env=None):
        self.job = subprocess.Popen(
            [sys.executable, WORKBENCH, "--program", program, *words], stdout=subprocess.PIPE,
            stderr=subprocess.STDOUT, text=True, env=env)
        line = self.job.stdout.readline()
        found = re.fullmatch(
            r"The workbench is at (http://127\.0\.0\.1:([0-9]+)/([\w-]+)/)\n", line)
        if not found:
            raise RuntimeError(line + self.job.stdout.read())
        self.address, self.port, self.key = found[1], int(found[2]), found[3]

    def __enter__(self):
        return self

    def __exit__(self, *_):
        if self.job.poll() is None:
            self.job.terminate()
        self.job.wait(browsers.PATIENCE)
        self.job.stdout.close()

    def raw(self, method, path, body=None, heads=None):
        """An answer's status and its JSON or text, of a request whose heads are these alone."""
        line = http.client.HTTPConnection("127.0.0.1", self.port, timeout=browsers.PATIENCE)
        try:
            line.putrequest(method, path, skip_host=True, skip_accept_encoding=True)
            for name, value in (self.heads(body) if heads is None else heads):
                line.putheader(name, value)
            line.endheaders()
            if body is not None:
                line.send(body)
            answer = line.getresponse()
            self.last = dict(answer.getheaders())
            return answer.status, answer.read()
        finally:
            line.close()

    def heads(self, body=None, **other):
        """The heads of a right request, some of them others; None leaves one out."""
        heads = {"Host": f"127.0.0.1:{self.port}", "Origin": f"http://127.0.0.1:{self.port}"}
        if body is not None:
            heads.update({"Content-Type": "application/json", "Content-Length": str(len(body))})
        heads.update({name.replace("_", "-"): value for name, value in other.items()})
        return [(name, value) for name, value in heads.items() if value is not None]

    def ask(self, act, **body):
        """The status and the JSON that an act answers."""
        status, content = self.raw("POST", f"/{self.key}/{act}", json.dumps(body).encode())
        return status, json.loads(content)

    @contextlib.contextmanager
    def asking(self, act, **body):
        """The answer of an act as it comes, and its connection."""
        line = http.client.HTTPConnection("127.0.0.1", self.port, timeout=browsers.PATIENCE)
        content = json.dumps(body).encode()
        line.request("POST", f"/{self.key}/{act}", content, dict(self.heads(content)))
        try:
            yield line.getresponse(), line
        finally:
            line.close()

    def children(self):
        """The processes whose parent is the server."""
        found = []
        for name in filter(str.isdigit, os.listdir("/proc")):
            try:
                with open(f"/proc/{name}/stat", encoding="utf-8", errors="replace") as file:
                    state, parent = file.read().rpartition(")")[2].split()[:2]
            except OSError:
                continue
            if int(parent) == self.job.pid and state != "Z":
                found.append(int(name))
        return found


def folders():
    """The folders of workbenches that are there."""
    return {name for name in os.listdir(tempfile.gettempdir()) if name.startswith("workbench-")}


def read(path):
    with open(path, encoding="utf-8") as file:
        return file.read()


def prepared(top):
    """A user's folder, with what must not be reached beside it."""
    folder = os.path.join(top, "mine")
    os.makedirs(os.path.join(folder, "sub"))
    os.makedirs(os.path.join(folder, "folder.brasil"))
    os.mkfifo(os.path.join(folder, "pipe.brasil"))
    for name, content in (("secret.brasil", WALK), ("secret.csv", "A,1,0,0\n"),
                          ("mine/mine.brasil", WALK), ("mine/mine.csv", "A,1,0,0\n"),
                          ("mine/sub/in.brasil", WALK), ("mine/.hidden.brasil", WALK),
                          ("mine/notes.txt", "")):
        with open(os.path.join(top, name), "w", encoding="utf-8") as file:
            file.write(content)
    for end in ("brasil", "csv"):
        os.symlink(f"../secret.{end}", os.path.join(folder, f"out.{end}"))
    return folder
