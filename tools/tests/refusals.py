"""What the server of tools/workbench.py must refuse, and what must end with it.

tools/tests/test_workbench.py runs these.
"""
import json
import os
import signal
import socket
import subprocess
import sys
import tempfile
import time

import browsers
from served import SLOW, TOP, WALK, WORKBENCH, Served, folders, prepared, read

sys.path.insert(0, os.path.join(TOP, "tools"))
import cudrenal  # noqa: E402 (beside this folder)
from workbench_parts import agents, bench, means, trouble  # noqa: E402

# ---- What is refused. ----

def check_who(checks, served):
    """Another key, Host, Origin or site is refused, and nobody else's page may read an answer."""
    page, act = f"/{served.key}/", f"/{served.key}/models"
    host, body = f"127.0.0.1:{served.port}", b"{}"
    checks.same("the page", served.raw("GET", page)[0], 200)
    checks.same("the page, without an Origin", served.raw(
        "GET", page, heads=served.heads(Origin=None))[0], 200)
    checks.same("an act", served.raw("POST", act, body)[0], 200)
    for path in ("/", "/models", f"/{served.key}", "/other/", f"/{served.key[:-1]}/",
                 f"/{served.key}x/models", f"/x/{served.key}/", f"/?{served.key}/",
                 f"http://{host}/{served.key}/", "*"):
        for method, content in (("GET", None), ("POST", body)):
            checks.same(f"without the key: {method} {path}",
                        served.raw(method, path, content)[0], 403)
    for name in (f"localhost:{served.port}", "127.0.0.1", "evil.example",
                 f"evil.example:{served.port}", f"127.0.0.1:{served.port + 1}",
                 f"[::1]:{served.port}", "", None):
        checks.same(f"Host {name}", [
            served.raw("GET", page, heads=served.heads(Host=name))[0],
            served.raw("POST", act, body, served.heads(body, Host=name))[0]], [403, 403])
    two = [("Host", host), ("Host", host)]
    checks.same("two Hosts", served.raw("GET", page, heads=two)[0], 403)
    for name in ("http://evil.example", f"http://localhost:{served.port}", f"https://{host}",
                 "null", "http://127.0.0.1", f"http://{host}.evil.example", f"http://{host}/"):
        checks.same(f"Origin {name}", [
            served.raw("GET", page, heads=served.heads(Origin=name))[0],
            served.raw("POST", act, body, served.heads(body, Origin=name))[0]], [403, 403])
    checks.same("an act without an Origin",
                served.raw("POST", act, body, served.heads(body, Origin=None))[0], 403)
    for site in ("cross-site", "same-site"):
        checks.same(f"from {site}", served.raw(
            "GET", page, heads=served.heads(Sec_Fetch_Site=site))[0], 403)
    for method in ("PUT", "DELETE", "OPTIONS", "HEAD", "PATCH", "TRACE", "CONNECT"):
        checks.same(f"method {method}", served.raw(method, page)[0], 501)
    served.raw("GET", page)
    checks.same("no other page may read",
                [name for name in served.last if "Access-Control" in name], [])
    checks.same("the policy", "frame-ancestors 'none'" in served.last["Content-Security-Policy"]
                and "default-src 'none'" in served.last["Content-Security-Policy"], True)


def check_where(checks, served, folder):
    """Paths and names lead to the page's pieces, the examples and the folder, and nowhere else."""
    for path in ("../../README.md", "..%2f..%2fREADME.md", "%2e%2e/server.py", "page/page.html",
                 "server.py", "/etc/passwd", "page.js/", "page.js?x", "view.html#", "./page.js",
                 "view.html/../../../README.md", "page.html", "run", "%00"):
        checks.same(f"GET {path}", served.raw("GET", f"/{served.key}/{path}")[0], 404)
    for act in ("../run", "exec", "page.js", "", "RUN", "run/", "open%20"):
        checks.same(f"POST {act}", served.ask(act)[0], 404)
    for kind, name in (
            ("script", "../secret.brasil"), ("script", "out.brasil"), ("script", "sub/in.brasil"),
            ("script", "/etc/passwd"), ("script", ".hidden.brasil"), ("script", "none.brasil"),
            ("script", "folder.brasil"), ("script", ""), ("table", "../secret.csv"),
            ("table", "out.csv"), ("example", "../examples/flock"), ("example", "flock/flock"),
            ("example", "..")):
        checks.same(f"open {kind} {name}", served.ask("open", kind=kind, name=name)[0], 404)
    checks.same("open of another kind", served.ask("open", kind="file", name="/etc/passwd")[0], 400)
    for name in ("../new.brasil", "/tmp/new.brasil", ".new.brasil", "new.txt", "sub/new.brasil",
                 "-new.brasil", "new.brasil\n", "brasil", ""):
        checks.same(f"save as {name!r}", served.ask(
            "save", name=name, script=WALK, was=None)[0], 400)
    for name in ("out.brasil", "mine.brasil", "folder.brasil", "pipe.brasil"):
        checks.same(f"save over {name}", served.ask(
            "save", name=name, script="", was=None)[0], 409)
    with open(os.path.join(folder, "..", "secret.brasil"), encoding="utf-8") as file:
        checks.same("what is outside stays", file.read(), WALK)
    listed = served.ask("models")[1]
    checks.same("what is listed", (listed["scripts"], listed["tables"]),
                (["mine.brasil"], ["mine.csv"]))


def check_saves(checks, served, folder):
    """A script is saved over what was opened, and under a new name; not over what was changed."""
    path = os.path.join(folder, "mine.brasil")
    opened = served.ask("open", kind="script", name="mine.brasil")[1]
    checks.same("opened", (opened["script"], opened["agents"], opened["scriptPath"]),
                (WALK, "A,1,0,0\n", path))
    status, saved = served.ask(
        "save", name="mine.brasil", script=WALK + "// 1\n", was=opened["was"])
    checks.same("saved", (status, read(path)), (200, WALK + "// 1\n"))
    checks.same("saved over an older one", served.ask(
        "save", name="mine.brasil", script="", was=opened["was"])[0], 409)
    with open(path, "a", encoding="utf-8") as file:
        file.write("// 2\n")
    checks.same("saved over another's change", served.ask(
        "save", name="mine.brasil", script="", was=saved["was"])[0], 409)
    checks.same("it stays", read(path), WALK + "// 1\n// 2\n")
    checks.same("saved as new", (served.ask("save", name="new.brasil", script=WALK, was=None)[0],
                                 read(os.path.join(folder, "new.brasil"))), (200, WALK))
    checks.same("nothing else is left", [name for name in os.listdir(folder) if "part" in name], [])
    with Served(served.program, "--no-browser") as other:
        checks.same("no folder, no saving", other.ask(
            "save", name="new.brasil", script=WALK, was=None)[0], 403)


CROWD = {"class": "A", "count": 1, "area": [0, 0, 1, 1], "values": {}}
# To each act a request that is right, and what makes a wrong one of it.
WRONG = {
    "run": ({**SLOW, "ticks": 1}, [
        {"program": "/bin/sh"}, {"words": ["--save", "x"]}, {"mode": "resume"}, {"save": "/tmp/x"},
        {"agents": "A" * (1 << 26) + "A"}, {"agents": None}, {"ticks": 1000001}, {"ticks": -1},
        {"ticks": "1"}, {"ticks": 1.5}, {"ticks": True}, {"ticks": None}, {"every": 0},
        {"seed": -1}, {"seed": 2 ** 64}, {"workers": 0}, {"workers": 17}, {"workers": "4; ls"},
        {"cuts": [9, 8]}, {"cuts": [0, 1]}, {"cuts": [1]}, {"cuts": "at 0 x y"},
        {"name": "--help.brasil"}, {"name": "a.csv"}, {"name": "../a.brasil"},
        {"name": "a/b.brasil"}, {"name": "a\0.brasil"}, {"script": "a" * (1 << 20) + "a"},
        {"script": 7}, {"script": "\ud800"}]),
    "check": ({"name": "a.brasil", "script": WALK}, [
        {"script": None}, {"script": "a" * (1 << 20) + "a"}, {"mode": "run"}]),
    "agents": ({"script": WALK, "crowds": [CROWD], "seed": 0}, [
        {"seed": 0.5}, {"crowds": []}, {"crowds": [CROWD] * 17}, {"crowds": [{}]},
        *({"crowds": [{**CROWD, **other}]} for other in (
            {"count": (1 << 20) + 1}, {"area": [0, 0, 1]}, {"area": [0, 0, 1e13, 1]},
            {"area": [1, 0, 0, 1]}, {"class": "B"}, {"values": {"x": "7" * 70000}},
            {"more": 1})),
        {"crowds": [{**CROWD, "count": 1 << 20}, CROWD]}]),
    "sweep": ({"name": "a.brasil", "scripts": [WALK], "agents": "A,1,0,0\n", "ticks": 1,
               "every": 1, "cuts": None, "seeds": [0], "processes": 1}, [
        {"scripts": []}, {"scripts": [WALK] * 51}, {"seeds": []}, {"seeds": list(range(21))},
        {"scripts": [WALK] * 20, "seeds": list(range(11))}, {"processes": 9},
        {"program": "/bin/sh"}, {"ticks": 10 ** 9}]),
}


def check_bounds(checks, served):
    """What is too large, of another type, or unknown is refused before anything runs."""
    for act, (right, others) in WRONG.items():
        with served.asking(act, **right) as (answer, _):
            checks.same(f"{act} that is right", answer.status, 200)
            answer.read()
        for other in others:
            checks.same(f"{act} with {str(other)[:80]}", served.ask(act, **{**right, **other})[0],
                        400)
    checks.same("a run that is none",
                [served.ask(act, run="0" * 16)[0] for act in ("stop", "end")], [404, 404])


def check_bodies(checks, served):
    """A request is JSON of a length that is told, and no longer than its bound."""
    path = f"/{served.key}/check"
    body = json.dumps({"name": "a.brasil", "script": WALK}).encode()
    for what, content, heads, status in (
            ("what is right", body, {}, 200),
            ("no length", body, {"Content_Length": None}, 411),
            ("a length that is none", body, {"Content_Length": "-1"}, 411),
            ("pieces", body, {"Content_Length": None, "Transfer_Encoding": "chunked"}, 411),
            ("too long", b"", {"Content_Length": str((1 << 27) + 1)}, 413),
            ("a form", body, {"Content_Type": "application/x-www-form-urlencoded"}, 415),
            ("plain text", body, {"Content_Type": "text/plain"}, 415),
            ("no JSON", b"{", {}, 400), ("a list", b"[]", {}, 400),
            ("deep JSON", b"[" * 100000, {}, 400), ("bytes", b"\xff\xfe", {}, 400)):
        checks.same(f"a request of {what}",
                    served.raw("POST", path, content, served.heads(content, **heads))[0], status)


# ---- Processes. ----

def is_soon(wanted):
    """Whether this comes to be while one waits."""
    try:
        browsers.wait(wanted)
    except TimeoutError:
        return False
    return True


def check_stops(checks, served):
    """A run ends where it is stopped, where its page goes, and at its last second."""
    with served.asking("run", **SLOW) as (answer, _):
        name = answer.getheader("Run")
        checks.same("rows come", answer.read(30), b"0,A,1,0.000000,0.000000\n1,A,1,")
        checks.same("a process is at work", len(served.children()), 1)
        served.ask("stop", run=name)
        checks.same("none is after Stop", served.children(), [])
        rows = answer.read()
        checks.same("the rest comes", len(rows) > 0, True)
        checks.same("how it ended", served.ask("end", run=name)[1],
                    {"status": None, "message": "stopped"})
    with served.asking("run", **SLOW) as (answer, _):
        answer.read(30)
    checks.same("none is after its page has gone", is_soon(lambda: not served.children()), True)
    with served.asking("sweep", name="a.brasil", scripts=[WALK] * 4, agents="A,1,0,0\n",
                       ticks=1000000, every=1, cuts=None, seeds=[1], processes=3):
        checks.same("a sweep has several at work", is_soon(lambda: len(served.children()) == 3),
                    True)
    checks.same("none is after the sweep's page has gone", is_soon(lambda: not served.children()),
                True)


def check_limits(checks, program):
    with Served(program, "--no-browser", "--seconds", "2") as served:
        # A hundred agents: alone, one comes to its last tick in about as many seconds.
        crowd = "".join(f"A,{number},0,0\n" for number in range(100))
        with served.asking("run", **{**SLOW, "agents": crowd}) as (answer, _):
            answer.read()
            ending = served.ask("end", run=answer.getheader("Run"))[1]
            checks.same("a run at its last second", ending,
                        {"status": None, "message": "stopped after 2 seconds"})


def check_end(checks, program):
    """The server ends with its last page, and when it is told to; its folder and processes too."""
    before = folders()
    with Served(program, "--no-browser") as served:
        checks.same("a folder of its own", len(folders() - before), 1)
        with served.asking("here"):
            with served.asking("here"), served.asking("run", **SLOW) as (answer, _):
                answer.read(10)
                [child] = served.children()
            time.sleep(bench.GRACE + 2)
            checks.same("it stays while a page is open", served.job.poll(), None)
        checks.same("it ends with its last page", served.job.wait(browsers.PATIENCE), 0)
        checks.same("its process is gone", os.path.exists(f"/proc/{child}"), False)
    for number in (signal.SIGTERM, signal.SIGINT, signal.SIGHUP):
        with Served(program, "--no-browser") as served:
            with served.asking("run", **SLOW) as (answer, _):
                answer.read(10)
                [child] = served.children()
                served.job.send_signal(number)
                checks.same(f"it ends at {number.name}", served.job.wait(browsers.PATIENCE), 0)
                checks.same("its process is gone", os.path.exists(f"/proc/{child}"), False)
    checks.same("its folder is gone", folders() - before, set())


def check_opening(checks, program, folder, env):
    """The browser's words, which others may see, have a key that leads to the page once."""
    browser, words = os.path.join(folder, "browser"), os.path.join(folder, "words")
    with open(browser, "w", encoding="utf-8") as file:
        file.write(f'#!/bin/sh\necho "$1" > {words}\n')
    os.chmod(browser, 0o700)
    with Served(program, env={**env, "DISPLAY": ":9", "BROWSER": f"{browser} %s"}) as served:
        checks.same("the browser is started", is_soon(lambda: os.path.exists(words)
                                                      and read(words).endswith("\n")), True)
        opening = read(words).strip()
        path = opening.replace(f"http://127.0.0.1:{served.port}", "")
        checks.same("without the key", served.key in opening, False)
        checks.same("for an act", served.raw("POST", path, b"{}")[0], 403)
        checks.same("the first time", (served.raw("GET", path)[0], served.last.get("Location")),
                    (303, served.address))
        checks.same("the second time", served.raw("GET", path)[0], 403)


def check_start(checks, program, folder):
    """It tells its address where no browser can be opened, and says why it does not start."""
    env = {name: value for name, value in os.environ.items() if "DISPLAY" not in name}
    hint = "Open that address in a browser on this machine.\n"
    with Served(program, env=env) as served:
        checks.same("without a display", served.job.stdout.readline(), hint)
    with open(os.path.join(folder, "webbrowser.py"), "w", encoding="utf-8") as file:
        file.write("raise ImportError\n")
    with Served(program, env={**env, "DISPLAY": ":9", "PYTHONPATH": folder}) as served:
        checks.same("without the browser module", served.job.stdout.readline(), hint)
    check_opening(checks, program, folder, env)
    for words, said in ((["none"], "workbench.py: none: no folder\n"),
                        (["--program", "/bin/false"], "workbench.py: /bin/false does not run; "
                         "README.md, 'Where it runs', says why\n")):
        made = subprocess.run([sys.executable, WORKBENCH, *words], capture_output=True, text=True,
                              check=False)
        checks.same(f"words {words}", (made.returncode, made.stderr), (1, said))
    with socket.socket() as other:
        host = socket.gethostbyname(socket.gethostname())
        with Served(program, "--no-browser") as served:
            if not host.startswith("127."):
                checks.same("it listens on 127.0.0.1 alone",
                            other.connect_ex((host, served.port)) != 0, True)
            with open("/proc/net/tcp", encoding="ascii") as file:
                lines = [line.split()[1] for line in file if f":{served.port:04X} " in line]
            checks.same("its socket", {line.split(":")[0] for line in lines}, {"0100007F"})


# ---- Parts without a server. ----

def check_advice(checks):
    """The pages' words on a fault: those of the slip that is most like it come first."""
    told = trouble.Trouble()
    text = "class A {\n  public state fixed x : x + 1.0\n  public state fixed y;\n}\n"
    advice = told.told(cudrenal.failure(3, "brace: a.brasil:3:3: NoReading", None), text)
    checks.same("a semicolon that is missing is told first", advice["slips"][0]["why"],
                "a `;` is missing; that is noticed at the next token, the first of the next line")
    for status, message in ((4, "brace: a.csv: record 1: BadValue 7"),
                            (5, "brace: cuts.plan: line 1: NotRising"),
                            (7, "brace: tick 0 birth agent 1 site 0: TooMany"),
                            (7, "brace: tick 0 query agent 1 site 0: Overflow")):
        advice = told.told(cudrenal.failure(status, message, None), text)
        checks.same(f"advice on {message}", len(advice["slips"]) > 0, True)
    # The pages have no slip of these.
    rare = {"LongWord", "TooDeep", "TooMany", "NestedTooDeep", "AssignsEffect"}
    failures = {kind: cudrenal.failure(3, f"brace: a.brasil:1:1: {kind}", None)
                for kind in told.kinds}
    checks.same("each kind of refusal has rows", {
        kind for kind, failure in failures.items() if not told.told(failure, text)["slips"]}, rare)


def check_lines(checks):
    """Agents are made of lines of values."""
    crowd = {"class": "A", "count": 6, "area": [0, -1, 2, 1],
             "values": {"n": "9*2 0..3", "f": "0.5, -1", "b": "true*1 false"}}
    script = ("class A { public state fixed x; public state fixed y; public state int n; "
              "public state fixed f; public state bool b; }")
    made = [line.split(",") for line in agents.made(script, [crowd], 7).splitlines()]
    checks.same("made agents", [(line[:2], line[5], line[6]) for line in made], [
        (["A", str(i)], "0.500000" if i == 0 else "-1.000000", "true" if i == 0 else "false")
        for i in range(6)])
    checks.same("a line's items in turn", [line[4] for line in made][:2], ["9", "9"])
    checks.same("draws lie in their range", all(
        0 <= float(line[2]) <= 2 and -1 <= float(line[3]) <= 1 and 0 <= int(line[4]) <= 3
        for line in made[2:]), True)
    for line in ("x", "1..", "3..1", "0.5", "true", "", "1*x", "1e3", "--1"):
        try:
            agents.Line("int", line)
            checks.same(f"the line {line!r}", "taken", "refused")
        except agents.BadLine:
            checks.count += 1


def check_means(checks):
    """Rows may be parted anywhere."""
    script = ("class A { public state fixed x; public state fixed y; public state int n; "
              "public state fixed f; public state bool b; }")
    found = means.Means(script)
    for piece in (b"0,A,0,1.0,2.0,1,0.5,true\n0,A,1,3.0", b",2.0,2,0.5,false\n1,A,0",
                  b",0,0,7,0,true\n"):
        found.push(piece)
    checks.same("means", found.told(), {"A": {"ticks": [0, 1], "count": [2, 1], "means": {
        "x": [2, 0], "y": [2, 0], "n": [1.5, 7], "f": [0.5, 0], "b": [0.5, 1]}}})


def check_server(checks, program):
    with tempfile.TemporaryDirectory() as top:
        folder = prepared(top)
        check_advice(checks)
        check_lines(checks)
        check_means(checks)
        check_start(checks, program, top)
        with Served(program, folder, "--no-browser") as served:
            served.program = program
            check_who(checks, served)
            check_where(checks, served, folder)
            check_saves(checks, served, folder)
            check_bounds(checks, served)
            check_bodies(checks, served)
            check_stops(checks, served)
        check_limits(checks, program)
        check_end(checks, program)
