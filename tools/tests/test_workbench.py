#!/usr/bin/env python3
"""Asks the server of tools/workbench.py what it must refuse, and drives its page in Chromium.

    tools/tests/test_workbench.py [--program PROGRAM] [--picture FILE.png] [--no-browser | --page]

The rows that the page gets are those of `brace run`. With --picture the page is kept as it looks
while an example runs. Run by hand; where Chromium is not installed the page's tests are left out.
"""
import argparse
import contextlib
import hashlib
import json
import os
import re
import shlex
import shutil
import subprocess
import sys
import tempfile
import time

import browsers
import refusals
import small_png
from served import TOP, WALK, Checks, Served, prepared, read

sys.path.insert(0, os.path.join(TOP, "tools"))
import cudrenal  # noqa: E402 (beside this folder)
from workbench_parts import bench, trouble  # noqa: E402

WIDTH, HEIGHT = 1280, 800

FAULTY = """class A {
  #visible[2.0];
  #reach[2.0];
  public state fixed x : x + 0.25;
  public state fixed y : y + s;
  public effect fixed s : sum;
  public void run() {
    foreach (A p : Extent<A>) {
      s <- 1.0 / (x - 1.0);
    }
  }
}
"""


class Page:
    """The page of a workbench in a browser."""

    def __init__(self, browser, served):
        self.browser, self.served = browser, served
        self.load()

    def load(self):
        self.value("window.isOld = true")
        self.browser.visit(self.served.address)
        self.until("!window.isOld && document.body?.dataset.ready === 'yes'")
        # Dialogs answer at once, and what is copied or kept is looked at here.
        self.do("""window.asked = []; window.copied = ''; window.kept = [];
            window.confirm = what => (asked.push(what), true);
            navigator.clipboard.writeText = text => (copied = text, Promise.resolve());
            navigator.clipboard.write = items => (kept = items[0].types, Promise.resolve());
            HTMLAnchorElement.prototype.click = function () { kept.push(this.download); };""")

    def value(self, source):
        return self.browser.value(source)

    def do(self, statements):
        self.value(f"(() => {{ {statements} }})()")

    def text(self, name):
        return self.value(f"document.getElementById('{name}').textContent")

    def set(self, name, value, event="change"):
        self.do(f"const field = document.getElementById('{name}'); field.value = "
                f"{json.dumps(str(value))}; field.dispatchEvent(new Event('{event}'));")

    def click(self, name):
        self.do(f"document.getElementById('{name}').click()")

    def viewer(self, source):
        """What an expression comes to in the frame of the viewer, whose document is `page`."""
        frame = "document.getElementById('viewer').contentDocument"
        return self.value(f"(page => {source})({frame})")

    def until(self, source):
        browsers.wait(lambda: self.value(source))

    def open(self, kind, name):
        self.do("document.getElementById('modelState').textContent = ''")
        self.set("models", f"{kind} {name}")
        self.until("document.getElementById('modelState').textContent === "
                   f"{json.dumps(name.replace('.brasil', '') + '.brasil')}")

    def write(self, script):
        """Writes a script, and waits until it is checked."""
        self.do(f"""const area = document.querySelector('textarea');
            area.value = {json.dumps(script)}; area.dispatchEvent(new Event('input'));""")
        self.until("document.getElementById('fault').textContent !== 'Checking.'")

    def script(self):
        return self.value("document.querySelector('textarea').value")

    @contextlib.contextmanager
    def late(self, act):
        """The answer of an act comes at the end of this."""
        self.do(f"""window.fetched = window.fetch;
            window.fetch = async (asked, ...more) => {{
                const answer = await fetched(asked, ...more);
                if (asked === '{act}') await new Promise(done => {{ window.free = done; }});
                return answer;
            }};""")
        yield
        self.until("Boolean(window.free)")
        self.do("window.fetch = fetched; free(); window.free = null;")

    def run(self):
        """Runs to the end; answers what is said of it."""
        self.click("run")
        self.until("!document.getElementById('run').disabled")
        return self.text("status")

    def rows(self):
        """How many bytes the rows have, and their checksum."""
        return self.value("""(async () => {
            const rows = document.getElementById('viewer').contentWindow.viewer.rows().slice();
            const sum = await crypto.subtle.digest('SHA-256', await rows.arrayBuffer());
            const hex = [...new Uint8Array(sum)].map(byte => byte.toString(16).padStart(2, '0'));
            return [rows.size, hex.join('')];
        })()""")

    def command(self):
        self.do("copied = ''; document.getElementById('copyCommand').click()")
        self.until("copied !== ''")
        return self.value("copied")


def said(program, command, folder=TOP):
    """What a command writes, in which ./brace is the program."""
    line = command.replace("./brace", shlex.quote(program))
    return subprocess.run(["/bin/bash", "-ec", line], cwd=folder, stdout=subprocess.PIPE,
                          stderr=subprocess.DEVNULL, check=False).stdout


def summed(content):
    return [len(content), hashlib.sha256(content).hexdigest()]


def check_examples(checks, page, program):
    """Each example has the rows of its command, which can be copied; the viewer shows its end."""
    names = [each["name"] for each in page.served.ask("models")[1]["examples"]]
    for name in names:
        command = read(os.path.join(TOP, "examples", name, "command")).strip()
        page.open("example", name)
        checks.same(f"{name} ends", page.run(), "Status 0: all was written.")
        checks.same(f"{name} rows", page.rows(), summed(said(program, command)))
        checks.same(f"{name} command", page.command(), command)
        checks.same(f"{name} bar", page.text("barText"), "tick 200 of 200")
        page.viewer("page.body.dispatchEvent(new KeyboardEvent('keydown', "
                    "{ key: 'End', bubbles: true }))")
        last = said(program, command).rstrip().rpartition(b"\n")[2].split(b",")[0].decode()
        checks.same(f"{name} last tick", page.viewer("page.getElementById('tick').textContent"),
                    last)
    checks.same("examples", len(names) >= 8, True)


def check_settings(checks, page, program):
    """Cuts and workers change no row; the copied command makes the same rows of the same files."""
    page.open("example", "flock")
    for name, value in (("ticks", 20), ("seed", 7), ("every", 5)):
        page.set(name, value)
    page.run()
    plain = page.rows()
    page.set("cuts", "2 x 2")
    page.set("workers", 3)
    checks.same("with cuts", (page.run(), page.rows()), ("Status 0: all was written.", plain))
    checks.same("counts of cuts", re.fullmatch(
        "stats: border [1-9][0-9]* effects [0-9]+ moved [1-9][0-9]* handed 0", page.text("stats"))
        is not None, True)
    with tempfile.TemporaryDirectory() as folder:
        for name in ("tools", "examples"):
            os.symlink(os.path.join(TOP, name), os.path.join(folder, name))
        rows = said(program, page.command(), folder)
        checks.same("the copied command", summed(rows[rows.index(b"0,Fish"):]), plain)
    page.do("document.getElementById('copyRows').click()")
    page.until("copied.startsWith('0,Fish,0')")
    checks.same("copied rows", page.value("copied.length"), plain[0])
    page.click("copyPicture")
    page.until("kept.length > 0")
    checks.same("copied picture", page.value("kept"), ["image/png"])
    for name, value in (("cuts", "none"), ("workers", 1), ("seed", 0), ("every", 1)):
        page.set(name, value)
    page.set("ticks", "1e9")
    checks.same("ticks past the bound", page.run(), "ticks is a whole number from 0 to 1000000")


def check_faulty(checks, page):
    """Ten faulty scripts: the message, its place in the text, and what the pages say."""
    told, kinds = trouble.Trouble(), {}
    for slip in told.slips:
        if slip.file == "fish.brasil":
            kinds.setdefault(slip.said.split()[1], slip)
    for slip in list(kinds.values())[:10]:
        text = told.base.replace(slip.write, slip.wrong)
        page.write(text)
        place, kind = slip.said.split(": ")
        shown = page.text("fault")
        checks.same(f"{slip.wrong} message", shown.startswith(f"{place} {kind}"), True)
        checks.same(f"{slip.wrong} advice", slip.why.replace("`", "") in shown, True)
        line, column = map(int, place.split(":"))
        found = page.value("""(() => {
            const paper = document.querySelector('#editor pre');
            const mark = paper.querySelector('.fault');
            const range = document.createRange();
            range.selectNodeContents(paper);
            range.setEndBefore(mark);
            return [range.toString().length, document.querySelector('.gutter b').textContent];
        })()""")
        checks.same(f"{slip.wrong} place", found, [trouble.offset(text, line, column), str(line)])
    checks.same("kinds", len(kinds) >= 10, True)
    page.write("// Größe, \U0001f41f\n" + told.base.replace("p.vx;", "/* ä */ p.v;"))
    checks.same("a column is told in bytes", page.value(
        "document.querySelector('#editor pre .fault').textContent"), "p")
    page.write(told.base)
    checks.same("a right script", (page.text("fault"), page.value(
        "document.querySelector('#editor pre .fault')")), ("Accepted.", None))


def check_colours(checks, page):
    """The text in colours is the text, and tokens have the scopes of the grammar."""
    page.open("example", "epidemic")
    checks.same("the text in colours", page.value(
        "document.querySelector('#editor pre').textContent"), page.script())
    found = page.value("""Object.fromEntries([...document.querySelectorAll('#editor pre span')]
        .reverse().map(span => [span.textContent, span.dataset.scope]))""")
    for token, scope in (("#visible", "keyword.other.range"), ("foreach", "keyword.control"),
                         ("Person", "entity.name.type"), ("0.333333", "constant.numeric.fixed"),
                         ("rand", "support.function"), ("// Days of illness that are left.",
                                                        "comment.line")):
        checks.same(f"colour of {token}", found.get(token, "").startswith(scope), True)


def check_format(checks, page, program):
    """Format writes the canonical text, and warns where there are comments."""
    page.open("example", "epidemic")
    command = "./brace fmt --script examples/epidemic/epidemic.brasil"
    for more, warnings in (("", 1), ("\n\n", 0)):
        script = page.script() + more
        page.write(script)
        page.do("asked = []")
        page.click("fmt")
        page.until(f"document.querySelector('textarea').value !== {json.dumps(script)}")
        checks.same("canonical text", page.script(), said(program, command).decode())
        checks.same("warned", page.value("asked.length"), warnings)


def check_stop(checks, page):
    """Stop ends the process, and whole ticks stay."""
    page.write(WALK)
    page.do("document.querySelector('[data-tab=agents]').click()")
    page.do("document.querySelector('[data-field=\"A count\"]').value = 5")
    page.click("makeAgents")
    page.until("document.getElementById('worldName').textContent.endsWith(' 5 agents')")
    page.set("ticks", 1000000)
    page.click("run")
    page.until("document.getElementById('barText').textContent.startsWith('tick ')")
    checks.same("a process is at work", len(page.served.children()), 1)
    page.until("!document.getElementById('stop').disabled")
    page.click("stop")
    page.until("!document.getElementById('run').disabled")
    checks.same("none is after Stop", page.served.children(), [])
    checks.same("what is said", page.text("status"), "The run ended: stopped.")
    checks.same("agents of the last whole tick", page.viewer(
        "page.getElementById('count').textContent"), "5")
    page.set("ticks", 10)


def check_fault(checks, page):
    """A run that faults tells why and where, and its agents have rings."""
    page.write(FAULTY)
    page.do("""document.querySelector('[data-field="A count"]').value = 2;
        for (const side of ['left', 'low', 'right', 'top']) {
          document.querySelector(`[data-field="A ${side}"]`).value = 0;
        }""")
    page.click("makeAgents")
    page.until("document.getElementById('worldHead').textContent.includes('A,0,0.000000,0.000000')")
    said_ = page.run()
    line = r"Status 7: brace: tick 4 query agent 0 with 1 site [0-9]+: DivZero"
    checks.same("the fault", re.fullmatch(line, said_) is not None, True)
    checks.same("its place", page.value(
        "[document.querySelector('#editor .fault').textContent, "
        "document.querySelector('.gutter b').textContent]"), ["/", "9"])
    checks.same("its advice", "two agents at one place" in page.text("stats"), True)
    checks.same("its tick", page.viewer("page.getElementById('tick').textContent"), "4")
    checks.same("rings", page.viewer("""(() => {
        const plane = page.getElementById('plane');
        const { data } = plane.getContext('2d').getImageData(0, 0, plane.width, plane.height);
        let count = 0;
        for (let i = 0; i < data.length; i += 4) {
          count += Math.abs(data[i] - 0xb3) + Math.abs(data[i + 1] - 0x26)
            + Math.abs(data[i + 2] - 0x1e) < 12 && data[i + 3] > 200;
        }
        return count > 60;
    })()"""), True)


def check_late(checks, page):
    """What is written while Format or a run is at work stays, and gets no mark of another text."""
    page.write(FAULTY)
    with page.late("fmt"):
        page.click("fmt")
        page.write(WALK)
    time.sleep(0.5)
    checks.same("written while Format is at work", page.script(), WALK)
    page.write(FAULTY)
    with page.late("end"):
        page.click("run")
        page.until("Boolean(window.free)")
        page.write(WALK)
    page.until("!document.getElementById('run').disabled")
    checks.same("the run's end is told", page.text("status").startswith("Status 7: "), True)
    checks.same("written while a run is at work", page.value(
        "document.querySelector('#editor .fault')"), None)


def check_sweep(checks, page):
    """Five values and three seeds: a line a value, of the means that Python reckons."""
    page.open("example", "epidemic")
    script = page.script()
    page.write(script.replace("0.333333", "/*@ chance 0.1 0.9 0.2 */ 0.3"))
    checks.same("the slider", page.value("""(() => {
        const [slider] = document.querySelectorAll('#sliders label');
        const [field, shown] = [slider.querySelector('input'), slider.querySelector('output')];
        return [slider.firstChild.textContent, field.min, field.max, field.step, shown.textContent];
    })()"""), ["chance", "1", "9", "2", "0.3"])
    page.do("""const field = document.querySelector('#sliders input');
        field.value = 5; field.dispatchEvent(new Event('input'));""")
    checks.same("the slider's number", "/*@ chance 0.1 0.9 0.2 */ 0.5" in page.script(), True)
    page.do("document.querySelector('[data-tab=sweep]').click()")
    for name, value in (("ticks", 20), ("seeds", 3), ("processes", 3), ("column", "Person ill")):
        page.set(name, value)
    page.click("sweepRun")
    page.until("document.getElementById('sweepState').textContent.startsWith('All 15 runs')")
    page.click("copyLines")
    page.until("copied.startsWith('tick,')")
    heads, *rows = [line.split(",") for line in page.value("copied").splitlines()]
    values = ["0.1", "0.3", "0.5", "0.7", "0.9"]
    checks.same("the lines", heads, ["tick", *(f"chance {value}" for value in values)])
    checks.same("their ticks", [row[0] for row in rows], [str(tick) for tick in range(21)])
    path = os.path.join(TOP, "examples", "epidemic", "agents.csv")
    for place in (0, 4):
        runs = [cudrenal.run(script.replace("0.333333", values[place]), path, 20, seed=seed,
                             program=page.served.program).columns({20})["Person"]["ill"]
                for seed in range(3)]
        wanted = sum(sum(ill) / len(ill) for ill in runs) / 3
        found = float(rows[20][1 + place])
        checks.same(f"mean at {values[place]}", abs(found - wanted) < 1e-9, True)
    checks.same("drawn lines", page.value("document.querySelectorAll('#lineNames tr').length"), 5)
    page.set("column", "Person ")
    checks.same("another column", page.text("lineNames").startswith("chance 0.1"), True)


def check_folder(checks, page, folder):
    """A script of the folder is opened with its agents, run, changed and saved."""
    page.open("script", "mine.brasil")
    checks.same("its agents", page.text("worldName"),
                f"{os.path.join(folder, 'mine.csv')}: 1 agents")
    page.set("ticks", 3)
    checks.same("it runs", page.run(), "Status 0: all was written.")
    page.write(WALK + "// more\n")
    checks.same("the state", page.text("modelState"), "mine.brasil, changed")
    page.click("save")
    page.until("document.getElementById('modelState').textContent === 'mine.brasil, saved'")
    checks.same("saved", read(os.path.join(folder, "mine.brasil")), WALK + "// more\n")
    with page.late("save"):
        page.click("save")
        page.open("example", "flock")
    time.sleep(0.5)
    checks.same("opened while another one is saved", (page.text("modelState"), page.value(
        "document.getElementById('models').value")), ("flock.brasil", "example flock"))


def check_many(checks, page):
    """20,000 agents for 100 ticks: how long the page stands still while rows come."""
    page.write(WALK.replace("public state fixed y;", "public state fixed y : y + rand() - 0.5;"))
    page.do("document.querySelector('[data-field=\"A count\"]').value = 20000;"
            "document.querySelector('[data-field=\"A right\"]').value = 300;"
            "document.querySelector('[data-field=\"A top\"]').value = 200;")
    page.click("makeAgents")
    page.until("document.getElementById('worldName').textContent.endsWith(' 20000 agents')")
    page.set("ticks", 100)
    page.do("""window.gaps = []; window.last = performance.now();
        const watch = now => { gaps.push(now - last); last = now; requestAnimationFrame(watch); };
        requestAnimationFrame(watch);""")
    began = time.monotonic()
    checks.same("many agents", page.run(), "Status 0: all was written.")
    gaps = sorted(page.value("gaps"))
    middle, longest = gaps[len(gaps) // 2], gaps[-1]
    print(f"20,000 agents for 100 ticks took {time.monotonic() - began:.1f} s; the page was drawn "
          f"each {middle:.0f} ms, and stood still for {longest:.0f} ms at most", flush=True)
    checks.same("all ticks came", page.text("barText"), "tick 100 of 100")
    checks.same("the page is drawn ten times a second", middle < 100, True)
    checks.same("and never stands still for a second", longest < 1000, True)


def check_ends(checks, page):
    """The server stays while its page is loaded anew, and ends when it is closed."""
    page.load()
    time.sleep(bench.GRACE + 2)
    checks.same("it stays", page.served.job.poll(), None)
    page.browser.visit("about:blank")
    checks.same("it ends", page.served.job.wait(browsers.PATIENCE), 0)


def take_picture(page, path):
    """The page as an illness goes on: rows come, the ill have colours, the chart counts them."""
    page.load()
    page.open("example", "epidemic")
    page.set("ticks", 60)
    page.run()
    page.viewer("""(() => {
        const set = (id, value, event) => {
          page.getElementById(id).value = value;
          page.getElementById(id).dispatchEvent(new Event(event));
        };
        set('colour', 'ill', 'change');
        set('charted', '0 3', 'change');
        set('size', 4, 'input');
        const play = page.getElementById('play');
        if (play.textContent === 'Pause') play.click();
        set('slider', 20, 'input');
    })()""")
    time.sleep(1)
    with open(path, "wb") as file:
        file.write(small_png.smaller(page.browser.picture()))


def check_page(checks, program, chromium, picture):
    browser = browsers.Chromium(chromium, WIDTH, HEIGHT, dark=False)
    try:
        with tempfile.TemporaryDirectory() as top:
            folder = prepared(top)
            with Served(program, folder, "--no-browser") as served:
                served.program = program
                page = Page(browser, served)
                if picture:
                    take_picture(page, picture)
                    page.load()
                check_examples(checks, page, program)
                check_settings(checks, page, program)
                check_colours(checks, page)
                check_format(checks, page, program)
                check_faulty(checks, page)
                check_stop(checks, page)
                check_fault(checks, page)
                check_late(checks, page)
                check_sweep(checks, page)
                check_folder(checks, page, folder)
                check_many(checks, page)
                check_ends(checks, page)
    finally:
        browser.close()


def main():
    words = argparse.ArgumentParser(description=__doc__.split("\n", 1)[0], allow_abbrev=False)
    words.add_argument("--program", default=os.path.join(TOP, "brace"), help="./brace else")
    words.add_argument("--picture", metavar="FILE.png", help="where a picture is to be kept")
    words.add_argument("--no-browser", action="store_true", help="the server's tests alone")
    words.add_argument("--page", action="store_true", help="the page's tests alone")
    asked = words.parse_args()
    program, checks = os.path.realpath(asked.program), Checks()
    if not asked.page:
        refusals.check_server(checks, program)
        print(f"the server: {checks.count - checks.failed} passed, {checks.failed} failed",
              flush=True)
    chromium = next(filter(None, map(shutil.which, browsers.Chromium.names)), None)
    if chromium and not asked.no_browser:
        check_page(checks, program, chromium, asked.picture)
    elif not asked.no_browser:
        print("Chromium is not installed: the page's tests were left out")
    print(f"{checks.count - checks.failed} passed, {checks.failed} failed")
    return 1 if checks.failed else 0


if __name__ == "__main__":
    sys.exit(main())
