#!/usr/bin/env python3
"""Runs the program with --save in small folders: what is saved, what stays, and what is left.

    tools/tests/test_saves.py [--program PROGRAM]

Where it runs as root, what the host refuses is tried as nobody. Run by hand.
"""
import argparse
import os
import resource
import shutil
import signal
import stat
import subprocess
import sys
import tempfile

TOP = os.path.realpath(os.path.join(os.path.dirname(__file__), "..", ".."))
SCRIPT = "class P { #reach[1.0]; public state fixed x : x + 1.0; public state fixed y; }\n"
AGENTS = "P,7,1.000000,0.000000\n"
FAULT = (10, "brace: {}: save fault\n")
NOBODY = 65534

tally = {"passed": 0, "failed": 0}


def same(what, found, wanted):
    tally["passed" if found == wanted else "failed"] += 1
    if found != wanted:
        print(f"FAILED {what}: {found!r}, wanted {wanted!r}"[:300])


def saved(tick=2):
    """The checkpoint of a tick."""
    return (f"brace checkpoint 1\ntick {tick}\nseed 0\nclass P x:fixed y:fixed\n"
            f"P,7,{1 + tick}.000000,0.000000\nend 1\n")


def write(folder, name, text):
    with open(os.path.join(folder, name), "w", encoding="utf-8") as file:
        file.write(text)


def held(folder):
    """Each name in a folder, with the text of a file."""
    texts = {}
    for name in os.listdir(folder):
        path = os.path.join(folder, name)
        if os.path.isfile(path):
            with open(path, encoding="utf-8") as file:
                texts[name] = file.read()
        else:
            texts[name] = None
    return texts


def mode(folder, name):
    return oct(stat.S_IMODE(os.lstat(os.path.join(folder, name)).st_mode))


class Folder:
    """A folder with a script s and agents a, in which the program runs."""

    def __init__(self, program):
        self.program = program

    def __enter__(self):
        self.held = tempfile.TemporaryDirectory()
        self.path = self.held.name
        write(self.path, "s", SCRIPT)
        write(self.path, "a", AGENTS)
        return self

    def __exit__(self, *_):
        self.held.cleanup()

    def words(self, save="c", script="s", begin=("--agents", "a"), ticks="2"):
        mode_word = "resume" if begin[0] == "--from" else "run"
        return [self.program, mode_word, "--script", script, *begin, "--ticks", ticks, "--save", save]

    def run(self, *more, **options):
        made = subprocess.run(self.words(*more), cwd=self.path, capture_output=True, text=True,
                              check=False, **options)
        return made.returncode, made.stderr

    def put(self, name, text):
        write(self.path, name, text)

    def rest(self):
        """What the folder holds beside the script and the agents."""
        return {name: text for name, text in held(self.path).items() if name not in ("s", "a")}


def others_stay(program):
    drafts = {f".brace-part-{number}": "other" for number in range(5)}
    with Folder(program) as folder:
        same("saves", folder.run(), (0, ""))
        same("what is saved", folder.rest(), {"c.2": saved()})
        for name, text in {"c.2": "old", "c.2.part": "other", **drafts}.items():
            folder.put(name, text)
        same("saves over", folder.run(), (0, ""))
        same("what stays", folder.rest(), {"c.2": saved(), "c.2.part": "other", **drafts})
    with Folder(program) as folder:
        folder.put("c.2.part", SCRIPT)
        folder.put(".brace-part-0", AGENTS)
        words = ("c", "c.2.part", ("--agents", ".brace-part-0"))
        same("saves beside its own script", folder.run(*words), (0, ""))
        wanted = {"c.2": saved(), "c.2.part": SCRIPT, ".brace-part-0": AGENTS}
        same("its script stays", folder.rest(), wanted)
    with Folder(program) as folder:
        folder.put("c.2.part", saved(1))
        same("resumes beside its own file", folder.run("c", "s", ("--from", "c.2.part")), (0, ""))
        same("its file stays", folder.rest(), {"c.2": saved(), "c.2.part": saved(1)})
    with Folder(program) as folder:
        os.mkdir(os.path.join(folder.path, "d"))
        same("saves in a folder", folder.run("d/c"), (0, ""))
        same("what the folder has", held(os.path.join(folder.path, "d")), {"c.2": saved()})
        same("what is beside it", folder.rest(), {"d": None})


def permissions_stay(program):
    with Folder(program) as folder:
        same("saves anew", folder.run(umask=0o027), (0, ""))
        same("what is new", mode(folder.path, "c.2"), "0o640")
        for kept in (0o600, 0o640, 0o664, 0o755):
            folder.put("c.2", "old")
            os.chmod(os.path.join(folder.path, "c.2"), kept)
            same("saves over", folder.run(umask=0o027), (0, ""))
            same("permissions", (mode(folder.path, "c.2"), folder.rest()), (oct(kept), {"c.2": saved()}))


def names(program):
    with Folder(program) as folder:
        folder.put("behind", "old")
        os.symlink("behind", os.path.join(folder.path, "c.2"))
        same("saves over a link", folder.run(), (0, ""))
        same("a link's file stays", folder.rest(), {"behind": "old", "c.2": saved()})
        same("a link is replaced", os.path.islink(os.path.join(folder.path, "c.2")), False)
        os.remove(os.path.join(folder.path, "c.2"))
        os.symlink("nowhere", os.path.join(folder.path, "c.2"))
        same("saves over a link to nothing", folder.run(), (0, ""))
        same("a link to nothing", folder.rest(), {"behind": "old", "c.2": saved()})
    for make in (os.mkdir, os.mkfifo):
        with Folder(program) as folder:
            make(os.path.join(folder.path, "c.2"))
            same(make.__name__, folder.run(timeout=60), (FAULT[0], FAULT[1].format("c.2")))
            same(f"what {make.__name__} made stays", folder.rest(), {"c.2": None})
    for length in (250, 251, 254, 255, 256):
        with Folder(program) as folder:
            name = "n" * (length - 2)
            if length <= 255:
                same(f"{length} bytes", folder.run(name), (0, ""))
                same(f"{length} bytes again", folder.run(name), (0, ""))
                same(f"what {length} bytes hold", folder.rest(), {f"{name}.2": saved()})
            else:
                same(f"{length} bytes", folder.run(name), (FAULT[0], FAULT[1].format(f"{name}.2")))
                same(f"what {length} bytes leave", folder.rest(), {})


def failures(program):
    fault = FAULT[0], FAULT[1].format("c.2")
    with Folder(program) as folder:
        same("no folder", folder.run("none/c"), (FAULT[0], FAULT[1].format("none/c.2")))
        same("no folder is made", folder.rest(), {})
    drafts = {f".brace-part-{number}": "other" for number in range(100)}
    with Folder(program) as folder:
        before = {"c.2": "old", **drafts}
        for name, text in before.items():
            folder.put(name, text)
        same("each draft is taken", folder.run(), fault)
        same("all of them stay", folder.rest(), before)
        os.remove(os.path.join(folder.path, ".brace-part-99"))
        del before[".brace-part-99"]
        same("the last draft is free", folder.run(), (0, ""))
        same("the others stay", folder.rest(), {**before, "c.2": saved()})

    def short():
        signal.signal(signal.SIGXFSZ, signal.SIG_IGN)
        resource.setrlimit(resource.RLIMIT_FSIZE, (10, 10))

    with Folder(program) as folder:
        same("no room", folder.run(preexec_fn=short), fault)
        same("no room leaves nothing", folder.rest(), {})
        folder.put("c.2", "old")
        same("no room again", folder.run(preexec_fn=short), fault)
        same("no room leaves the old file", folder.rest(), {"c.2": "old"})


def refusals(program):
    """What the host refuses to one who is not root."""
    fault = FAULT[0], FAULT[1].format("c.2")
    who = {"user": NOBODY, "group": NOBODY} if os.geteuid() == 0 else {}
    with tempfile.TemporaryDirectory() as shelf, Folder(program) as folder:
        os.chmod(shelf, 0o755)
        folder.program = shutil.copy(program, shelf)
        os.chmod(folder.program, 0o755)
        folder.put("c.2", "old")
        os.chmod(folder.path, 0o555)
        same("no writing in the folder", folder.run(**who), fault)
        same("a folder stays", folder.rest(), {"c.2": "old"})
        os.chmod(folder.path, 0o777)
        os.chmod(os.path.join(folder.path, "c.2"), 0o444)
        same("no writing of the file", folder.run(**who), fault)
        same("a file that is not to be written stays", folder.rest(), {"c.2": "old"})


def together(program):
    with Folder(program) as folder:
        words = [folder.words(f"c{number % 8}", ticks="200") + ["--epoch", "1"] for number in range(16)]
        made = [subprocess.Popen(each, cwd=folder.path, stdout=subprocess.DEVNULL,
                                 stderr=subprocess.PIPE, text=True) for each in words]
        same("sixteen at once", [(each.communicate()[1], each.returncode) for each in made],
             [("", 0)] * 16)
        wanted = {f"c{number}.{tick}": saved(tick) for number in range(8) for tick in range(1, 201)}
        same("what sixteen save", {name: text for name, text in folder.rest().items()
                                   if not name.endswith(".0")}, wanted)


def main():
    words = argparse.ArgumentParser(description=__doc__.split("\n", 1)[0], allow_abbrev=False)
    words.add_argument("--program", default=os.path.join(TOP, "dist", "brace"), help="dist/brace else")
    program = os.path.realpath(words.parse_args().program)
    for each in (others_stay, permissions_stay, names, failures, refusals, together):
        each(program)
    print(f"{tally['passed']} passed, {tally['failed']} failed")
    return 1 if tally["failed"] else 0


if __name__ == "__main__":
    sys.exit(main())
