#!/usr/bin/env python3
"""A workbench in the browser: a model is edited, run and watched. docs/WORKBENCH.md is its page.

    workbench.py [FOLDER] [--port N] [--seconds N] [--no-browser]

serves one page on 127.0.0.1, opens the browser, and ends when the page is closed. FOLDER has the
scripts of one's own; without it the page opens the examples, and files that are chosen there.
"""
import argparse
import os
import signal
import subprocess
import sys
import threading

import cudrenal
from workbench_parts.bench import Bench
from workbench_parts.server import Server


def can_show():
    """Whether a browser has a display to open on."""
    needs_display = sys.platform.startswith(("linux", "freebsd"))
    return not needs_display or bool(os.environ.get("DISPLAY")
                                     or os.environ.get("WAYLAND_DISPLAY"))


def open_browser(address):
    """Opens the page, where Python has its browser module and there is a display."""
    try:
        import webbrowser
    except ImportError:
        return False
    return can_show() and webbrowser.open(address)


def show(address):
    if not open_browser(address):
        print("Open that address in a browser on this machine.", flush=True)


def is_ready(program):
    """Whether the program is there; ./brace builds it first where its sources were changed."""
    try:
        made = subprocess.run([program], stdin=subprocess.DEVNULL, stderr=subprocess.DEVNULL,
                              check=False)
    except OSError:
        return False
    # With no words it says how it is used.
    return made.returncode == 2


def end(*_):
    raise KeyboardInterrupt


def main():
    words = argparse.ArgumentParser(
        prog="workbench.py", description=__doc__.split("\n", 1)[0], allow_abbrev=False)
    words.add_argument("folder", nargs="?", help="the folder of one's own scripts")
    words.add_argument("--port", type=int, default=0, help="the port, else any that is free")
    words.add_argument("--seconds", type=int, default=3600, help="the most that a run may take")
    words.add_argument("--no-browser", action="store_true", help="print the address alone")
    words.add_argument("--program", default=cudrenal.PROGRAM, help="what runs models, ./brace else")
    asked = words.parse_args()
    if asked.folder is not None and not os.path.isdir(asked.folder):
        sys.exit(f"workbench.py: {asked.folder}: no folder")
    if not is_ready(asked.program):
        sys.exit(f"workbench.py: {asked.program} does not run; README.md, 'Where it runs', says "
                 "why")
    for number in (signal.SIGTERM, signal.SIGHUP):
        signal.signal(number, end)
    bench = Bench(asked.folder, asked.program, asked.seconds)
    try:
        with Server(bench, asked.port) as server:
            print(f"The workbench is at {server.address}", flush=True)
            if not asked.no_browser:
                # Some browsers come back only when they are closed.
                threading.Thread(target=show, args=(server.opening,), daemon=True).start()
            server.serve_forever()
    except KeyboardInterrupt:
        pass
    except OSError as error:
        sys.exit(f"workbench.py: {error.strerror}")
    finally:
        bench.close()


if __name__ == "__main__":
    main()
