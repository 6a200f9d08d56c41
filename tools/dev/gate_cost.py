#!/usr/bin/env python3
"""What a gate costs: runs a command (`rt ci` if none is given), and prints the processor seconds of
its crates when it has ended: of their proofs, their tests, their must-fail edits and all else.

    tools/dev/gate_cost.py [COMMAND ..] > gate.log        (the table stands on standard error)

The processes below the command are looked at five times a second, so a process that lives for less
is missed. Linux alone.
"""
import collections
import os
import subprocess
import sys
import time

TICKS = os.sysconf("SC_CLK_TCK")
KINDS = ("proof", "tests", "edits", "other")


def stat_of(pid):
    """The parent, the processor seconds and the start of a process, or None once it is gone."""
    try:
        with open(f"/proc/{pid}/stat") as file:
            fields = file.read().rpartition(")")[2].split()
    except OSError:
        return None
    return int(fields[1]), (int(fields[11]) + int(fields[12])) / TICKS, int(fields[19])


def work_of(pid):
    """The crate that a process works at, and the kind of the work, or None."""
    try:
        with open(f"/proc/{pid}/cmdline", "rb") as file:
            words = file.read().decode(errors="replace").split("\0")
        folder = os.readlink(f"/proc/{pid}/cwd")
    except OSError:
        return None
    if "--crate-name" not in words:
        return None
    crate = words[words.index("--crate-name") + 1]
    line = " ".join(words)
    if "rt-edit" in folder or "rt-edit" in line:
        return crate, "edits"
    return crate, "tests" if "--test" in words else "proof"


def below(root):
    """The processes below one, by their starts: their processor seconds, and the work of the nearest
    at or above each."""
    stats = {}
    for name in os.listdir("/proc"):
        if name.isdigit():
            found = stat_of(int(name))
            if found:
                stats[int(name)] = found
    children = collections.defaultdict(list)
    for pid, (parent, _, _) in stats.items():
        children[parent].append(pid)
    found, left = {}, [(root, ("", "other"))]
    while left:
        pid, work = left.pop()
        work = work_of(pid) or work
        if pid in stats:
            _, spent, start = stats[pid]
            found[pid, start] = (spent, work)
        left += [(child, work) for child in children[pid]]
    return found


def main(command):
    begun = time.time()
    process = subprocess.Popen(command)
    costs = {}
    while process.poll() is None:
        for one, (spent, work) in below(process.pid).items():
            # A process that has ended and is not yet waited for no longer tells its work.
            costs[one] = (spent, max(costs.get(one, (0, work))[1], work))
        time.sleep(0.2)
    table = collections.defaultdict(lambda: dict.fromkeys(KINDS, 0.0))
    for spent, (crate, kind) in costs.values():
        table[crate or "(all)"][kind] += spent
    rows = sorted(table.items(), key=lambda row: -sum(row[1].values()))
    rows.append(("sum", {kind: sum(row[kind] for row in table.values()) for kind in KINDS}))
    print(f"{'crate':24}" + "".join(f"{kind:>9}" for kind in KINDS) + f"{'minutes':>9}", file=sys.stderr)
    for crate, row in rows:
        cells = "".join(f"{row[kind]:9.0f}" for kind in KINDS)
        print(f"{crate:24}{cells}{sum(row.values()) / 60:9.1f}", file=sys.stderr)
    print(f"{time.time() - begun:.0f} s by the clock, {os.cpu_count()} processors", file=sys.stderr)
    return process.returncode


if __name__ == "__main__":
    sys.exit(main(sys.argv[1:] or ["rt", "ci"]))
