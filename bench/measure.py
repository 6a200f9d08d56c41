"""Runs a program several times, and writes tables of what was measured into docs/PERFORMANCE.md."""
import os
import re
import subprocess
import time

RUNS = 7
PAGE = os.path.join(os.path.dirname(os.path.abspath(__file__)), "..", "docs", "PERFORMANCE.md")


def measured(words):
    """The median of the seconds and of the peak memory in MiB over several runs; each must end with status 0."""
    seconds, mib = [], []
    for _ in range(RUNS):
        start = time.monotonic()
        process = subprocess.Popen(words, stdout=subprocess.DEVNULL)
        _, status, usage = os.wait4(process.pid, 0)
        seconds.append(time.monotonic() - start)
        mib.append(usage.ru_maxrss / 1024)
        if status != 0:
            raise SystemExit(f"{words} ended with status {status}")
    return sorted(seconds)[RUNS // 2], sorted(mib)[RUNS // 2]


def machine(how):
    """The processor, the number of cores, the load of the last minute, and what is told of how it was measured."""
    with open("/proc/cpuinfo") as f:
        models = re.findall(r"model name\s*: (.*)", f.read())
    model = models[0] if models else "unknown processor"
    return f"{model}, {os.cpu_count()} cores, load {os.getloadavg()[0]:.1f}, {how}"


def written(title, lines, how=f"median of {RUNS} runs"):
    """Prints the lines of a table, and puts them under the title on the page."""
    text = f"## {title}\n\n{machine(how)}\n\n" + "\n".join(lines) + "\n"
    print(text)
    page = "# Performance\n"
    if os.path.exists(PAGE):
        with open(PAGE) as f:
            page = f.read()
    old = re.compile(rf"\n## {re.escape(title)}\n.*?(?=\n## |\Z)", re.S)
    page = old.sub("", page).rstrip("\n") + "\n\n" + text
    with open(PAGE, "w") as f:
        f.write(page)


def table(title, unit, rows):
    """Writes rows (a size, seconds, MiB) with the ratios between them under the title."""
    lines = [f"| {unit} | seconds | MiB | x seconds | x MiB |", "|---|---|---|---|---|"]
    before = None
    for size, seconds, mib in rows:
        ratios = f"{seconds / before[0]:.1f} | {mib / before[1]:.1f}" if before else " | "
        lines.append(f"| {size:,} | {seconds:.3f} | {mib:.0f} | {ratios} |")
        before = seconds, mib
    written(title, lines)
