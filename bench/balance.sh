#!/usr/bin/env bash
# Balances 10,000, 100,000 and 1,000,000 agents into 64 strips, beside a run that reads the same files
# and publishes nothing but tick 0; writes seconds, peak memory and the ratios into
# docs/PERFORMANCE.md. A certificate is checked here by itself.
set -eu
top=$(cd "$(dirname "$0")/.." && pwd)
work=$(mktemp -d)
trap 'rm -rf "$work"' EXIT
echo 'class P { public state fixed x; public state fixed y; }' >"$work/s"
"$top/brace" check --script "$work/s"
# The program that ./brace runs.
program=$top/out/brace-$("$top/tools/sum.sh")
[ -x "$program" ] || program=$top/dist/brace
PYTHONPATH=$top/bench python3 - "$program" "$work" <<'P'
import bisect, random, subprocess, sys
from measure import measured, table
program, work = sys.argv[1:]
STRIPS = 64


def millionths(text):
    return int(text.replace(".", ""))


def check(words, xs):
    """The certificate is one of posts, and shows that no cuts have a lower load than the plan's."""
    made = subprocess.run(words, capture_output=True, text=True, check=True)
    cuts = [millionths(cut) for cut in made.stdout.split()[3:-1]]
    _, load, kind, *posts = made.stderr.split()
    posts = [millionths(post) for post in posts]
    places = [0, *(bisect.bisect_left(xs, cut) for cut in cuts), len(xs)]
    assert len(cuts) < STRIPS and max(b - a for a, b in zip(places, places[1:])) == int(load)
    assert kind == "posts" and len(posts) == STRIPS + 1
    for one, other in zip(posts, posts[1:]):
        assert one < other
        assert bisect.bisect_right(xs, other) - bisect.bisect_left(xs, one) >= int(load)


rows = []
for count in (10_000, 100_000, 1_000_000):
    r = random.Random(1)
    xs = [r.randrange(10**9) for _ in range(count)]
    with open(f"{work}/a", "w") as f:
        for i, x in enumerate(xs):
            f.write(f"P,{i},{x // 10**6}.{x % 10**6:06},{r.randrange(1000)}\n")
    words = [program, "balance", "--script", f"{work}/s", "--agents", f"{work}/a",
             "--strips", str(STRIPS)]
    check(words, sorted(xs))
    rows.append((count, *measured(words)))
table("Balanced strips, 64 of them", "agents", rows)
P
