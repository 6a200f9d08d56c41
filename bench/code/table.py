"""Writes what the program said into docs/PERFORMANCE.md."""
import sys
from measure import written

NAMES = (
    "`x + vx + px`",
    "`max(-1.0, min(1.0, (n > 0 ? sx / fixed(n) : vx) + rand() - 0.5))`",
    "`abs(p.x - x) < 1.0 && abs(p.y - y) < 1.0`",
    "`(p.x - x) / 4.0`",
)

with open(sys.argv[1]) as f:
    rounds = [tuple(map(int, line.split())) for line in f if line[:1].isdigit()]
if any(off != 0 for r in rounds for off in r[5:]):
    raise SystemExit("lanes, code and tree differ")
rows = [
    "512 environments, of which a third takes the other branch of `?:`; draws are made before. The",
    "least of all rounds of 5,120 evaluations, since other work on the machine only adds.",
    "A draw is a new one only where the one before was of another agent, tick or site.",
    "",
    "| expression | nodes | ns in lanes | a node | ns by code | ns by the tree | code / tree |",
    "|---|---|---|---|---|---|---|",
]
sums = [0, 0, 0, 0]
for number, name in enumerate(NAMES):
    mine = [r for r in rounds if r[0] == number]
    nodes = mine[0][1]
    lanes, code, tree = (min(r[k] for r in mine) / 1000 for k in (2, 3, 4))
    sums = [a + b for a, b in zip(sums, (nodes, lanes, code, tree))]
    figures = f"{lanes:.1f} | {lanes / nodes:.2f} | {code:.1f} | {tree:.1f} | {code / tree:.2f}"
    rows.append(f"| {name} | {nodes} | {figures} |")
nodes, lanes, code, tree = sums
figures = f"{lanes:.1f} | {lanes / nodes:.2f} | {code:.1f} | {tree:.1f} | {code / tree:.2f}"
rows.append(f"| all four | {nodes} | {figures} |")
written("Expressions in lanes, by code and by the tree", rows, f"least of {len(rounds) // 4} rounds")
