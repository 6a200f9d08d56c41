"""The means of a run's columns, tick by tick, of rows that come piece by piece."""
import cudrenal


def converter(kind):
    return "true".__eq__ if kind == "bool" else float


class Means:
    """Takes rows as they come; `told` is how many agents each class has and its columns' means."""

    def __init__(self, script):
        self.states = cudrenal.states(script)
        self.converters = {name: [converter(kind) for kind in states.values()]
                           for name, states in self.states.items()}
        self.rest = b""
        # To each class and tick the number of its agents, and the sum of each column.
        self.sums = {name: {} for name in self.states}

    def push(self, piece):
        whole, _, self.rest = (self.rest + piece).rpartition(b"\n")
        for row in whole.decode("ascii").split("\n") if whole else ():
            tick, kind, _, *values = row.split(",")
            numbers = [convert(value) for convert, value in zip(self.converters[kind], values)]
            sums = self.sums[kind]
            tick = int(tick)
            if tick in sums:
                count, old = sums[tick]
                sums[tick] = count + 1, [a + b for a, b in zip(old, numbers)]
            else:
                sums[tick] = 1, numbers

    def told(self):
        return {kind: {"ticks": list(sums), "count": [count for count, _ in sums.values()],
                       "means": {name: [columns[i] / count for count, columns in sums.values()]
                                 for i, name in enumerate(self.states[kind])}}
                for kind, sums in self.sums.items()}
