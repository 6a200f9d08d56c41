"""Runs Cudrenal from Python, and reads and writes its files. docs/PYTHON.md is its page.

    import cudrenal
    made = cudrenal.run("fish.brasil", "agents.csv", 200, seed=7, workers=4)
    for row in made.rows():
        print(row.tick, row.kind, row.id, row.values)

It needs the standard library alone. Tables are pandas' data frames where pandas is installed.
"""
import collections
import csv
import decimal
import itertools
import math
import numbers
import os
import re
import shutil
import subprocess
import tempfile
import weakref

PROGRAM = os.path.join(os.path.dirname(os.path.dirname(os.path.realpath(__file__))), "brace")
MILLIONTH = decimal.Decimal("0.000001")
MOST_INT, MOST_FIXED = 2 ** 63 - 1, decimal.Decimal(2 ** 63 - 1) * MILLIONTH
LEAST_INT, LEAST_FIXED = -2 ** 63, decimal.Decimal(-2 ** 63) * MILLIONTH
PLACES = decimal.Context(prec=60, rounding=decimal.ROUND_HALF_EVEN)
PIECE = 1 << 18

Row = collections.namedtuple("Row", "tick kind id values")


class Failure(Exception):
    """A run that did not write all: `status` is the program's, `message` its line.

    `made` holds the rows that were written before (a `Made`), where there are any.
    """

    def __init__(self, status, message, parts=None, made=None):
        super().__init__(message or f"ended with status {status}")
        self.status, self.message, self.made = status, message, made
        self.__dict__.update(parts or {})


class Refusal(Failure):
    """Statuses 3 to 6 and 14, of a script, an agent file, a cut plan, a checkpoint or a watch file.

    `name` is the file, `kind` why; `line` and `column` where in a script, `record` in an agent
    file, `line` in a plan, checkpoint or watch file; what the file has not is None.
    """


class Fault(Failure):
    """Status 7: `kind` in the phase `phase` of `tick`, at `agent` and the site numbered `site`.

    `outer` and `inner` are the ids of the loops' agents, or None. The rows up to `tick` stand.
    """


class BadAgents(ValueError):
    """Agents that no agent file of the script can hold."""


REFUSED = re.compile(r"brace: (?P<name>.*?):(?:(?P<line>[0-9]+):(?P<column>[0-9]+):"
                     r"| record (?P<record>[0-9]+):| line (?P<row>[0-9]+):)? "
                     r"(?P<kind>[A-Z]\w*(?: [a-z0-9]+)?)", re.S)
FAULTED = re.compile(r"brace: tick (?P<tick>[0-9]+) (?P<phase>\w+) agent (?P<agent>[0-9]+)"
                     r"(?: with (?P<outer>[0-9]+)(?: and (?P<inner>[0-9]+))?)?"
                     r" site (?P<site>[0-9]+): (?P<kind>\w+)")
COUNTED = re.compile(r"stats((?: [a-z]+ [0-9]+)+)")


def whole(text):
    return None if text is None else int(text)


def failure(status, message, made):
    """The exception that a status and a line of the program stand for."""
    found = FAULTED.fullmatch(message) if status == 7 else None
    if found:
        parts = {name: text if name in ("phase", "kind") else whole(text)
                 for name, text in found.groupdict().items()}
        return Fault(status, message, parts, made)
    found = REFUSED.fullmatch(message) if 3 <= status <= 6 or status == 14 else None
    if not found:
        return Failure(status, message, None, made)
    parts = found.groupdict()
    row = parts.pop("row")
    parts.update({name: whole(parts[name]) for name in ("line", "column", "record")})
    if row is not None:
        parts["line"] = whole(row)
    told = re.fullmatch("(BadLine) ([0-9]+)", parts["kind"])
    if told:
        parts["kind"], parts["line"] = told.group(1), int(told.group(2))
    return Refusal(status, message, parts, made)


# ---- Scripts. ----

def is_text(script):
    """Whether this is the text of a script and not the name of its file: a text has a brace."""
    return isinstance(script, str) and "{" in script


def text_of(script):
    if is_text(script):
        return script
    with open(script, encoding="utf-8", errors="replace") as file:
        return file.read()


def states(script):
    """To each class of a script the names of its states with their types, in order."""
    bare = re.sub(r"//[^\n]*|/\*.*?\*/", " ", text_of(script), flags=re.S)
    found, last = {}, None
    for name, kind, state in re.findall(
            r"\bclass\s+(\w+)\s*\{|\bstate\s+(\w+)\s+(\w+)\s*[:;]", bare, re.A):
        if name:
            last = found.setdefault(name, {})
        elif last is not None:
            last[state] = kind
    if not found:
        raise ValueError("the script has no class")
    return found


# ---- Agents. ----

def spelled(kind, value):
    """The text of a value of type `int`, `fixed` or `bool`, as an agent file has it."""
    name = type(value).__name__
    if kind == "bool":
        if isinstance(value, bool) or name in ("bool_", "bool"):
            return "true" if value else "false"
        raise BadAgents(f"{value!r} is no bool")
    if isinstance(value, bool) or name == "bool_" or not isinstance(value, (numbers.Real,
                                                                            decimal.Decimal)):
        raise BadAgents(f"{value!r} is no number")
    if kind == "int":
        if not math.isfinite(value) or value != int(value):
            raise BadAgents(f"{value!r} is no whole number")
        if not LEAST_INT <= int(value) <= MOST_INT:
            raise BadAgents(f"{value!r} is past 64 bits")
        return str(int(value))
    return spelled_fixed(value)


def spelled_fixed(value):
    """Whole numbers and decimals exactly; a float, which is binary, by its nearest millionth."""
    if not math.isfinite(value):
        raise BadAgents(f"{value!r} is no number of six decimals")
    if isinstance(value, numbers.Integral):
        exact = decimal.Decimal(int(value))
    elif isinstance(value, (float, decimal.Decimal)):
        exact = decimal.Decimal(value)
    else:
        exact = decimal.Decimal(float(value))
    near = exact if exact == exact.to_integral_value() else exact.quantize(MILLIONTH,
                                                                          context=PLACES)
    if isinstance(value, decimal.Decimal) and near != exact:
        raise BadAgents(f"{value} has more than six decimals")
    if not LEAST_FIXED <= near <= MOST_FIXED:
        raise BadAgents(f"{value!r} is past 64 bits of millionths")
    return f"{near:.6f}" if near else "0.000000"


def records(agents):
    """Dicts of a data frame's rows, or those that are given."""
    if hasattr(agents, "to_dict") and hasattr(agents, "columns"):
        return agents.to_dict("records")
    return agents


def write_agents(path, agents, script):
    """Writes an agent file from dicts or a data frame; answers how many agents it has.

    An agent has a value for each state of its class, its class under `class` (which may be left
    out where the script has one class) and its id under `id` (else it is numbered from 0). What
    is missing, unknown or of another type is BadAgents; then no file is left.
    """
    classes, count, seen = states(script), 0, set()
    part = f"{os.fspath(path)}.{os.getpid()}.part"
    try:
        with open(part, "w", encoding="utf-8", newline="") as file:
            for count, agent in enumerate(records(agents), 1):
                kind, name, values = entry(classes, dict(agent), count - 1)
                if name in seen:
                    raise BadAgents(f"agent {count}: the id {name} stands twice")
                seen.add(name)
                file.write(f"{kind},{name},{','.join(values)}\n")
        os.replace(part, path)
    finally:
        if os.path.exists(part):
            os.remove(part)
    return count


def entry(classes, agent, number):
    """The class, the id and the texts of the values of an agent."""
    def refuse(what):
        raise BadAgents(f"agent {number + 1}: {what}")

    kind = agent.pop("class", next(iter(classes)) if len(classes) == 1 else None)
    if kind is None:
        refuse("has no class, and the script has several")
    if kind not in classes:
        refuse(f"the script has no class {kind}")
    name = agent.pop("id", number)
    if isinstance(name, bool) or not isinstance(name, numbers.Real) or name != int(name) or not (
            0 <= name <= MOST_INT):
        refuse(f"{name!r} is no id")
    values = []
    for state, type_ in classes[kind].items():
        if state not in agent:
            refuse(f"has no value for {state}")
        try:
            values.append(spelled(type_, agent.pop(state)))
        except BadAgents as error:
            refuse(f"{state}: {error}")
    # A data frame of several classes has empty cells where a class lacks a column.
    for other, value in agent.items():
        if not (value is None or (isinstance(value, float) and math.isnan(value))):
            refuse(f"{kind} has no state {other}")
    return kind, int(name), values


def write_cuts(path, agents, across, up, script=None):
    """Writes a cut plan of `across` times `up` parts with about as many agents in each strip.

    `agents` are dicts or a data frame with `x` and `y`, or the name of an agent file of `script`.
    Cuts that would be at one place are left out, so there may be fewer parts.
    """
    if isinstance(agents, (str, os.PathLike)):
        agents = read_agents(agents, script)
    points = [(decimal.Decimal(str(agent["x"])), decimal.Decimal(str(agent["y"])))
              for agent in records(agents)]
    if across < 1 or up < 1 or across * up > 64:
        raise ValueError("a plan has 1 to 64 parts")
    text = "at 0"
    for axis, count in (("x", across), ("y", up)):
        places = sorted(point[axis == "y"] for point in points)
        cuts = sorted({places[len(places) * k // count].quantize(MILLIONTH, context=PLACES)
                       for k in range(1, count)}) if places else []
        text += f" {axis}" + "".join(f" {cut:f}" for cut in cuts)
    with open(path, "w", encoding="utf-8") as file:
        file.write(text + "\n")
    return path


def read_agents(path, script):
    """The agents of an agent file, as dicts with `class`, `id` and the states of the script."""
    classes = states(script)
    with open(path, encoding="utf-8-sig", newline="") as file:
        for count, (kind, name, *texts) in enumerate(filter(None, csv.reader(file)), 1):
            if kind not in classes or len(texts) != len(classes[kind]):
                raise ValueError(f"{path}: record {count} does not fit the script")
            yield {"class": kind, "id": int(name),
                   **{state: value_of(text) for state, text in zip(classes[kind], texts)}}


# ---- Rows. ----

def value_of(text, exact=False):
    if text in ("true", "false"):
        return text == "true"
    if "." not in text:
        return int(text)
    return decimal.Decimal(text) if exact else float(text)


def rows(path, exact=False):
    """The rows of a file one by one, as `Row(tick, kind, id, values)`, by tick and by id.

    A fixed value is a float; with `exact` a Decimal, which keeps all of its digits.
    """
    with open(path, encoding="utf-8", newline="\n") as file:
        for count, line in enumerate(file, 1):
            tick, kind, name, *texts = line.rstrip("\n").split(",")
            if not line.endswith("\n") or not texts:
                raise ValueError(f"{path}: row {count} is cut off")
            yield Row(int(tick), kind, int(name), [value_of(text, exact) for text in texts])


def columns(path, script, ticks=None):
    """To each class of the rows its columns by name: lists under `tick`, `id` and each state.

    `ticks` takes the rows of these ticks alone.
    """
    classes, tables = states(script), {}
    for row in rows(path):
        if ticks is not None and row.tick not in ticks:
            continue
        if row.kind not in tables:
            if row.kind not in classes:
                raise ValueError(f"{path}: the script has no class {row.kind}")
            tables[row.kind] = [[], []] + [[] for _ in classes[row.kind]]
        lists = tables[row.kind]
        if len(row.values) != len(lists) - 2:
            raise ValueError(f"{path}: a row of {row.kind} has {len(row.values)} values, and the "
                             f"script {len(lists) - 2} states")
        for column, value in zip(lists, itertools.chain((row.tick, row.id), row.values)):
            column.append(value)
    return {kind: dict(zip(("tick", "id", *classes[kind]), lists))
            for kind, lists in tables.items()}


def tables(path, script, ticks=None):
    """One table a class, with named columns: data frames where pandas is there, else `columns`."""
    found = columns(path, script, ticks)
    try:
        import pandas
    except ImportError:
        return found
    return {kind: pandas.DataFrame(lists) for kind, lists in found.items()}


class Made:
    """What a run wrote: `path` is the file of its rows, `stats` its counts where asked for.

    Rows that were not given a name of their own go away with this object.
    """

    def __init__(self, path, script, folder):
        self.path, self.script, self.stats, self._folder = path, script, None, folder

    def rows(self, exact=False):
        # A generator of this object, so that the file stays as long as rows are asked for.
        yield from rows(self.path, exact)

    def tables(self, ticks=None):
        return tables(self.path, self.script, ticks)

    def columns(self, ticks=None):
        return columns(self.path, self.script, ticks)


# ---- Runs. ----

# What each option of the program is called here, and whether it is a flag.
OPTIONS = {"seed": False, "every": False, "cuts": False, "epoch": False, "save": False,
           "order": False, "invert": True, "stats": True, "workers": False}


def run(script, agents, ticks, *, out=None, progress=None, program=None, **options):
    """Runs a script over agents up to the tick `ticks`, and answers what it wrote (`Made`).

    `script` is a file's name or a text; `agents` a file's name, dicts or a data frame; options are
    those of the program: seed, every, cuts (a name, or a plan's text), epoch, save, order, invert,
    stats, workers. Rows go to the file `out`, or to one that goes away with the answer. As the rows
    of an epoch come, `progress(tick, ticks)` is called with the tick that they have come to; what
    it raises ends the run. A refusal is a Refusal, a fault a Fault, all else a Failure.
    """
    return begin("run", script, {"agents": agents}, ticks, out, progress, program, options)


def resume(script, checkpoint, ticks, *, out=None, progress=None, program=None, **options):
    """Goes on from a saved world up to the tick `ticks`: as `run`, with no `seed`."""
    return begin("resume", script, {"from": checkpoint}, ticks, out, progress, program, options)


def check(script, *, program=None):
    """Raises a Refusal where the script is not accepted."""
    with tempfile.TemporaryDirectory(prefix="cudrenal-") as folder:
        said([program or PROGRAM, "check", "--script", kept(folder, "script", script)])


def fmt(script, *, program=None):
    """The script in canonical text, without its comments."""
    with tempfile.TemporaryDirectory(prefix="cudrenal-") as folder:
        return said([program or PROGRAM, "fmt", "--script", kept(folder, "script", script)])


def said(words):
    made = subprocess.run(words, stdin=subprocess.DEVNULL, capture_output=True, check=False)
    if made.returncode != 0:
        raise failure(made.returncode, last_line(made.stderr), None)
    return made.stdout.decode("utf-8", "replace")


def last_line(stderr):
    lines = stderr.decode("utf-8", "replace").strip().split("\n")
    return lines[-1] if lines else ""


def kept(folder, name, script):
    """The name of the script's file; a text is written into the folder."""
    if not is_text(script):
        return os.fspath(script)
    path = os.path.join(folder, f"{name}.brasil")
    with open(path, "w", encoding="utf-8", newline="") as file:
        file.write(script)
    return path


class Folder:
    """A folder that goes away with the last object that holds it."""

    def __init__(self):
        self.name = tempfile.mkdtemp(prefix="cudrenal-")
        weakref.finalize(self, shutil.rmtree, self.name, ignore_errors=True)


def begin(mode, script, source, ticks, out, progress, program, options):
    folder = Folder()
    words = [program or PROGRAM, mode, "--script", kept(folder.name, "script", script),
             "--ticks", str(ticks)]
    for name, value in source.items():
        if not isinstance(value, (str, os.PathLike)):
            path = os.path.join(folder.name, "agents.csv")
            write_agents(path, value, script)
            value = path
        words += [f"--{name}", os.fspath(value)]
    for name, value in options.items():
        if name not in OPTIONS or (mode == "resume" and name == "seed"):
            raise TypeError(f"{mode} has no option {name!r}")
        if value is None or value is False:
            continue
        if name == "cuts" and isinstance(value, str) and value.startswith("at "):
            path = os.path.join(folder.name, "cuts.plan")
            with open(path, "w", encoding="utf-8") as file:
                file.write(value)
            value = path
        words += [f"--{name}"] if OPTIONS[name] else [f"--{name}", str(value)]
    path = os.fspath(out) if out is not None else os.path.join(folder.name, "rows.csv")
    made = Made(path, script, folder)
    status, message = follow(words, path, ticks, progress)
    if status != 0:
        raise failure(status, message, made if status in (7, 9, 10, 11) else None)
    counted = COUNTED.fullmatch(message)
    if counted:
        told = counted.group(1).split()
        made.stats = dict(zip(told[::2], map(int, told[1::2])))
    return made


def follow(words, path, ticks, progress):
    """Runs the program into a file, and tells how far it is; ends it where telling raises."""
    with open(path, "wb") as file, tempfile.TemporaryFile() as said_:
        with subprocess.Popen(words, stdin=subprocess.DEVNULL, stdout=subprocess.PIPE if progress
                              else file, stderr=said_) as job:
            try:
                if progress:
                    copy(job.stdout, file, lambda tick: progress(tick, ticks))
                status = job.wait()
            except BaseException:
                job.kill()
                raise
        said_.seek(0)
        return status, last_line(said_.read())


def copy(source, file, tell):
    """Copies rows as they come, and tells each tick that they have come to."""
    last, rest = -1, b""
    while piece := source.read1(PIECE):
        file.write(piece)
        lines, _, rest = (rest + piece).rpartition(b"\n")
        tick = int(lines[lines.rfind(b"\n") + 1:].split(b",", 1)[0]) if lines else last
        if tick > last:
            last = tick
            tell(tick)
