"""What the page may ask of its server: each act takes an answer, the bench and the request."""
import concurrent.futures
import json
import os
import queue
import select
import shutil
import threading

from workbench_parts import agents, means, models
from workbench_parts.bench import PATIENCE
from workbench_parts.jobs import PAUSE
from workbench_parts.refused import (Refused, decimal, fields, listed, maybe, named, one_of, text,
                                     whole)

# What a request may ask for at most.
MOST_TICKS, MOST_SEED, MOST_CROWD = 1_000_000, 2 ** 53, 1 << 20
MOST_VALUES, MOST_SEEDS, MOST_RUNS, MOST_AT_ONCE = 50, 20, 200, 8
MOST_ROWS = 1 << 29
# The seconds between two bytes to an open page, which tell whether it is there.
BEAT = 5

SCRIPT = {"name": named(".brasil"), "script": text(models.MOST_SCRIPT)}
STRIPS = listed(whole(1, 64), 2, 2)
WORLD = {"agents": text(models.MOST_AGENTS), "ticks": whole(0, MOST_TICKS),
         "every": whole(1, MOST_TICKS), "cuts": maybe(STRIPS)}


def here(handler, bench, body):
    """Is open as long as its page; the server ends after the last."""
    fields(body)
    bench.page_opened()
    try:
        handler.stream()
        handler.send(b".")
        waited = 0.0
        while handler.is_there() and not bench.is_over:
            select.select([handler.connection], [], [], PAUSE)
            waited += PAUSE
            if waited >= BEAT:
                handler.send(b".")
                waited = 0.0
    except OSError:
        pass
    finally:
        bench.page_closed()
        handler.close_connection = True


def list_models(handler, bench, body):
    fields(body)
    handler.tell({**bench.models.listed(), "processors": os.cpu_count() or 1})


def open_model(handler, bench, body):
    asked = fields(body, kind=one_of("example", "script", "table"), name=text(200))
    read = {"example": bench.models.example, "script": bench.models.own,
            "table": bench.models.table}[asked["kind"]]
    handler.tell(read(asked["name"]))


def save_script(handler, bench, body):
    asked = fields(body, **SCRIPT, was=maybe(text(64)))
    handler.tell(bench.models.save(asked["name"], asked["script"], asked["was"]))


def check(handler, bench, body):
    asked = fields(body, **SCRIPT)
    handler.tell(bench.answer("check", asked["name"], asked["script"]))


def fmt(handler, bench, body):
    asked = fields(body, **SCRIPT)
    handler.tell(bench.answer("fmt", asked["name"], asked["script"]))


def line_of_values(value):
    """The kind of a dict of lines of values, by the name of their state."""
    if not isinstance(value, dict) or len(value) > 64:
        raise ValueError("is no dict of at most 64 lines")
    return {text(64)(name): text(1 << 16)(line) for name, line in value.items()}


def crowd(value):
    """The kind of a crowd of generated agents."""
    if not isinstance(value, dict):
        raise ValueError("is no crowd")
    kinds = {"class": text(64), "count": whole(0, MOST_CROWD), "area": listed(decimal, 4, 4),
             "values": line_of_values}
    try:
        return fields(value, **kinds)
    except Refused as refused:
        raise ValueError(str(refused)) from None


def make_agents(handler, bench, body):
    asked = fields(body, script=text(models.MOST_SCRIPT), crowds=listed(crowd, 1, 16),
                   seed=whole(0, MOST_SEED))
    if sum(each["count"] for each in asked["crowds"]) > MOST_CROWD:
        raise Refused(400, f"there are more than {MOST_CROWD} agents")
    try:
        handler.tell({"agents": agents.made(asked["script"], asked["crowds"], asked["seed"])})
    except ValueError as error:
        raise Refused(400, str(error)) from None


def start_run(handler, bench, body):
    """Streams the rows as they come; the head `Run` is the name by which its end is asked for."""
    asked = fields(body, **SCRIPT, **WORLD, seed=whole(0, MOST_SEED), workers=whole(1, 16))
    if asked["cuts"] and asked["cuts"][0] * asked["cuts"][1] > 64:
        raise Refused(400, "cuts: make more than 64 parts")
    folder, words = bench.prepared(asked)
    name, run = bench.begin()

    def act(job):
        run.job = job
        handler.stream(Run=name)
        for piece in job.pieces(handler.is_there):
            handler.send(piece)
        run.ending = bench.ending(job, asked["script"], asked["name"])
        handler.send(b"")

    try:
        bench.work(words, folder, bench.seconds, MOST_ROWS, act)
    except OSError:
        handler.close_connection = True
    finally:
        run.ended.set()
        shutil.rmtree(folder, ignore_errors=True)


def stop_run(handler, bench, body):
    run = bench.run(fields(body, run=text(32))["run"])
    if run.job:
        run.job.stop("stopped")
    handler.tell({})


def end_of_run(handler, bench, body):
    run = bench.run(fields(body, run=text(32))["run"])
    if not run.ended.wait(PATIENCE):
        raise Refused(409, "the run has not ended")
    handler.tell(run.ending or {"status": None, "message": "no longer wanted"})


def sweep(handler, bench, body):
    """Runs each script under each seed, several at once; a line of JSON for each that has ended."""
    asked = fields(body, name=named(".brasil"), **WORLD,
                   scripts=listed(text(models.MOST_SCRIPT), 1, MOST_VALUES),
                   seeds=listed(whole(0, MOST_SEED), 1, MOST_SEEDS),
                   processes=whole(1, MOST_AT_ONCE))
    points = [(i, seed) for i in range(len(asked["scripts"])) for seed in asked["seeds"]]
    if len(points) > MOST_RUNS:
        raise Refused(400, f"there are more than {MOST_RUNS} runs")
    done, is_wanted = queue.Queue(), threading.Event()
    is_wanted.set()
    pool = concurrent.futures.ThreadPoolExecutor(asked["processes"])
    try:
        handler.stream()
        for point in points:
            pool.submit(swept, bench, asked, point, done, is_wanted.is_set)
        for _ in points:
            handler.send(json.dumps(next_of(done, handler)).encode() + b"\n")
        handler.send(b"")
    except OSError:
        handler.close_connection = True
    finally:
        is_wanted.clear()
        pool.shutdown()


def next_of(done, handler):
    """The next answer; raises where who asked is gone."""
    while True:
        try:
            return done.get(timeout=PAUSE)
        except queue.Empty:
            if not handler.is_there():
                raise BrokenPipeError from None


def swept(bench, asked, point, done, is_wanted):
    """One run of a sweep: its means, and how it ended."""
    number, seed = point
    script = asked["scripts"][number]
    told = {"script": number, "seed": seed, "status": None, "message": "no longer wanted"}

    def act(job):
        found = means.Means(script)
        for piece in job.pieces(is_wanted):
            found.push(piece)
        return {**bench.ending(job, script, asked["name"]), "classes": found.told()}

    folder = None
    try:
        if is_wanted():
            folder, words = bench.prepared({**asked, "script": script, "seed": seed, "workers": 1})
            told.update(bench.work(words, folder, bench.seconds, MOST_ROWS, act))
    except (Refused, OSError, ValueError, ArithmeticError) as error:
        told["message"] = str(error)
    finally:
        done.put(told)
        if folder:
            shutil.rmtree(folder, ignore_errors=True)


ACTS = {"here": here, "models": list_models, "open": open_model, "save": save_script,
        "check": check, "fmt": fmt, "agents": make_agents, "run": start_run, "stop": stop_run,
        "end": end_of_run, "sweep": sweep}
