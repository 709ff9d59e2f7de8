#!/usr/bin/env python3
"""Runs the built programs on cases that a reference model makes up, with its answers, in batches with seeds of their own; each case
runs on each compiler's program. A file has a line for each batch that is done, so that a later call goes on with the first seed that
the same programs haven't had. A line for each case that differs; then how often the cases of all batches met each exit, each refusal
and each failed test; and then a line of counts. The status is 1 where a case differs.
  campaigns/model.py MODEL [--cases N] [--seconds N] [--done FILE] [--first SEED] [--jobs N]
                                        until N cases (1000000) or N seconds (600) are over, from a seed on (1), N batches at a time (1)
  campaigns/model.py MODEL --lines N    the lines of the model that no one of N cases ran, and so no case can have compared

MODEL is the folder of a package of Python with that model, which this repository doesn't hold. `cases(SEED, COUNT)` of its module
`gen_cases` gives the cases of the program firuvaik, and `cases(SEED, COUNT, KINDS)` of `gen_cases_b` those of the kinds below. A case
has `words`, `env` (pairs), `stdin_hex`, `files` (path to hexadecimal), and what is expected: `status`, `stdout_hex`, `stderr_hex`.
One with `needs` or a fault of its own is left out, since no real program can be run on it.
"""
import argparse
import collections
import concurrent.futures
import hashlib
import itertools
import importlib
import json
import os
import shutil
import sys
import tempfile
import time
import trace
from concurrent.futures import FIRST_COMPLETED

import runs
from runs import Ended

# How many cases of which kinds a batch has, by the program; without kinds they are those of `gen_cases`.
BATCH = (("firuvaik", None, 2000), ("firuvaik", ["settings", "chunk"], 150), ("presigned", ["presign"], 200), ("operation", ["operation"], 150))
SIZE = sum(count for _, _, count in BATCH)
# The refusals of a request and the failed tests of a chain, by the names of docs/FORMATS.md.
REFUSALS = (
    "ParseError MissingCredentials MissingSigningRegion MomentOutOfRange InvalidUri InvalidHeaderName InvalidHeaderValue MissingHost "
    "InvalidTokenName MissingExpires InvalidHeaderNameLength HeaderValueTooLong TimestampValueTooLarge HeadersTooLong PayloadTooLong "
    "MessageTooLong"
).split()
TESTS = "NoSignature NotFrame Headers Date Inner Mismatch AfterClosing NoClosing".split()
# What cases can meet: exits, and the names behind them.
EXITS = {
    "firuvaik": {0: [], 2: [], 4: [], 6: [], 7: REFUSALS, 8: TESTS},
    "presigned": {0: [], 2: [], 4: [], 6: [], 7: [], 8: []},
    "operation": {0: [], 2: [], 4: [], 6: [], 7: [], 12: []},
}
# How lines begin that are no step of a definition.
BEGINNINGS = ("def ", "class ", '"', "import ", "from ", "@")
# The most lines that are printed for cases that differ.
MOST_LINES = 20


class Makers:
    """The modules of the model that make up cases."""

    def __init__(self, folder):
        folder = os.path.abspath(folder)
        if os.path.dirname(folder) not in sys.path:
            sys.path.insert(0, os.path.dirname(folder))
        self.folder = folder
        self.first, self.second = (importlib.import_module(f"{os.path.basename(folder)}.{name}") for name in ("gen_cases", "gen_cases_b"))

    def cases(self, kinds, seed, count):
        return self.second.cases(seed, count, kinds) if kinds else self.first.cases(seed, count)


def can_run(case):
    """Whether what is outside of a real program can give what the case asks for."""
    keys = [key for key, _ in case.get("env", [])]
    faults = any(key in case for key in ("fail_write", "fail_read", "fail_disk"))
    return not case.get("needs") and not faults and len(set(keys)) == len(keys)


def lay(files):
    for path, content in files.items():
        if os.path.dirname(path):
            os.makedirs(os.path.dirname(path), exist_ok=True)
        with open(path, "wb") as file:
            file.write(bytes.fromhex(content))


def clear():
    for name in os.listdir("."):
        if os.path.isdir(name):
            shutil.rmtree(name)
        else:
            os.unlink(name)


def compared(runner, program, case, done):
    """Runs each compiler's program on a case."""
    expect = case["expect"]
    wanted = Ended(expect["status"], bytes.fromhex(expect["stdout_hex"]), bytes.fromhex(expect["stderr_hex"]))
    lay(case.get("files", {}))
    for path in runs.built(program).values():
        found = runner.run(path, case["words"], dict(case.get("env", [])), bytes.fromhex(case.get("stdin_hex", "")))
        done["runs"] += 1
        if found != wanted:
            done["differ"] += 1
            if done["differ"] <= MOST_LINES:
                print(f"model.py: {os.path.basename(path)}: {found} and not {wanted}: {json.dumps(case)}", flush=True)
    if case.get("files"):
        clear()
    done["met"][met_by(program, wanted)] += 1


def met_by(program, wanted):
    """The exit that a case meets, and the name behind it."""
    name = wanted.err.decode("utf-8", "replace").split()[-1] if wanted.status in (7, 8) else ""
    return f"{program} {wanted.status} {name}".strip()


def batch(model, seed, end):
    """A batch, run in a folder of its own, or nothing where the time is over before its end."""
    done = {"seed": seed, "cases": 0, "left out": 0, "runs": 0, "differ": 0, "met": collections.Counter()}
    makers, runner = Makers(model), runs.Runner()
    with tempfile.TemporaryDirectory() as folder:
        os.chdir(folder)
        try:
            for program, kinds, count in BATCH:
                for case in makers.cases(kinds, seed, count):
                    if time.monotonic() > end:
                        return None
                    if can_run(case):
                        done["cases"] += 1
                        compared(runner, program, case, done)
                    else:
                        done["left out"] += 1
        finally:
            os.chdir("/")
            runner.close()
    return done


def batches(model, seeds, given, end, done):
    """Runs batches, as many at a time as are asked for, and yields each, until there are enough cases or the time is over. The caller
    puts each to those that are done."""
    running = set()
    with concurrent.futures.ProcessPoolExecutor(given.jobs) as pool:
        while True:
            is_enough = sum(it["cases"] for it in done) >= given.cases or time.monotonic() > end
            while not is_enough and len(running) < given.jobs:
                running.add(pool.submit(batch, model, next(seeds), end))
            if not running:
                return
            ended, running = concurrent.futures.wait(running, return_when=FIRST_COMPLETED)
            yield from (it.result() for it in ended if it.result())


def programs():
    """The checksum of each program."""
    paths = [path for name in EXITS for path in runs.built(name).values()]
    return {os.path.basename(path): hashlib.sha256(open(path, "rb").read()).hexdigest() for path in paths}


def kept(path, sums):
    """The batches of these programs that are done, by the file's lines."""
    if not os.path.exists(path):
        return []
    with open(path, encoding="utf-8") as file:
        return [done for done in map(json.loads, file) if done["programs"] == sums]


def tell(done, makers):
    """The counts of all batches."""
    met = collections.Counter()
    for it in done:
        met.update(it["met"])
    never = []
    for program, exits in EXITS.items():
        ends = [f"{count} of {key.split(' ', 1)[1]}" for key, count in sorted(met.items()) if key.startswith(f"{program} ")]
        print(f"model.py: {program}:", ", ".join(ends))
        wanted = [f"{program} {status} {name}".strip() for status, names in exits.items() for name in names or [""]]
        never += [key for key in wanted if not any(it.startswith(key) for it in met)]
    if never:
        print("model.py: not met:", ", ".join(never))
    total = {key: sum(it[key] for it in done) for key in ("cases", "runs", "left out", "differ")}
    print(
        f"model.py: {total['cases']} cases in {len(done)} batches, {total['runs']} runs of the programs by {makers}; {total['differ']} differ "
        f"({total['left out']} more need a clock or a fault of their own)"
    )
    return 1 if total["differ"] else 0


def run_lines(makers, count):
    """Names the lines of the model that no case ran, of those that are no definition of a case or a command line of its own."""
    tracer = trace.Trace(count=1, trace=0)
    for program, kinds, share in BATCH:
        tracer.runfunc(collections.deque, makers.cases(kinds, 1, count * share // SIZE), 0)
    ran = collections.defaultdict(dict)
    for (path, line), times in tracer.counts.items():
        ran[path][line] = times
    for path in sorted(ran):
        name = os.path.relpath(path, makers.folder)
        if name.startswith((".", "gen_", "cli")):
            continue
        with open(path, encoding="utf-8") as file:
            text = [""] + file.read().split("\n")
        lines = set(trace._find_executable_linenos(path))
        # Lines that run as the module is read, and no case's, aren't counted.
        never = [line for line in sorted(lines - set(ran[path])) if text[line].startswith(" ") and not text[line].lstrip().startswith(BEGINNINGS)]
        print(f"model.py: {name}: {len(set(ran[path]) & lines)} lines ran, {len(never)} not")
        for line in never:
            print(f"  {name}:{line}: {text[line].strip()}")
    return 0


def main():
    parser = argparse.ArgumentParser()
    parser.add_argument("model")
    parser.add_argument("--cases", type=int, default=1_000_000)
    parser.add_argument("--seconds", type=float, default=600)
    parser.add_argument("--done", default=os.path.join(runs.HERE, "out", "model.jsonl"))
    parser.add_argument("--first", type=int, default=1)
    parser.add_argument("--jobs", type=int, default=1)
    parser.add_argument("--lines", type=int)
    given = parser.parse_args()
    if given.lines:
        return run_lines(Makers(given.model), given.lines)
    by, sums, end = runs.makers("model.py", EXITS), programs(), time.monotonic() + given.seconds
    path = os.path.abspath(given.done)
    os.makedirs(os.path.dirname(path), exist_ok=True)
    done = kept(path, sums)
    had = {it["seed"] for it in done}
    seeds = (seed for seed in itertools.count(given.first) if seed not in had)
    for it in batches(os.path.abspath(given.model), seeds, given, end, done):
        it["programs"] = sums
        done.append(it)
        with open(path, "a", encoding="utf-8") as file:
            file.write(json.dumps(it) + "\n")
    return tell(done, by)


sys.exit(main())
