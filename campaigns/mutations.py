#!/usr/bin/env python3
"""Mutates the stored inputs of runs.py and the words of its runs: each byte is replaced by two others, removed and doubled, and each
input is cut at each byte; where the input is empty, each file that the words name is mutated in its place. The programs of both
compilers run on each. They have to agree in exit number, output and error, no signal may end one, and the exit number is one that
the program may have. A line for each run that doesn't, and then a line of counts; the status is 1 where there was one.
  campaigns/mutations.py [--model FOLDER] [--seconds N] [WORD]    the runs whose names hold WORD, in N seconds (1800)

FOLDER is a reference model in Python, to be imported as `model`, which then has to agree too: `run` of its `program` takes words,
variables as pairs, the input, the files by their paths and the moments of the clock, and gives the exit number, the output and
the error. The models of further programs stand in MODELS.
"""
import argparse
import collections
import importlib
import os
import sys
import tempfile
import time

import runs
from runs import Ended

# The module and the function that stand for a program in the reference model.
MODELS = {"firuvaik": ("program", "run"), "presigned": ("presign", "run_presigned"), "operation": ("operation", "run_operation")}
# 12 is the fault of an operation's transport.
EXITS = {"firuvaik": {0, *range(2, 11)}, "presigned": {0, *range(2, 11)}, "operation": {0, *range(2, 8), 9, 10, 12}, "awsign": {0, 1, 2, 3}}
# The second byte in place of one, by its place.
SIGNS = b"\n \xff0:=\t[#A"
# The most lines that are printed.
MOST_LINES = 40


def changes(data, cut=True):
    """Each change of bytes, with its name."""
    for at, byte in enumerate(data):
        other = SIGNS[at % len(SIGNS)]
        for value in (byte ^ 1, other if other != byte else byte ^ 0x80):
            yield f"byte {at} as {value}", data[:at] + bytes([value]) + data[at + 1 :]
        yield f"byte {at} removed", data[:at] + data[at + 1 :]
        yield f"byte {at} doubled", data[: at + 1] + data[at:]
        if cut:
            yield f"cut at byte {at}", data[:at]


def word_changes(words):
    """Each change of the words: a word is removed or doubled, and bytes of it are changed, as far as they are text."""
    for at, word in enumerate(words):
        yield f"word {at + 1} removed", words[:at] + words[at + 1 :]
        yield f"word {at + 1} doubled", words[: at + 1] + words[at:]
        for name, data in changes(word.encode(), cut=False):
            if b"\0" not in data:
                yield f"word {at + 1}, {name}", [*words[:at], os.fsdecode(data), *words[at + 1 :]]


def is_text(words):
    """Whether all words are UTF-8."""
    return not any("\udc80" <= sign <= "\udcff" for word in words for sign in word)


def asks_the_clock(run, words):
    return "--at" not in words and (run.program != "firuvaik" or words[:1] == ["stream"])


class Campaign:
    """The counts, and how a case is run."""

    def __init__(self, model, end):
        self.model, self.end, self.files = model, end, {}
        self.runner = runs.Runner()
        self.counts, self.exits, self.left_out = collections.Counter(), collections.Counter(), 0

    def model_of(self, run):
        if self.model is None or run.program not in MODELS:
            return None
        module, function = MODELS[run.program]
        return getattr(importlib.import_module(f"{self.model}.{module}"), function)

    def case(self, run, name, words, data):
        """Runs both compilers' programs and the model."""
        if time.monotonic() > self.end:
            self.left_out += 1
            return
        found = {compiler: self.runner.run(path, words, run.env(), data) for compiler, path in runs.built(run.program).items()}
        first = next(iter(found.values()))
        self.counts["cases"] += 1
        self.exits[run.program, first.status] += 1
        if asks_the_clock(run, words):
            found = {compiler: it._replace(out=b"") for compiler, it in found.items()}
        elif is_text(words) and (model := self.model_of(run)):
            found["model"] = Ended(*model(words, list(run.env().items()), data, self.files, [(0, 0)]))
            self.counts["of the model"] += 1
        if len(set(found.values())) > 1 or first.status not in EXITS[run.program]:
            self.tell(run, name, words, data, found)

    def tell(self, run, name, words, data, found):
        self.counts["differ"] += 1
        if self.counts["differ"] <= MOST_LINES:
            print(f"mutations.py: {run.name}: {name}: {found}: words {words}, input {data.hex()}", flush=True)

    def mutate(self, run):
        data = runs.stored(run.input)
        self.case(run, "as it is", run.argv(), data)
        for name, other in word_changes(run.argv()):
            self.case(run, name, other, data)
        for name, other in changes(data):
            self.case(run, name, run.argv(), other)
        for path in [] if data else run.files() + run.named("--data"):
            self.mutate_file(run, path)

    def mutate_file(self, run, path):
        content = self.files[path]
        for name, other in changes(content):
            with open(path, "wb") as file:
                file.write(other)
            self.files[path] = other
            self.case(run, f"{path}: {name}: {other.hex()}", run.argv(), b"")
        self.files[path] = content
        with open(path, "wb") as file:
            file.write(content)


def laid_files():
    """The files of the present folder, by their paths."""
    paths = [os.path.relpath(os.path.join(place, name)) for place, _, names in os.walk(".") for name in names]
    return {path: open(path, "rb").read() for path in paths}


def main():
    parser = argparse.ArgumentParser()
    parser.add_argument("--model")
    parser.add_argument("--seconds", type=int, default=1800)
    parser.add_argument("only", nargs="?", default="")
    given = parser.parse_args()
    table = runs.named(given.only)
    makers = runs.makers("mutations.py", {run.program for run in table})
    model = None
    if given.model:
        folder = os.path.abspath(given.model)
        sys.path.insert(0, os.path.dirname(folder))
        model = os.path.basename(folder)
    campaign = Campaign(model, time.monotonic() + given.seconds)
    with tempfile.TemporaryDirectory() as folder:
        os.chdir(folder)
        runs.lay(folder)
        campaign.files = laid_files()
        for run in table:
            campaign.mutate(run)
        os.chdir("/")
    counts = campaign.counts
    for program in EXITS:
        ends = [f"{count} ended with {status}" for (name, status), count in sorted(campaign.exits.items()) if name == program]
        if ends:
            print(f"mutations.py: {program}:", ", ".join(ends))
    left = f", {campaign.left_out} left out for time" if campaign.left_out else ""
    by = f"{counts['cases']} cases of the programs by {makers}, {counts['of the model']} of them by the model too"
    print(f"mutations.py: {by}{left}; {counts['differ']} differ")
    return 1 if counts["differ"] else 0


sys.exit(main())
