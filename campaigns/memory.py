#!/usr/bin/env python3
"""Refuses the built programs their allocations, one number at a time, in each run of runs.py: each run has to want memory, as its
program says that, and hold a front of the whole output, or give the full answer. `tool_uses` runs each of its functions once, so
its numbers go through all of them. A line for each run that did something else, a line for each program, and then a line of
counts; the status is 1 where there was one.
  campaigns/memory.py [WORD]    the runs whose names hold WORD, or of the program WORD, alone

It needs a C compiler, and the programs built.
"""
import collections
import os
import subprocess
import sys
import tempfile

import runs

# The allocator of the C library, which refuses the call whose number REFUSE gives, and tells so on descriptor 3.
SHIM = r"""
#define _GNU_SOURCE
#include <dlfcn.h>
#include <stdlib.h>
#include <unistd.h>

static long calls, number;

static int is_refused(void) {
  if (!number) {
    const char *text = getenv("REFUSE");
    number = text ? atol(text) : -1;
  }
  return ++calls == number && write(3, "x", 1) == 1;
}

void *malloc(size_t size) {
  static void *(*next)(size_t);
  if (!next) next = (void *(*)(size_t))dlsym(RTLD_NEXT, "malloc");
  return is_refused() ? NULL : next(size);
}

void *calloc(size_t count, size_t size) {
  static void *(*next)(size_t, size_t);
  if (!next) next = (void *(*)(size_t, size_t))dlsym(RTLD_NEXT, "calloc");
  return is_refused() ? NULL : next(count, size);
}

void *realloc(void *old, size_t size) {
  static void *(*next)(void *, size_t);
  if (!next) next = (void *(*)(void *, size_t))dlsym(RTLD_NEXT, "realloc");
  return is_refused() ? NULL : next(old, size);
}

int posix_memalign(void **place, size_t align, size_t size) {
  static int (*next)(void **, size_t, size_t);
  if (!next) next = (int (*)(void **, size_t, size_t))dlsym(RTLD_NEXT, "posix_memalign");
  return is_refused() ? 12 : next(place, align, size);
}

void *aligned_alloc(size_t align, size_t size) {
  static void *(*next)(size_t, size_t);
  if (!next) next = (void *(*)(size_t, size_t))dlsym(RTLD_NEXT, "aligned_alloc");
  return is_refused() ? NULL : next(align, size);
}
"""
# The most numbers that one run is tried with, so that the whole ends.
MOST_NUMBERS = 20_000
# How the errors that `tool_uses` prints say that they want memory.
WANTS = ("no memory", "memory allocation failed", "out of memory")
runner = runs.Runner()
counts = collections.Counter()


def is_front(found, whole):
    """Whether the output and the file hold fronts of the whole ones."""
    return whole.out.startswith(found.out) and whole.file.startswith(found.file)


def uses_want(found, whole):
    """Whether `tool_uses` ended with that, or went on and printed it in place of one outcome."""
    if found.status == 1:
        return not found.out and found.err.decode().rstrip("\n").endswith(WANTS)
    lines, others = found.out.decode().split("\n"), whole.out.decode().split("\n")
    differ = [line for line, other in zip(lines, others) if line != other]
    return found.status == 0 and len(lines) == len(others) and len(differ) == 1 and differ[0].endswith(WANTS)


def wants_memory(run, found, whole):
    """Whether the run says that it wants memory. Where that comes before a note, the note may be missing."""
    if run.program == "tool_uses":
        return uses_want(found, whole)
    wanted = run.said().no_memory
    return found.status == wanted.status and found.err.removeprefix(run.note.encode()) == wanted.err and is_front(found, whole)


def answers(run, found, whole):
    """Whether the run gave the full answer, though maybe not the note before it, or said that it wants memory in place of why it failed."""
    unsaid = whole.status != 0 and found == whole._replace(err=run.said().no_memory.err)
    return found == whole or unsaid or found._replace(err=run.note.encode() + found.err) == whole


def tries(run, path, told):
    """Each number until none is refused."""
    case, program = f"{run.name} of {os.path.basename(path)}", run.program
    data, env = runs.stored(run.input), {**run.env(), "LD_PRELOAD": os.path.abspath("refuse.so")}
    whole = runner.run(path, run.argv(), env, data, told)
    counts["runs", program] += 1
    failed = {}
    for number in range(1, MOST_NUMBERS):
        os.ftruncate(told, 0)
        found = runner.run(path, run.argv(), {**env, "REFUSE": str(number)}, data, told)
        if not runs.content_of(told):
            break
        counts["numbers", program] += 1
        if wants_memory(run, found, whole):
            counts["wanting", program] += 1
        elif not answers(run, found, whole):
            failed.setdefault(found, []).append(number)
    if number == 1:
        failed[whole] = [0]
    for found, numbers in failed.items():
        counts["failed"] += len(numbers)
        print(f"memory.py: {case}: with one of {len(numbers)} calls refused, as {numbers[0]} and {numbers[-1]}: {found}", flush=True)


def main():
    table = runs.named(sys.argv[1] if len(sys.argv) > 1 else "", [*runs.RUNS, runs.USES_RUN])
    makers = runs.makers("memory.py", {run.program for run in table})
    with tempfile.TemporaryDirectory() as folder:
        os.chdir(folder)
        runs.lay(folder)
        subprocess.run(["cc", "-shared", "-fPIC", "-O1", "-x", "c", "-", "-o", "refuse.so", "-ldl"], input=SHIM.encode(), check=True)
        told = os.memfd_create("told")
        for run in table:
            for path in runs.built(run.program).values():
                tries(run, path, told)
        os.chdir("/")
    for program in dict.fromkeys(run.program for run in table):
        if counts["runs", program]:
            print(f"memory.py: {program}: {counts['runs', program]} runs, {counts['numbers', program]} numbers, {counts['wanting', program]} wanted memory")
    total = {what: sum(count for key, count in counts.items() if key[0] == what) for what in ("runs", "numbers", "wanting")}
    print(
        f"memory.py: {total['runs']} runs of the programs by {makers}, {total['numbers']} numbers, of which {total['wanting']} wanted "
        f"memory and the others gave the full answer; {counts['failed']} failed"
    )
    return 1 if counts["failed"] else 0


sys.exit(main())
