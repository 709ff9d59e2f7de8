#!/usr/bin/env python3
"""Fails what lies outside the built programs: each read, write, open, close and look at the clock in turn fails, comes short or
is interrupted, by a library that is loaded before the C library; and then real outputs, files, pipes, terminals and limits of the
operating system. Each run has to end with the exit number and the line that docs/FORMATS.md states, and to hold a front of the
whole output. A line for each run that did something else, and then a line of counts; the status is 1 where there was one.
  campaigns/outside.py [WORD]    the runs whose names hold WORD, or of the program WORD, alone

It needs a C compiler, and the programs built. What no permission does is tried as the user nobody where it runs as root.
"""
import contextlib
import errno
import os
import pty
import resource
import select
import shutil
import signal
import subprocess
import sys
import tempfile
import termios
import threading
import time

import runs
from runs import BODY, Ended, built, lay, stored, taken

# The calls of the C library. FAULT is `CALL NUMBER HOW`: the call with this number, counted from 1, `N+` for it and each one after
# it, `odd` for each call with an odd number. HOW is an error's number or `short` (one byte). `read NUMBER HOW PATH NAME` does
# something else to the file at the path before a read of NAME: it does `grow`, `shrink` or `vanish`, or fails where the path is `-`.
# NAME is `input` or the path of a file. What was done is told on descriptor 3.
SHIM = r"""
#define _GNU_SOURCE
#include <dlfcn.h>
#include <errno.h>
#include <fcntl.h>
#include <stdarg.h>
#include <stdio.h>
#include <stdlib.h>
#include <string.h>
#include <sys/syscall.h>
#include <time.h>
#include <unistd.h>

static char call[16], how[16], file[512] = "-", on[512], which[16], opened[64][512];
static long calls, number;

static void ask(void) {
  static int asked;
  const char *text = getenv("FAULT");
  if (asked) return;
  asked = 1;
  if (text) sscanf(text, "%15s %15s %15s %511s %511s", call, which, how, file, on);
  number = atol(which);
}

static const char *name_of(int fd) {
  if (fd == 0) return "input";
  if (fd == 1) return "output";
  if (fd == 2) return "error";
  return fd < 64 ? opened[fd] : "?";
}

static int is_met(const char *this_call, const char *name) {
  char told[700];
  int length;
  ask();
  if (strcmp(call, this_call)) return 0;
  if (*on && strcmp(on, name)) return 0;
  calls++;
  if (!strcmp(which, "odd") ? calls % 2 == 0 : strchr(which, '+') ? calls < number : calls != number) return 0;
  length = snprintf(told, sizeof told, "%s %s\n", this_call, name);
  syscall(SYS_write, 3, told, length);
  return 1;
}

static void change(void) {
  int fd;
  if (!strcmp(how, "vanish")) unlink(file);
  if (!strcmp(how, "shrink") && truncate(file, 0)) abort();
  if (strcmp(how, "grow")) return;
  fd = syscall(SYS_openat, AT_FDCWD, file, O_WRONLY | O_APPEND);
  syscall(SYS_write, fd, "region = grown\n", 15);
  syscall(SYS_close, fd);
}

ssize_t read(int fd, void *into, size_t size) {
  static ssize_t (*next)(int, void *, size_t);
  if (!next) next = (ssize_t (*)(int, void *, size_t))dlsym(RTLD_NEXT, "read");
  if (!is_met("read", name_of(fd))) return next(fd, into, size);
  if (strcmp(file, "-")) change();
  else if (strcmp(how, "short")) return errno = atoi(how), -1;
  return next(fd, into, strcmp(file, "-") ? size : size > 0);
}

ssize_t write(int fd, const void *from, size_t size) {
  static ssize_t (*next)(int, const void *, size_t);
  if (!next) next = (ssize_t (*)(int, const void *, size_t))dlsym(RTLD_NEXT, "write");
  if (!is_met("write", name_of(fd))) return next(fd, from, size);
  if (strcmp(how, "short")) return errno = atoi(how), -1;
  return next(fd, from, size > 0);
}

int open(const char *path, int flags, ...) {
  static int (*next)(const char *, int, ...);
  va_list rest;
  int mode, fd;
  va_start(rest, flags);
  mode = flags & O_CREAT ? va_arg(rest, int) : 0;
  va_end(rest);
  if (!next) next = (int (*)(const char *, int, ...))dlsym(RTLD_NEXT, "open");
  if (is_met("open", path)) return errno = atoi(how), -1;
  fd = next(path, flags, mode);
  if (fd >= 0 && fd < 64) snprintf(opened[fd], sizeof opened[fd], "%s", path);
  return fd;
}

int close(int fd) {
  static int (*next)(int);
  if (!next) next = (int (*)(int))dlsym(RTLD_NEXT, "close");
  if (!is_met("close", name_of(fd))) return next(fd);
  next(fd);
  return errno = atoi(how), -1;
}

int clock_gettime(clockid_t clock, struct timespec *time) {
  static int (*next)(clockid_t, struct timespec *);
  if (!next) next = (int (*)(clockid_t, struct timespec *))dlsym(RTLD_NEXT, "clock_gettime");
  return is_met("clock", "clock") ? errno = atoi(how), -1 : next(clock, time);
}
"""
# The errors that a call fails with.
ERRORS = {
    "read": (errno.EIO, errno.EAGAIN),
    "write": (errno.EIO, errno.ENOSPC, errno.EPIPE),
    "open": (errno.EACCES, errno.EMFILE, errno.EIO),
    "close": (errno.EIO, errno.EINTR),
}
# What stands in place of a file, and how it is made.
ODD_FILES = {
    "absent": lambda path: None,
    "a folder": os.mkdir,
    "a link to nothing": lambda path: os.symlink("/no/such", path),
    "a link to itself": lambda path: os.symlink(os.path.basename(path), path),
    "endless": lambda path: os.symlink("/dev/zero", path),
    "one that can't be read": lambda path: os.symlink("/proc/self/mem", path),
}
# Paths that no file can have, and some that no file has.
BAD_PATHS = ("", "a" * 256, "a/" * 3000, "config/", "/", "/no/such")
ODD_PATHS = (*BAD_PATHS, "none\n%s", "é", "./none")
# The most numbers that one call of one run is tried with.
MOST_NUMBERS = 400
# Seconds after which a run counts as one that doesn't end.
MOST_SECONDS = 60
NOBODY = 65534

runner = runs.Runner()
counts = {"runs": 0, "failed": 0}


def expect(case, found, *wanted):
    """Tells where what was found is none of what is wanted."""
    counts["runs"] += 1
    if found not in wanted:
        counts["failed"] += 1
        print(f"outside.py: {case}: {found} and not {' or '.join(map(str, wanted))}", flush=True)


def is_front(found, whole):
    return whole.startswith(found)


def expect_front(case, found, wanted, whole):
    """As `expect`, where the output may be any front of the whole one."""
    expect(case, found._replace(out=b"") if is_front(found.out, whole.out) else found, wanted._replace(out=b""))


class Program:
    """A run of the table, by one compiler's program."""

    def __init__(self, run, path):
        self.run, self.path, self.said, self.whole = run, path, run.said(), None
        self.name = f"{run.name} of {os.path.basename(path)}"
        self.data = stored(run.input)
        self.whole = self.end()
        # Whether the run reads its input, and before its files: `watch` and `awsign sign` read these first.
        self.reads_input = self.end(f"read 1 {errno.EIO} - input") == self.said.read_fault
        self.reads_first = self.reads_input and self.end(f"read 1 {errno.EIO}") == self.said.read_fault

    def finished(self, found):
        """An end without the note that comes first, and where it isn't the whole run's without a front of the file that this makes."""
        is_cut = self.whole and found.status != self.whole.status and is_front(found.file, self.whole.file)
        return found._replace(err=found.err.removeprefix(self.run.note.encode()), file=b"" if is_cut else found.file)

    def end(self, fault=None, words=None, data=None, told=None):
        """How the run ends, with a fault in `FAULT`'s form."""
        env = self.run.env()
        if fault:
            env.update(FAULT=fault, LD_PRELOAD=os.path.abspath("faults.so"))
        return self.finished(runner.run(self.path, self.run.argv() if words is None else words, env, self.data if data is None else data, told))

    def without(self, path):
        """How the run ends where the file at the path is absent."""
        if not os.path.exists(path):
            return self.whole
        os.rename(path, path + ".away")
        try:
            return self.end()
        finally:
            os.rename(path + ".away", path)

    def over(self, **how):
        """How the run ends as a process of its own, with other descriptors, limits or user."""
        words = [self.path, *self.run.argv()]
        given = {"input": self.data} if "stdin" not in how else {}
        how = {"stdout": subprocess.PIPE, "stderr": subprocess.PIPE, "env": self.run.env(), **how}
        try:
            done = subprocess.run(words, timeout=MOST_SECONDS, check=False, **given, **how)
        except subprocess.TimeoutExpired:
            return Ended(-signal.SIGKILL, b"", b"it doesn't end")
        return self.finished(Ended(done.returncode, done.stdout or b"", done.stderr or b"", taken(BODY)))


def of_file(program, path):
    """What is wanted where the file at the path fails: a named one ends the run, a default one counts as absent."""
    if path in program.run.named("--data"):
        return runs.data_fault(path)
    if path in program.run.named("--out"):
        return program.said.file_fault
    return program.said.could_not_read(path) if path in program.run.files() else program.without(path)


def failed_call(program, met, found, error):
    """Compares a run in which a call failed for good with what the docs state; `met` is the call and what it was on."""
    call, name = met
    case = f"{program.name}: {call} of {name} fails"
    if call == "close":
        expect(case, found, program.whole)
    elif name == "error":
        expect(case, found._replace(err=b"") if is_front(found.err, program.whole.err) else found, program.whole._replace(err=b""))
    elif name == "input":
        expect_front(case, found, program.said.read_fault, program.whole)
    elif name == "output":
        expect_front(case, found, program.said.lost_reader if error == errno.EPIPE else program.said.output_fault, program.whole)
    else:
        expect(case, found, of_file(program, name))


def faults_of(program, call, how, told):
    """A run for each number of a call, until none is met: what was met, and how it ended."""
    for number in range(1, MOST_NUMBERS):
        os.ftruncate(told, 0)
        os.lseek(told, 0, os.SEEK_SET)
        found = program.end(f"{call} {number} {how}", told=told)
        met = runs.content_of(told).decode().split("\n")[0]
        if not met:
            return
        yield met.split(" ", 1), found


def calls_fail_in_turn(program, told):
    for call, errors in ERRORS.items():
        for error in errors:
            for met, found in faults_of(program, call, error, told):
                failed_call(program, met, found, error)


def calls_come_short(program, told):
    """One call in turn takes one byte, or is interrupted before it takes any; and then each second one."""
    for met, found in faults_of(program, "open", errno.EINTR, told):
        expect(f"{program.name}: {' of '.join(met)} is interrupted", found, program.whole)
    for call in ("read", "write"):
        for how in ("short", errno.EINTR):
            for met, found in faults_of(program, call, how, told):
                expect(f"{program.name}: {' of '.join(met)} comes {how}", found, program.whole)
            expect(f"{program.name}: each second {call} comes {how}", program.end(f"{call} odd {how}", told=told), program.whole)
        expect(f"{program.name}: each {call} comes short", program.end(f"{call} 1+ short", told=told), program.whole)


def calls_fail_from_then_on(program, told):
    """A write and each one after it fails, so that nothing is said either."""
    for number in range(1, MOST_NUMBERS):
        os.ftruncate(told, 0)
        os.lseek(told, 0, os.SEEK_SET)
        found = program.end(f"write {number}+ {errno.EIO}", told=told)
        met = runs.content_of(told).decode().split("\n")[0]
        if not met:
            break
        # Behind a note that fails comes the output, which fails too.
        met = "write output" if met == "write error" and program.run.note else met
        wanted = {"write output": program.said.output_fault, f"write {BODY}": program.said.file_fault}.get(met, program.whole)
        expect_front(f"{program.name}: {met} and all after it fail", found, wanted._replace(err=b""), program.whole)


def files_change(program):
    """A named file grows, shrinks or vanishes before one of its reads: what is read is the file before or after that, or, where its
    length was announced, it may be said that the data changed."""
    for path in program.run.files() + program.run.named("--data"):
        content = stored(path)
        for how, other in (("grow", content + b"region = grown\n"), ("shrink", b""), ("vanish", content)):
            with open(path, "wb") as file:
                file.write(other)
            wanted = [program.whole, program.end()]
            if program.run.argv()[0] == "chunk" and path in program.run.named("--data"):
                wanted.append(runs.DATA_CHANGED)
            for number in (1, 2, 3):
                with open(path, "wb") as file:
                    file.write(content)
                expect(f"{program.name}: {path} does {how} before its read {number}", program.end(f"read {number} {how} {path} {path}"), *wanted)
            with open(path, "wb") as file:
                file.write(content)
        if program.reads_first:
            expect(f"{program.name}: {path} does vanish before it is opened", program.end(f"read 1 vanish {path} input"), of_file(program, path))
            with open(path, "wb") as file:
                file.write(content)


def input_changes(program):
    """The input is a file that is cut or grows between two reads: the run ends as over what was read."""
    wanted = [program.whole, program.end(data=b""), program.end(data=program.data + b"region = grown\n")]
    for how in ("grow", "shrink", "vanish"):
        for number in (1, 2, 3):
            with open("changing", "wb") as file:
                file.write(program.data)
            with open("changing", "rb") as file:
                env = {**program.run.env(), "FAULT": f"read {number} {how} changing input", "LD_PRELOAD": os.path.abspath("faults.so")}
                expect(f"{program.name}: the input does {how} before a read {number}", program.over(stdin=file, env=env), *wanted)


def outputs(program):
    """Full, closed and limited outputs."""
    whole, fault = program.whole, program.said.output_fault
    if whole.out:
        with open("/dev/full", "wb") as full:
            expect(f"{program.name}: a full output", program.over(stdout=full), fault)
        expect(f"{program.name}: no output", program.over(preexec_fn=lambda: os.close(1)), fault)
        for limit in {1, len(whole.out) // 2, len(whole.out) - 1}:
            with open("limited", "w+b") as file:
                found = program.over(stdout=file, preexec_fn=lambda: limit_file(limit))
                file.seek(0)
                wanted = fault._replace(out=whole.out[:limit]) if limit >= len(whole.file) else program.said.file_fault
                expect(f"{program.name}: an output of at most {limit} bytes", found._replace(out=file.read()), wanted)
        closed_pipe(program)
    if whole.err:
        with open("/dev/full", "wb") as full:
            expect(f"{program.name}: a full error output", program.over(stderr=full), whole._replace(err=b""))
        expect(f"{program.name}: no error output", program.over(preexec_fn=lambda: os.close(2)), whole._replace(err=b""))


def limit_file(size):
    signal.signal(signal.SIGXFSZ, signal.SIG_IGN)
    resource.setrlimit(resource.RLIMIT_FSIZE, (size, size))


def closed_pipe(program):
    """Nobody reads the output: the run ends as it does then, whether or not the signal for that is ignored when it starts."""
    for ignored in (True, False):
        reader, writer = os.pipe()
        os.close(reader)
        found = program.over(stdout=writer, restore_signals=not ignored)
        os.close(writer)
        expect(f"{program.name}: a closed pipe, its signal {'ignored' if ignored else 'not ignored'}", found, program.said.lost_reader)


def inputs(program):
    """Inputs that aren't there, can't be read, or come in pieces."""
    with contextlib.ExitStack() as stack:
        folder = os.open(".", os.O_RDONLY | os.O_DIRECTORY)
        stack.callback(os.close, folder)
        reader, writer = os.pipe()
        stack.callback(os.close, reader)
        stack.callback(os.close, writer)
        os.set_blocking(reader, False)
        wanted = program.said.read_fault if program.reads_input else program.whole
        expect(f"{program.name}: a folder as the input", program.over(stdin=folder), wanted)
        expect(f"{program.name}: an empty pipe that doesn't wait", program.over(stdin=reader), wanted)
        expect(f"{program.name}: no input", program.over(stdin=None, preexec_fn=lambda: os.close(0)), wanted)
    in_pieces(program)


def in_pieces(program):
    """The input comes through a pipe, a few bytes at a time."""
    pipes = {"stdin": subprocess.PIPE, "stdout": subprocess.PIPE, "stderr": subprocess.PIPE, "bufsize": 0}
    process = subprocess.Popen([program.path, *program.run.argv()], env=program.run.env(), **pipes)
    with contextlib.suppress(BrokenPipeError):
        for at in range(0, len(program.data), 97):
            process.stdin.write(program.data[at : at + 97])
    out, err = process.communicate(timeout=MOST_SECONDS)
    expect(f"{program.name}: an input in pieces", program.finished(Ended(process.returncode, out, err, taken(BODY))), program.whole)


def files(program):
    """Named and default files that are something else than a file of text that can be read."""
    paths = program.run.files() or [path for path in ("home/.aws/config", "home/.aws/credentials") if program.without(path) != program.whole]
    for path in paths:
        os.rename(path, "kept")
        wanted = program.said.could_not_read(path) if program.run.files() else program.end()
        for case, make in ODD_FILES.items():
            make(path)
            expect(f"{program.name}: {path} is {case}", program.over(), wanted)
            remove(path)
        with_pipe(program, path)
        without_permission(program, path, wanted)
        os.rename("kept", path)
    expect(f"{program.name}: no file can be opened", program.end(f"open 1+ {errno.EMFILE}"), program.whole if not paths else no_files(program))
    for option in ("--config", "--credentials", "--data", "--out"):
        if program.run.named(option):
            odd_paths(program, option)
    for path in program.run.named("--data"):
        data_file(program, path)
    for path in program.run.named("--out"):
        written_file(program, path)


def data_file(program, path):
    """The data is something else than a file that can be read."""
    os.rename(path, "kept")
    for case, make in ODD_FILES.items():
        if case != "endless":
            make(path)
            expect(f"{program.name}: {path} is {case}", program.over(), runs.data_fault(path))
            remove(path)
    with_pipe(program, path)
    without_permission(program, path, runs.data_fault(path))
    os.rename("kept", path)


def written_file(program, path):
    """The file that is written is full, no file, may not be written, or is there already."""
    fault = program.said.file_fault
    for case, make in {
        "full": lambda: os.symlink("/dev/full", path),
        "a folder": lambda: os.mkdir(path),
        "a link to itself": lambda: os.symlink(os.path.basename(path), path),
        "a link into no folder": lambda: os.symlink("/no/such", path),
    }.items():
        make()
        expect(f"{program.name}: {path} is {case}", program.over(), fault)
        remove(path)
    for case, content in (("empty", b""), ("longer", bytes(100_000))):
        with open(path, "wb") as file:
            file.write(content)
        expect(f"{program.name}: {path} is there, {case}", program.over(), program.whole)
    with open(path, "wb"):
        os.chmod(path, 0)
    expect(f"{program.name}: {path} may not be written", program.over(**nobody()), fault)
    for limit in {0, 1, len(program.whole.file) - 1}:
        expect(f"{program.name}: {path} of at most {limit} bytes", program.over(preexec_fn=lambda: limit_file(limit)), fault)


def nobody():
    """How to run as a user who may do nothing, where that can be done."""
    return {"user": NOBODY, "group": NOBODY, "extra_groups": []} if os.geteuid() == 0 else {}


def remove(path):
    if os.path.islink(path):
        os.unlink(path)
    elif os.path.isdir(path):
        os.rmdir(path)


def no_files(program):
    """How a run ends that can open no file: at its data, its first named one, or as without the default ones."""
    for path in program.run.named("--data") + program.run.files():
        return of_file(program, path)
    env = program.run.env()
    ended = program.over(env={**env, "HOME": "none"})
    # What is said names the files that were looked at.
    return ended._replace(err=ended.err.replace(b"none/", env["HOME"].encode() + b"/"))


def with_pipe(program, path):
    """The file is a named pipe, into which its content is written."""
    os.mkfifo(path)
    with open("kept", "rb") as file:
        content = file.read()

    def write():
        with open(path, "wb", buffering=0) as pipe:
            for at in range(0, len(content), 50):
                pipe.write(content[at : at + 50])

    thread = threading.Thread(target=write, daemon=True)
    thread.start()
    expect(f"{program.name}: {path} is a named pipe", program.over(), program.whole)
    thread.join(MOST_SECONDS)
    os.unlink(path)


def without_permission(program, path, wanted):
    """The user may not read the file, or may not enter its folder."""
    user = nobody()
    shutil.copyfile("kept", path)
    expect(f"{program.name}: as another user", program.over(**user), program.whole)
    os.chmod(path, 0)
    expect(f"{program.name}: {path} may not be read", program.over(**user), wanted)
    os.unlink(path)
    folder = os.path.dirname(path)
    if folder:
        shutil.copyfile("kept", path)
        os.chmod(folder, 0o600)
        expect(f"{program.name}: the folder of {path} may not be entered", program.over(**user), no_files(program))
        os.chmod(folder, 0o755)
        os.unlink(path)


def odd_paths(program, option):
    """A named path that no file has, or that none can have, where the file is written."""
    for path in BAD_PATHS if option == "--out" else ODD_PATHS:
        words = program.run.argv()
        words[words.index(option) + 1] = path
        faults = {"--data": runs.data_fault(path), "--out": program.said.file_fault}
        expect(f"{program.name}: {option} {path[:20]!r}", program.end(words=words), faults.get(option) or program.said.could_not_read(path))


def terminal(program):
    """Input, output and error are one terminal; the input ends by Control-D."""
    if b"\x00" in program.data or b"\r" in program.data or program.run.argv()[0] in ("watch", "chunk"):
        return
    master, slave = pty.openpty()
    modes = termios.tcgetattr(slave)
    modes[1] &= ~termios.OPOST
    modes[3] &= ~termios.ECHO
    termios.tcsetattr(slave, termios.TCSANOW, modes)
    how = {"stdin": slave, "stdout": slave, "stderr": slave, "start_new_session": True}
    process = subprocess.Popen([program.path, *program.run.argv()], env=program.run.env(), **how)
    os.close(slave)
    shown = converse(master, process, program.data)
    os.close(master)
    wanted = Ended(program.whole.status, program.run.note.encode() + program.whole.out + program.whole.err, b"")
    expect(f"{program.name}: at a terminal", Ended(process.wait(MOST_SECONDS), shown, b""), wanted)


def converse(master, process, data):
    """Types lines and then Control-D, twice behind a line without an end, and reads what is shown until the process ends."""
    typed = data + (b"\x04" if not data or data.endswith(b"\n") else b"\x04\x04")
    shown, end = b"", time.monotonic() + MOST_SECONDS
    while time.monotonic() < end:
        if typed:
            line = typed[: typed.find(b"\n") + 1] or typed
            typed = typed[os.write(master, line) :]
        if select.select([master], [], [], 0 if typed else 0.2)[0]:
            try:
                shown += os.read(master, 65536)
            except OSError:
                break
        elif not typed and process.poll() is not None:
            break
    with contextlib.suppress(subprocess.TimeoutExpired):
        process.wait(5)
    process.kill()
    return shown


def large_output(compiler, path):
    """A reader that goes away in mid-stream, and a slow one: what it got is a front of the whole."""
    job = stored("bare.job") + b"event\npayload " + b"ab" * 300 + b"\n" + b"event\npayload 00\n" * 1000
    with open("large.job", "wb") as file:
        file.write(job)
    words = [path, "stream", "--name", "a", "--at", "0"]
    whole = runner.run(path, words[1:], {"HOME": "home"}, job).out
    for taken in (1, 4096, 100_000, len(whole) - 70_000):
        for ignored in (True, False):
            found = left_after(words, taken, ignored)
            wanted = runs.STREAMS.output_fault._replace(out=whole[:taken])
            expect(f"stream of {compiler}: a reader that leaves after {taken} bytes, its signal {'ignored' if ignored else 'not ignored'}", found, wanted)
    expect(f"stream of {compiler}: a slow reader", slow_reader(words) == whole, True)


def left_after(words, taken, ignored):
    """How a run ends whose reader leaves after so many bytes, and what that had read."""
    with open("large.job", "rb") as file:
        how = {"stdin": file, "stdout": subprocess.PIPE, "stderr": subprocess.PIPE, "bufsize": 0, "restore_signals": not ignored}
        process = subprocess.Popen(words, env={"HOME": "home"}, **how)
    got = b""
    while piece := process.stdout.read(min(4096, taken - len(got))):
        got += piece
    process.stdout.close()
    err = process.stderr.read()
    process.stderr.close()
    return Ended(process.wait(MOST_SECONDS), got, err)


def slow_reader(words):
    """What a reader gets that takes a few bytes at a time of a small pipe."""
    with open("large.job", "rb") as file:
        process = subprocess.Popen(words, stdin=file, env={"HOME": "home"}, stdout=subprocess.PIPE, bufsize=0, pipesize=4096)
    got = []
    while piece := process.stdout.read(1 + len(got) % 1000):
        got.append(piece)
    process.stdout.close()
    process.wait(MOST_SECONDS)
    return b"".join(got)


def clock(path, words, data):
    """Where the clock gives nothing, each moment is second 0."""
    env = {"HOME": "home", "LD_PRELOAD": os.path.abspath("faults.so")}
    fixed = runner.run(path, [*words, "--at", "0"], env, data)
    found = runner.run(path, words, {**env, "FAULT": f"clock 1+ {errno.EINVAL}"}, data)
    expect(f"{' '.join(words)} of {os.path.basename(path)}: a clock that fails", found, fixed)


def tries(program, told):
    calls_fail_in_turn(program, told)
    calls_come_short(program, told)
    calls_fail_from_then_on(program, told)
    files_change(program)
    input_changes(program)
    outputs(program)
    inputs(program)
    files(program)
    terminal(program)


def main():
    only = sys.argv[1] if len(sys.argv) > 1 else ""
    table = runs.named(only)
    makers = runs.makers("outside.py", {run.program for run in table})
    with tempfile.TemporaryDirectory() as folder:
        os.chdir(folder)
        # So that `awsign chunk` can write there as another user.
        os.chmod(folder, 0o777)
        lay(folder)
        subprocess.run(["cc", "-shared", "-fPIC", "-O1", "-w", "-x", "c", "-", "-o", "faults.so", "-ldl"], input=SHIM.encode(), check=True)
        told = os.memfd_create("told")
        for run in table:
            for path in built(run.program).values():
                tries(Program(run, path), told)
        if only in "stream":
            for compiler, path in built("firuvaik").items():
                large_output(compiler, path)
                clock(path, ["stream", "--name", "a"], stored("bare.job"))
        if only in "sign":
            for path in built("awsign").values():
                clock(path, ["sign", "GET", "https://h.example/", "--service", "a"], b"")
        os.chdir("/")
    print(f"outside.py: {counts['runs']} runs of the programs by {makers}, {counts['failed']} failed")
    return 1 if counts["failed"] else 0


sys.exit(main())
