#!/usr/bin/env python3
"""Feeds `firuvaik watch` through a pipe, a frame at a time, and a byte at a time, and reads the line of each event before it
sends what follows. For each line that is missing, late or early it prints one; the status is then 1."""
import os
import re
import select
import subprocess
import sys
import tempfile
import zlib

CRATE = os.path.join(os.path.dirname(os.path.abspath(__file__)), "..", "crates", "firuvaik")
PROGRAM = os.path.join(CRATE, "out", "firuvaik")
# Seconds after which a line that was due counts as missing.
MOST_WAIT = 20
failed = []


def example():
    """The seed, the frames and the lines of the events of the stream that the program's stored run writes."""
    with open(os.path.join(CRATE, "stdout"), encoding="utf-8") as it:
        head, tail = it.read().split("\n\n")
    seed = re.search(r"Signature=([0-9a-f]{64})", head)[1]
    frames = [bytes.fromhex(line) for line in tail.split()]
    return seed, frames, [payload(frame).hex() for frame in frames[:-1]]


def payload(frame):
    """What a frame carries: for a signed one the frame of its event."""
    headers = int.from_bytes(frame[4:8], "big")
    return frame[12 + headers : -4]


class Watch:
    """A running `firuvaik watch`."""

    def __init__(self, folder, seed):
        files = ["--config", os.path.join(CRATE, "data", "config"), "--credentials", os.path.join(folder, "keys")]
        words = [PROGRAM, "watch", "--name", "transcribe", "--seed", seed, *files]
        self.process = subprocess.Popen(words, stdin=subprocess.PIPE, stdout=subprocess.PIPE, stderr=subprocess.PIPE, env={}, bufsize=0)

    def send(self, piece):
        os.write(self.process.stdin.fileno(), piece)

    def line(self, seconds=MOST_WAIT):
        """The next line, or nothing where none came in time."""
        if not select.select([self.process.stdout], [], [], seconds)[0]:
            return None
        return self.process.stdout.readline().decode().rstrip("\n")

    def end(self):
        """What is left of the output, what was said, and the status."""
        rest, said = self.process.communicate()
        return rest.decode(), said.decode(), self.process.returncode


def expect(case, found, wanted):
    if found != wanted:
        failed.append(f"checks/watch.py: {case}: {found!r} and not {wanted!r}")


def each_before_the_next(folder, seed, frames, lines):
    watch = Watch(folder, seed)
    for place, (frame, line) in enumerate(zip(frames, lines), 1):
        watch.send(frame[:-1])
        expect(f"event {place}, but for its last byte", watch.line(0.1), None)
        watch.send(frame[-1:])
        expect(f"event {place}", watch.line(), line)
    watch.send(frames[-1])
    expect("the end of the chain", watch.end(), (f"ok {len(lines)}\n", "", 0))


def byte_by_byte(folder, seed, frames, lines):
    watch = Watch(folder, seed)
    for place, (frame, line) in enumerate(zip(frames, lines), 1):
        for at in range(len(frame)):
            watch.send(frame[at : at + 1])
        expect(f"event {place}, byte by byte", watch.line(), line)
    expect("no closing frame", watch.end(), ("", f"check failed at frame {len(frames)} NoClosing\n", 8))


def forged(folder, seed, frames, lines):
    """The last byte of the second event's signature is another: the first event alone comes out, while the input is open."""
    digest = 12 + 1 + len(":chunk-signature") + 3 + 31
    frame = bytearray(frames[1])
    frame[digest] ^= 1
    frame[-4:] = zlib.crc32(bytes(frame[:-4])).to_bytes(4, "big")
    watch = Watch(folder, seed)
    watch.send(frames[0])
    expect("the event before a forged one", watch.line(), lines[0])
    watch.send(bytes(frame) + frames[2])
    expect("a forged event", watch.line(), "")
    rest, said, status = watch.end()
    expect("a forged event, the end", (rest, said, status), ("", "check failed at frame 2 Mismatch\n", 8))


def main():
    if not os.path.exists(PROGRAM):
        print(f"checks/watch.py: {PROGRAM} isn't built")
        return 1
    seed, frames, lines = example()
    with tempfile.TemporaryDirectory() as folder:
        with open(os.path.join(CRATE, "stdin"), encoding="utf-8") as job, open(os.path.join(folder, "keys"), "w", encoding="utf-8") as keys:
            keys.writelines(line.removeprefix("credentials ") for line in job if line.startswith("credentials "))
        for case in (each_before_the_next, byte_by_byte, forged):
            case(folder, seed, frames, lines)
    for line in failed:
        print(line)
    return 1 if failed else 0


sys.exit(main())
