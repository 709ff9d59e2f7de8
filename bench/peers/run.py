#!/usr/bin/env python3
"""Has the same work done by `tool_bench` and by the peers that are there, one process after the other, in turns. A line for each work and
each who does it: the user time of the best turn, what that makes a second, and its ratio to the SHA-256 of `tool_bench` in the same
turns (for requests the bytes that it hashes in the time of one), since machines, and what runs beside, differ. All print a digest of
their answers: where one differs, or fails, the status is 1.
  bench/peers/run.py [TOOL_BENCH]                   where the program isn't crates/tool_bench/out/tool_bench; TURNS=4
  bench/peers/run.py --instructions [TOOL_BENCH]    in place of times the instructions of a request or of a byte, by valgrind's callgrind

The peers:
  go      the SDK for Go, by peer.go: Debian's golang-go and golang-github-aws-aws-sdk-go-v2-dev (callgrind can't run it)
  crt     the AWS Common Runtime, by peer.c: Debian's gcc, python3-awscrt and libpython3.11
  rust    the SDK for Rust, by rust/: RUST_PEER names the program that `cargo build --release` makes there, from a registry
"""
import glob
import os
import pathlib
import re
import resource
import subprocess
import sys
import tempfile

HERE = pathlib.Path(__file__).resolve().parent
HASH = "hash 1000 65536"
WORKS = [
    HASH, "sign 10000", "kept-sign 10000", "request 10000", "operation 10000", "followed-operation 10000", "signer 10000", "presign 10000",
    "chain 10000 1024", "kept-chain 10000 1024", "chain 500 65536", "kept-chain 500 65536", "checksum 10000 65536", "write 10000 65536",
    "decode 2000", "receive 2000",
]
# What `decode` and `receive` read each time.
STREAM = 175 * 1024
# A peer's status where it has no such work.
NO_SUCH_WORK = 3


def built(words, **env):
    """Whether a peer could be built."""
    try:
        return subprocess.run(words, env={**os.environ, **env}, capture_output=True, check=False).returncode == 0
    except OSError:
        return False


def programs(own, folder):
    """The program of each who is there, by name."""
    found = {"firuvaik": own}
    env = {"GO111MODULE": "off", "GOPATH": "/usr/share/gocode", "GOCACHE": f"{folder}/cache", "GOFLAGS": ""}
    if built(["go", "build", "-o", f"{folder}/go", f"{HERE}/peer.go"], **env):
        found["go"] = f"{folder}/go"
    library = glob.glob("/usr/lib/python3/dist-packages/_awscrt.*.so")
    if built(["gcc", "-O2", "-o", f"{folder}/crt", f"{HERE}/peer.c", *library, "-l:libpython3.11.so.1.0"]):
        found["crt"] = f"{folder}/crt"
    if os.environ.get("RUST_PEER"):
        found["rust"] = os.environ["RUST_PEER"]
    return found


def is_of_requests(work):
    return re.match(r"((kept-|pre)?sign|signer|request|(followed-)?operation) ", work) is not None


def amount(work):
    """How many requests a work signs, or how many bytes it goes through."""
    _, count, *size = work.split()
    return int(count) * (1 if is_of_requests(work) else int(size[0]) if size else STREAM)


def user_seconds():
    return resource.getrusage(resource.RUSAGE_CHILDREN).ru_utime


def timed(program, work):
    """The user time of one run and the digest that it printed; nothing where the program has no such work."""
    before = user_seconds()
    run = subprocess.run([program, *work.split()], capture_output=True, text=True, check=False)
    if run.returncode == NO_SUCH_WORK:
        return None
    return user_seconds() - before, (run.stdout.split() or [run.stderr])[-1]


def show_times(found):
    best, digests = {}, {}
    for _ in range(int(os.environ.get("TURNS", "4"))):
        for work in WORKS:
            for name, program in found.items():
                answer = timed(program, work)
                if answer:
                    best[work, name] = min(answer[0], best.get((work, name), answer[0]))
                    digests.setdefault(work, {})[answer[1]] = name
    hashed = amount(HASH) / best[HASH, "firuvaik"]
    for (work, name), seconds in sorted(best.items(), key=lambda it: WORKS.index(it[0][0])):
        rate = amount(work) / seconds
        if is_of_requests(work):
            told = f"{rate:11,.0f} requests/s  {hashed / rate:8,.0f} bytes of SHA-256"
        else:
            told = f"{rate / 1e6:11,.0f} MB/s        {rate / hashed:8.2f} of SHA-256"
        print(f"{work:<22} {name:<9} {seconds:7.3f} s {told}")
    differing = {work: answers for work, answers in digests.items() if len(answers) > 1}
    for work, answers in differing.items():
        print(f"run.py: {work} has several answers: {answers}")
    return 1 if differing else 0


def instructions(program, work):
    words = ["valgrind", "--tool=callgrind", "--callgrind-out-file=/dev/null", program, *work.split()]
    run = subprocess.run(words, capture_output=True, text=True, check=False)
    told = re.search(r"Collected : (\d+)", run.stderr)
    return int(told[1]) if told and run.returncode == 0 else None


def show_instructions(found):
    """A hundredth of each work, and twice that: the difference is without what the start takes."""
    for work in WORKS:
        kind, count, *size = work.split()
        once, twice = (" ".join([kind, str(int(count) // 100 * times), *size]) for times in (1, 2))
        for name, program in found.items():
            less, more = instructions(program, once), instructions(program, twice)
            if less and more:
                one = "a request" if is_of_requests(work) else "a byte"
                print(f"{kind:<12} {' '.join(size):<6} {name:<9} {(more - less) / amount(once):12,.2f} instructions {one}", flush=True)
    return 0


if __name__ == "__main__":
    given = sys.argv[1:]
    show = show_instructions if "--instructions" in given else show_times
    named = [it for it in given if not it.startswith("--")]
    with tempfile.TemporaryDirectory() as room:
        sys.exit(show(programs(named[0] if named else str(HERE / "../../crates/tool_bench/out/tool_bench"), room)))
