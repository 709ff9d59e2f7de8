#!/usr/bin/env python3
"""Runs the built program `operation` on replies of each kind, and `presigned` at moments of each kind. For each case in which one
ends, writes or says something else than is wanted it prints a line; the status is then 1. Another program computed the signature."""
import os
import subprocess
import sys

CRATES = os.path.join(os.path.dirname(os.path.abspath(__file__)), "..", "crates")
AT = ["--name", "service", "--at", "1440938160"]
AGENT = "aws-sdk-rust/0.123.test ua/0.1 api/test-service/0.123 os/windows/XPSP3 lang/rust/1.50.0"
SIGNATURE = "34d10b7de4d5704306c0d44b19b7330832073e33a224cda3785ddb87123a96f2"
failed = []


def head(number):
    """The head of the attempt with this number, at the same moment as all others."""
    return f"""GET https://h.example/
user-agent: {AGENT}
x-amz-user-agent: {AGENT}
x-amz-date: 20150830T123600Z
authorization: AWS4-HMAC-SHA256 Credential=AKIDEXAMPLE/20150830/us-east-1/service/aws4_request, SignedHeaders=host;x-amz-date;x-amz-user-agent, Signature={SIGNATURE}
amz-sdk-invocation-id: invocation-1
amz-sdk-request: attempt={number}; max=3

"""


def stored(program):
    """The lines of a program's stored input."""
    with open(os.path.join(CRATES, program, "stdin"), encoding="utf-8") as it:
        return it.readlines()


def expect(program, case, words, text, status, output, said):
    path = os.path.join(CRATES, program, "out", program)
    if not os.access(path, os.X_OK):
        failed.append(f"checks/operation.py: {path} isn't built")
        return
    run = subprocess.run([path, *words], input=text, capture_output=True, text=True, env={}, timeout=60)
    found = (run.returncode, run.stdout, run.stderr)
    if found != (status, output, said):
        failed.append(f"checks/operation.py: {case}: {found!r}")


def operates(case, replies, status, output="", said="", words=AT):
    request = [line for line in stored("operation") if not line.startswith("reply ")]
    expect("operation", case, words, "".join(request) + replies, status, output, said)


def checks(case, change, at, status, output="", said=""):
    text = "".join(stored("presigned"))
    expect("presigned", case, ["--name", "service", "--at", at], change(text), status, output, said)


operates("a good reply", "reply 200 -\n", 0, head(1) + "attempts 1\n")
operates("as many attempts as may be", "reply 503 SlowDown\n" * 4, 0, head(1) + head(2) + head(3) + "attempts 3\n")
operates("replies that are used up", "reply 503 SlowDown\n", 12, said="transport fault\n")
operates("an error that isn't retried", "reply 404 NotFound\n", 0, head(1) + "attempts 1\n")
operates("an event among the lines", "event\nreply 200 -\n", 4, said="bad line 8\n")
operates("no reply", "", 4, said="bad line 8\n")
operates("no moment", "reply 200 -\n", 2, said="bad word 3\n", words=AT[:2])

checks("the moment of signing", str, "1440938160", 0, "valid until 1440939060\n")
checks("the last good second", str, "1440939059", 0, "valid until 1440939060\n")
checks("the first second after it", str, "1440939060", 8, said="check failed Expired\n")
checks("the second before signing", str, "1440938159", 8, said="check failed TooEarly\n")
checks("another expiry", lambda text: text.replace("Expires=900", "Expires=901"), "1440938160", 8, said="check failed Mismatch\n")
checks("a date twice", lambda text: text.replace("X-Amz-Signature", "X-Amz-Date=20150830T123600Z&X-Amz-Signature"), "1440938160", 8, said="check failed Repeated\n")
checks("no signature", lambda text: text.replace("&X-Amz-Signature=", "&a="), "1440938160", 8, said="check failed Missing\n")

for line in failed:
    print(line)
sys.exit(bool(failed))
