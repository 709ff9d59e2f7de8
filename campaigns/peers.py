#!/usr/bin/env python3
"""Lets other programs read what `stream`, `stream --raw` and `chunk` write, and `check`, `watch`, `presigned` and `awsign verify` read
what these write: requests, presigned requests, chains of signed events and bodies in chunks that are made up. A line for each that
differs, and then a line of counts for each peer; the status is 1 where there was one.
  campaigns/peers.py [COUNT] [--seed N] [--first N] [--seconds N]    COUNT cases for each peer (1000), made from a seed (1), from the
                                                                     case FIRST (0) on, in so many seconds (1200)

The peers are those that are there: botocore, whose signers, whose body in chunks and whose decoder of event streams are called (it has no
encoder and no signer of events, which are Python's here, over `hmac`); the SDK for Go, by peers/peer.go, with Debian's packages golang-go
and golang-github-aws-aws-sdk-go-v2-dev; and the gems aws-sigv4 and aws-sdk-core, by peers/peer.rb, with Debian's packages of these names.
Chunks are read by the readers of HTTP that the three languages have.
What the peers are known to do otherwise isn't made up: a path that ends in `.` or `..` (all), or has other empty or dotted pieces
(Go, Ruby); a query whose names have escapes (Go sorts them before it escapes them) or repeat (botocore's presigner, Ruby); a
header `user-agent` or `expect`, and headers `x-amz-` in a presigned request (Go puts them into the query); and white space other
than U+0020. Ruby writes `:date` before `:chunk-signature`, which `watch` refuses, as docs/FORMATS.md has it: that is tried once a
case, and then the other order.
"""
import argparse
import base64
import contextlib
import datetime
import hashlib
import hmac
import http.client
import io
import json
import os
import random
import shutil
import subprocess
import sys
import tempfile
import zlib
from urllib.parse import parse_qsl, quote, urlsplit

import runs

with contextlib.suppress(ImportError):
    import botocore.auth
    import botocore.eventstream
    import botocore.httpchecksum
    from botocore.awsrequest import AWSRequest
    from botocore.credentials import Credentials

PEERS = os.path.join(runs.HERE, "peers")
UNSIGNED = "UNSIGNED-PAYLOAD"
UNRESERVED = "ABCDEFGHIJKLMNOPQRSTUVWXYZabcdefghijklmnopqrstuvwxyz0123456789-._~"
SDK = "github.com/aws/aws-sdk-go-v2"
CHECKSUM = "x-amz-checksum-crc32"
runner = runs.Runner()


# ---- cases

def text(rng, signs, most, least=0):
    return "".join(rng.choice(signs) for _ in range(rng.randrange(least, most + 1)))


def path_of(rng, dotted):
    """A path whose pieces are escaped; with empty and dotted ones, but for the last, where these are asked for."""
    pieces = [quote(text(rng, UNRESERVED + " é/?%+,:@&=$中", 6, 1), safe="-_.~") for _ in range(rng.randrange(4))]
    pieces = [piece if piece not in (".", "..") else "a" for piece in pieces]
    if dotted:
        pieces = [rng.choice([piece, piece, "", ".", "..", "a.."]) for piece in pieces] + ["z"]
    return "/" + "/".join(pieces) + rng.choice(["", "/"] if pieces and not dotted else [""])


def query_of(rng, plain):
    """A query whose names and values are escaped; the names have nothing to escape where plain ones are asked for."""
    names = sorted({text(rng, UNRESERVED if plain else UNRESERVED + " é&=+/", 5, 1) for _ in range(rng.randrange(4))})
    rng.shuffle(names)
    pairs = [(quote(name, safe="-_.~"), quote(text(rng, UNRESERVED + " é&=+/%", 6), safe="-_.~")) for name in names]
    return "?" + "&".join("=".join(pair) for pair in pairs) if pairs else ""


def value_text(rng):
    """A header's value of some words, with one space or two between."""
    return rng.choice([" ", "  "]).join(text(rng, UNRESERVED + ",;=/", 6, 1) for _ in range(rng.randrange(1, 4)))


def request_of(rng, presigned, peer):
    """A request that the peer signs by the same rules, how and by whom, by the names of the peers' tasks."""
    once = rng.random() < 0.4
    body = b"" if presigned else rng.randbytes(rng.choice([0, 0, 5, 64, 1000]))
    names = ["content-type", "Range", "accept", "x-b", "X-Longer_Name.1", "If-Match"] + ["x-amz-meta-a", "X-Amz-Target"] * (not presigned)
    headers = [[name, value_text(rng)] for name in rng.sample(names, rng.randrange(4))]
    host = rng.choice(["h.example", "s3.us-east-1.amazonaws.com", "h.example:8443", "h.example:443"])
    # Go signs the host that a request names, botocore and Ruby the one of its address: they are the same.
    url = "https://" + host + path_of(rng, peer.dotted and not once) + query_of(rng, peer.plain)
    digest = UNSIGNED if presigned and once else hashlib.sha256(body).hexdigest()
    return {
        "Method": rng.choice(["GET", "PUT", "POST", "DELETE", "HEAD"]),
        "Url": url,
        "Headers": headers,
        "Body": body.hex(),
        "Digest": digest,
        "Once": once,
        "Key": text(rng, UNRESERVED[:62], 20, 16),
        "Secret": text(rng, UNRESERVED + "/+", 40, 1),
        "Token": rng.choice(["", "", text(rng, UNRESERVED + "/+=", 60, 1)]),
        "Region": rng.choice(["us-east-1", "eu-west-3", "r"]),
        "Name": "s3" if presigned and once else rng.choice(["service", "s3", "transcribe"]),
        "At": rng.randrange(0, 4_000_000_000),
        "Expires": rng.randrange(1, 604_801),
    }


def value_of(rng, kind):
    """The line of a value of a kind, and its bytes in a frame."""
    if kind in (0, 1):
        return ("true", "false")[kind], b""
    if kind < 6:
        bits = 8 << (kind - 2)
        number = rng.choice([-(1 << (bits - 1)), (1 << (bits - 1)) - 1, 0, -1, rng.randrange(-100, 100)])
        return f"i{bits} {number}", number.to_bytes(bits // 8, "big", signed=True)
    if kind == 6:
        data = rng.randbytes(rng.choice([0, 1, 40]))
        return f"bytes {data.hex()}", len(data).to_bytes(2, "big") + data
    if kind == 7:
        data = text(rng, UNRESERVED + " é中😀", 30).encode()
        return f"text {data.decode()}", len(data).to_bytes(2, "big") + data
    if kind == 8:
        milliseconds = rng.randrange(-2_000_000_000_000, 4_000_000_000_000)
        return f"time {milliseconds // 1000} {milliseconds % 1000 * 1_000_000}", milliseconds.to_bytes(8, "big", signed=True)
    data = rng.randbytes(16)
    return f"uuid {data.hex()}", data


def framed(headers, payload):
    """A frame over a header block and a payload."""
    front = (16 + len(headers) + len(payload)).to_bytes(4, "big") + len(headers).to_bytes(4, "big")
    front += zlib.crc32(front).to_bytes(4, "big") + headers + payload
    return front + zlib.crc32(front).to_bytes(4, "big")


def event_of(rng):
    """The lines of an event in a job, and its frame."""
    lines, block = ["event"], b""
    for name in rng.sample([":message-type", ":event-type", "a", "é", "n" * 255, "x-y"], rng.randrange(4)):
        kind = rng.randrange(10)
        line, spelt = value_of(rng, kind)
        lines.append(f"h {name} {line}")
        block += bytes([len(name.encode())]) + name.encode() + bytes([kind]) + spelt
    payload = rng.randbytes(rng.choice([0, 1, 30, 300]))
    return lines + [f"payload {payload.hex()}"], framed(block, payload)


# ---- the program

def profile_lines(task):
    token = [f"credentials aws_session_token = {task['Token']}"] if task["Token"] else []
    keys = [f"credentials aws_access_key_id = {task['Key']}", f"credentials aws_secret_access_key = {task['Secret']}"]
    return ["config [default]", f"config region = {task['Region']}", "credentials [default]", *keys, *token]


def job_of(task, events):
    lines = [f"method {task['Method']}", f"target {task['Url']}", f"body {task['Body']}", *profile_lines(task)]
    lines += [f"header {name}: {value}" for name, value in task["Headers"]]
    return "\n".join(lines + [line for event in events for line in event]).encode()


def how_of(task):
    return ["--single-encode", "--no-normalize"] if task["Once"] else []


def stream(path, task, more, events=()):
    return runner.run(path, ["stream", "--name", task["Name"], "--at", str(task["At"]), *how_of(task), *more], {}, job_of(task, events))


def head_of(found):
    return found.out.decode().split("\n\n")[0].split("\n")


def split_frames(data):
    """The frames that bytes hold, by the lengths that they announce."""
    out = []
    while data:
        size = int.from_bytes(data[:4], "big")
        out.append(data[:size])
        data = data[size:]
    return out


# ---- peers

class Botocore:
    """botocore's signers and decoder, and Python's `hmac` for what it lacks."""

    name = "botocore"
    # What of the peers' own ways a request may show: dotted pieces of a path, and names of a query that are escaped.
    dotted, plain = True, False

    @staticmethod
    def is_there():
        return "botocore" in globals()

    def do(self, task):
        return getattr(self, task["Do"])(task)

    def signed(self, task, signer):
        """A request that a signer has signed at the moment of the task."""
        moment = datetime.datetime.fromtimestamp(task["At"], datetime.timezone.utc)
        botocore.auth.get_current_datetime = lambda *_, **__: moment
        request = AWSRequest(method=task["Method"], url=task["Url"], data=bytes.fromhex(task["Body"]))
        for name, value in task["Headers"]:
            if name.lower() != "x-amz-content-sha256":
                request.headers[name] = value
        signer(Credentials(task["Key"], task["Secret"], task["Token"] or None), task["Name"], task["Region"]).add_auth(request)
        return request

    def sign(self, task):
        return self.signed(task, botocore.auth.S3SigV4Auth if task["Once"] else botocore.auth.SigV4Auth).headers["Authorization"]

    def presign(self, task):
        kind = botocore.auth.S3SigV4QueryAuth if task["Once"] else botocore.auth.SigV4QueryAuth
        return self.signed(task, lambda *given: kind(*given, expires=task["Expires"])).url

    @staticmethod
    def wrap(task):
        body = io.BytesIO(bytes.fromhex(task["Body"]))
        return b"".join(botocore.httpchecksum.AwsChunkedWrapper(body, botocore.httpchecksum.Crc32Checksum, CHECKSUM, task["Size"])).hex()

    @staticmethod
    def unwrap(task):
        class Socket:
            def makefile(self, _):
                return io.BytesIO(b"HTTP/1.1 200 OK\r\ntransfer-encoding: chunked\r\n\r\n" + bytes.fromhex(task["Body"]))

        response = http.client.HTTPResponse(Socket())
        response.begin()
        return response.read().hex()

    def link(self, task, signature, payload, milliseconds):
        """The signature of an event after another one, and the header `:date` in a frame."""
        moment = datetime.datetime.fromtimestamp(milliseconds // 1000, datetime.timezone.utc)
        key = ("AWS4" + task["Secret"]).encode()
        for part in (f"{moment:%Y%m%d}", task["Region"], task["Name"], "aws4_request"):
            key = hmac.digest(key, part.encode(), "sha256")
        date = b"\x05:date\x08" + milliseconds.to_bytes(8, "big", signed=True)
        scope = f"{moment:%Y%m%d}/{task['Region']}/{task['Name']}/aws4_request"
        digests = [hashlib.sha256(data).hexdigest() for data in (date, payload)]
        lines = ["AWS4-HMAC-SHA256-PAYLOAD", f"{moment:%Y%m%dT%H%M%SZ}", scope, signature, *digests]
        return hmac.digest(key, "\n".join(lines).encode(), "sha256"), date

    def write(self, task):
        signature, out = task["Seed"], []
        for frame in [bytes.fromhex(frame) for frame in task["Frames"]] + [b""]:
            code, date = self.link(task, signature, frame, task["At"] * 1000)
            signature = code.hex()
            out.append(framed(b"\x10:chunk-signature\x06\x00\x20" + code + date, frame).hex())
        return out

    def read(self, task):
        signature, out = task["Seed"], []
        for message in self.messages(b"".join(map(bytes.fromhex, task["Frames"]))):
            code, _ = self.link(task, signature, message.payload, message.headers[":date"])
            if message.headers[":chunk-signature"] != code:
                return {"error": "signature"}
            signature = code.hex()
            if message.payload:
                # The inner frame is read, and its bytes, whose checksums were tested, are handed on.
                list(self.messages(message.payload))
                out.append(message.payload.hex())
        return out

    @staticmethod
    def messages(data):
        buffer = botocore.eventstream.EventStreamBuffer()
        for at in range(0, len(data), 1000):
            buffer.add_data(data[at : at + 1000])
            yield from buffer


class Spoken:
    """A peer of another language, which answers a line of JSON with one."""

    dotted = False

    def __init__(self, name, words, plain):
        self.name, self.words, self.plain, self.process = name, words, plain, None

    def do(self, task):
        if self.process is None:
            self.process = subprocess.Popen(self.words, stdin=subprocess.PIPE, stdout=subprocess.PIPE, text=True)
        self.process.stdin.write(json.dumps(task) + "\n")
        self.process.stdin.flush()
        return json.loads(self.process.stdout.readline())


def go_peer(folder):
    """The SDK for Go, where its package is there and builds."""
    source = "/usr/share/gocode"
    # The SDK's own chunks are internal, so that their file is taken into a package of this one's.
    chunks = f"{source}/src/{SDK}/service/internal/checksum/aws_chunked_encoding.go"
    if not os.path.isfile(chunks):
        return None
    os.makedirs(f"{folder}/src/checksum")
    for path in (chunks, f"{PEERS}/chunked.go"):
        shutil.copy(path, f"{folder}/src/checksum")
    env = {**os.environ, "GO111MODULE": "off", "GOPATH": f"{folder}:{source}", "GOCACHE": f"{folder}/cache", "GOFLAGS": ""}
    with contextlib.suppress(OSError):
        if subprocess.run(["go", "build", "-o", f"{folder}/peer", f"{PEERS}/peer.go"], env=env, check=False).returncode == 0:
            return Spoken("go", [f"{folder}/peer"], True)
    return None


def ruby_peer():
    """The gems for Ruby, where they are there."""
    with contextlib.suppress(OSError):
        if subprocess.run(["ruby", "-e", "require 'aws-sigv4'; require 'aws-eventstream'; require 'aws-sdk-core'"], stderr=subprocess.DEVNULL, check=False).returncode == 0:
            return Spoken("ruby", ["ruby", f"{PEERS}/peer.rb"], False)
    return None


# ---- what is compared

class Compared:
    """The counts of one peer."""

    def __init__(self, peer, seed):
        self.peer, self.seed, self.number, self.counts, self.failed = peer, seed, 0, {}, 0

    def expect(self, what, found, wanted, task):
        self.counts[what] = self.counts.get(what, 0) + 1
        if found != wanted:
            self.failed += 1
            if self.failed <= 20:
                case = f"{what} of case {self.number} of seed {self.seed}"
                print(f"peers.py: {self.peer.name}: {case}: {found!r} and not {wanted!r}: {json.dumps(task)}", flush=True)

    def line(self):
        return ", ".join(f"{count} of {what}" for what, count in self.counts.items())


def with_digest(task):
    """The task with the header that `--sha256` adds, where that is asked for."""
    return {**task, "Headers": task["Headers"] + [["x-amz-content-sha256", task["Digest"]]]} if task["Once"] else task


def compare_signed(compared, path, rng):
    """A request in header form: the same authorization."""
    task = {"Do": "sign", **request_of(rng, False, compared.peer)}
    found = stream(path, task, ["--sha256"] if task["Once"] else [])
    shown = [line.split(": ", 1)[1] for line in head_of(found) if line.startswith("authorization: ")]
    compared.expect("requests", shown[0] if shown else found, compared.peer.do(with_digest(task)), task)


def compare_presigned(compared, path, rng):
    """A request in query form: the same parameters, signature and all."""
    task = {"Do": "presign", **request_of(rng, True, compared.peer)}
    found = stream(path, task, ["--query", "--expires", str(task["Expires"]), *["--unsigned"] * task["Once"]])
    url = head_of(found)[0].split(" ", 1)[-1]
    wanted = compared.peer.do(task)
    same = [sorted(parse_qsl(urlsplit(str(text)).query, keep_blank_values=True)) for text in (url, wanted)]
    compared.expect("presigned requests", same[0], same[1], task)
    place = wanted.index("X-Amz-Signature=") + len("X-Amz-Signature=") + rng.randrange(64)
    bad = wanted[:place] + ("1" if wanted[place] == "0" else "0") + wanted[place + 1 :]
    until = task["At"] + task["Expires"]
    if task["Once"]:
        told = [line for line in verified(wanted, task).out.decode().split("\n") if line.startswith(("key", "payload", "until"))]
        stamp = datetime.datetime.fromtimestamp(until, datetime.timezone.utc)
        lines = [f"key {task['Key']}", f"until {stamp:%Y-%m-%dT%H:%M:%SZ}", "payload unsigned"]
        compared.expect("URLs verified", told, lines, task)
        compared.expect("forged URLs verified", verified(bad, task).status, 1, task)
    else:
        found, forged_url = (checked(url, task) for url in (wanted, bad))
        compared.expect("URLs checked", (found.status, found.out), (0, b"valid until %d\n" % until), task)
        compared.expect("forged URLs checked", (forged_url.status, forged_url.err), (8, b"check failed Mismatch\n"), task)


def checked(url, task):
    """How `presigned` ends over a URL."""
    path = compiled("presigned")
    return runner.run(path, ["--name", task["Name"], "--at", str(task["At"])], {}, job_of({**task, "Url": url}, []))


def verified(url, task):
    """How `awsign verify` ends over a URL, by the rules of Amazon S3."""
    path = compiled("awsign")
    headers = [word for name, value in task["Headers"] for word in ("-H", f"{name}: {value}")]
    env = {"AWS_ACCESS_KEY_ID": task["Key"], "AWS_SECRET_ACCESS_KEY": task["Secret"], "AWS_REGION": task["Region"], "HOME": "none"}
    if task["Token"]:
        env["AWS_SESSION_TOKEN"] = task["Token"]
    return runner.run(path, ["verify", task["Method"], url, "--s3", "--at", str(task["At"]), *headers], env, b"")


def compiled(program):
    """The path of a program, by LLVM where that made it."""
    return next(iter(runs.built(program).values()))


def compare_read(compared, path, rng):
    """A chain that `stream --raw` wrote: the peer finds each signature right, and each event as it was given."""
    task = {"Do": "read", **request_of(rng, False, compared.peer)}
    events = [event_of(rng) for _ in range(rng.randrange(5))]
    lines = [lines for lines, _ in events]
    found = stream(path, task, [], lines)
    frames = found.out.decode().split("\n\n", 1)[1].split()
    # Each second time the frames are those of `--raw`.
    if compared.number % 2:
        frames = [frame.hex() for frame in split_frames(stream(path, task, ["--raw"], lines).out)]
    seed = [line.rsplit("Signature=", 1)[1] for line in head_of(found) if line.startswith("authorization: ")][0]
    task.update(Seed=seed, Frames=frames)
    compared.expect("chains read", compared.peer.do(task), [frame.hex() for _, frame in events], task)
    compared.expect("frames in a chain", len(task["Frames"]), len(events) + 1, task)


def forged(rng, frames):
    """The frames with one byte of one signature changed, its checksum made right again, and the place of that frame."""
    place = rng.randrange(len(frames))
    frame = bytearray(frames[place])
    frame[frame.index(b":chunk-signature") + 19 + rng.randrange(32)] ^= 1 << rng.randrange(8)
    frame[-4:] = zlib.crc32(bytes(frame[:-4])).to_bytes(4, "big")
    return frames[:place] + [bytes(frame)] + frames[place + 1 :], place + 1


def compare_written(compared, path, rng, folder):
    """A request and a chain that the peer wrote: `check` and `watch` show its events, and name a frame whose signature is forged."""
    task = {"Do": "write", **request_of(rng, False, compared.peer), "Once": False}
    events = [frame.hex() for _, frame in (event_of(rng) for _ in range(rng.randrange(5)))]
    authorization = compared.peer.do({**task, "Do": "sign"})
    task.update(Seed=authorization.rsplit("Signature=", 1)[1], Frames=events)
    frames = [bytes.fromhex(frame) for frame in compared.peer.do(task)]
    with open(f"{folder}/config", "w", encoding="utf-8") as config, open(f"{folder}/keys", "w", encoding="utf-8") as keys:
        for line in profile_lines(task):
            kind, rest = line.split(" ", 1)
            (config if kind == "config" else keys).write(rest + "\n")
    words = ["watch", "--name", task["Name"], "--seed", task["Seed"], "--config", f"{folder}/config", "--credentials", f"{folder}/keys"]
    shown = "".join(event + "\n" for event in events)
    found = runner.run(path, words, {}, b"".join(frames))
    compared.expect("chains watched", (found.status, found.out.decode()), (0, f"{shown}ok {len(events)}\n"), task)
    stamp = datetime.datetime.fromtimestamp(task["At"], datetime.timezone.utc)
    head = [f"{task['Method']} {task['Url']}", f"x-amz-date: {stamp:%Y%m%dT%H%M%SZ}", f"authorization: {authorization}", ""]
    record = [*profile_lines(task), "record", *head, *[frame.hex() for frame in frames], ""]
    found = runner.run(path, ["check", "--name", task["Name"]], {}, "\n".join(record).encode())
    compared.expect("records checked", (found.status, found.out.decode()), (0, f"ok {len(events)}\n{shown}"), task)
    bad, place = forged(rng, frames)
    found = runner.run(path, words, {}, b"".join(bad))
    compared.expect("forged chains watched", (found.status, found.err), (8, b"check failed at frame %d Mismatch\n" % place), task)
    if compared.peer.name == "ruby":
        own = [bytes.fromhex(frame) for frame in compared.peer.do({**task, "Once": True})]
        found = runner.run(path, words, {}, b"".join(own))
        compared.expect("chains in Ruby's order", (found.status, found.err), (8, b"check failed at frame 1 Headers\n"), task)


def compare_chunks(compared, path, rng):
    """A body in chunks: the text that the peer writes, whose lengths are in lower case, and the body that it reads of ours."""
    body, size = rng.randbytes(rng.choice([0, 1, 15, 16, 17, 100, 5000])), rng.choice([1, 15, 16, 17, 26, 1000])
    task = {"Do": "wrap", "Body": body.hex(), "Size": size}
    checksum = base64.b64encode(zlib.crc32(body).to_bytes(4, "big")).decode()
    found = runner.run(path, ["chunk", "--size", str(size), "--trailer", CHECKSUM, checksum], {}, body)
    compared.expect("bodies in chunks", lower_lengths(found.out, size).hex(), compared.peer.do(task), task)
    compared.expect("bodies read", compared.peer.do({"Do": "unwrap", "Body": found.out.hex()}), body.hex(), task)


def lower_lengths(chunked, size):
    """The text with its lengths in lower case."""
    out = b""
    while chunked:
        line, _, chunked = chunked.partition(b"\r\n")
        length = int(line, 16)
        out += line.lower() + b"\r\n" + chunked[: length + 2 if length else None]
        chunked = chunked[length + 2 :] if length else b""
    return out


def compare(peer, paths, numbers, seed, folder, seconds):
    """The cases that are asked for, or as many as the time allows."""
    compared, end = Compared(peer, seed), datetime.datetime.now().timestamp() + seconds
    for compared.number in numbers:
        if datetime.datetime.now().timestamp() > end:
            break
        rng = random.Random(f"{seed}/{peer.name}/{compared.number}")
        path = paths[compared.number % len(paths)]
        compare_signed(compared, path, rng)
        compare_presigned(compared, path, rng)
        compare_read(compared, path, rng)
        compare_written(compared, path, rng, folder)
        compare_chunks(compared, path, rng)
    print(f"peers.py: {peer.name}: {compared.line()}; {compared.failed} differ", flush=True)
    return compared.failed


def main():
    parser = argparse.ArgumentParser()
    parser.add_argument("count", type=int, nargs="?", default=1000)
    parser.add_argument("--seed", type=int, default=1)
    parser.add_argument("--first", type=int, default=0)
    parser.add_argument("--seconds", type=float, default=1200)
    given = parser.parse_args()
    makers = runs.makers("peers.py", ["firuvaik", "presigned", "awsign"])
    with tempfile.TemporaryDirectory() as folder:
        peers = [peer for peer in ([Botocore()] if Botocore.is_there() else []) + [go_peer(folder), ruby_peer()] if peer]
        paths = list(runs.built("firuvaik").values())
        numbers, seconds = range(given.first, given.first + given.count), given.seconds / max(1, len(peers))
        failed = sum(compare(peer, paths, numbers, given.seed, folder, seconds) for peer in peers)
    print(f"peers.py: {len(peers)} peers, the programs by {makers}, {failed} differ")
    return 1 if failed or not peers else 0


sys.exit(main())
