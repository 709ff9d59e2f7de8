#!/usr/bin/env python3
"""Tasks from the shell with the built program `awsign`: it signs, curl sends, and a listener on loopback asks botocore what the
signature has to be and keeps the objects; of a body in chunks the listener computes every signature again; it verifies what it signed,
and what botocore presigned; it tells the settings that `aws configure list` does, where that is there; it prints event stream
frames that botocore reads, and those of chains whose signatures are computed here; it ends quietly where its reader leaves, and
shows its progress on a terminal; and its pages of help name the words that it takes, as the completion for bash does. For each task
that goes wrong there is a line; the status is then 1. Without botocore or curl it checks nothing.
AWSIGN_BIG is how many bytes the big file has."""
import base64
import hashlib
import hmac
import http.server
import io
import json
import os
import pty
import re
import select
import shutil
import socket
import struct
import subprocess
import sys
import tempfile
import threading
import time
import urllib.parse
import zlib

ROOT = os.path.join(os.path.dirname(os.path.abspath(__file__)), "..")
PROGRAM = os.environ.get("AWSIGN") or os.path.join(ROOT, "crates", "awsign", "out", "awsign")
KEY, SECRET, TOKEN, REGION = "AKIDEXAMPLE", "wJalrXUtnFEMI/K7MDENG+bPxRfiCYEXAMPLEKEY", "TOKEN+/=", "us-east-1"
BIG = int(os.environ.get("AWSIGN_BIG", 100_000_000))
LARGE, MOST_MEMORY = 200 << 20, 32 << 10
SHORT = "/sys/devices/system/cpu/online"
failed = []
objects = {}


def expected(handler, token):
    """The signature that botocore computes for a request as it came, and the one that it carries."""
    from botocore.auth import S3SigV4Auth
    from botocore.awsrequest import AWSRequest
    from botocore.credentials import Credentials

    auth = S3SigV4Auth(Credentials(KEY, SECRET, token), "s3", REGION)
    target = handler.path
    path, _, query = target.partition("?")
    pairs = [pair.partition("=") for pair in query.split("&") if pair]
    carried = handler.headers.get("authorization")
    if carried:
        fields = dict(part.strip().split("=", 1) for part in carried.split(" ", 1)[1].split(","))
        names, signature, date = fields["SignedHeaders"].split(";"), fields["Signature"], handler.headers["x-amz-date"]
    else:
        given = {name: urllib.parse.unquote(value) for name, _, value in pairs}
        names, signature, date = given["X-Amz-SignedHeaders"].split(";"), given["X-Amz-Signature"], given["X-Amz-Date"]
        pairs = [pair for pair in pairs if pair[0] != "X-Amz-Signature"]
    query = "&".join(name + "=" + value for name, _, value in pairs)
    request = AWSRequest(method=handler.command, url=f"http://{handler.headers['host']}{path}" + ("?" + query if query else ""))
    lines = []
    for name in names:
        values = handler.headers.get_all(name) or []
        lines.append(name + ":" + ",".join(" ".join(value.split()) for value in values))
    payload = handler.headers.get("x-amz-content-sha256") or "UNSIGNED-PAYLOAD"
    request.context["timestamp"] = date
    canonical = "\n".join([handler.command, path, auth.canonical_query_string(request), "\n".join(lines) + "\n", ";".join(names), payload])
    return auth.signature(auth.string_to_sign(request, canonical), request), signature


def signing_key(scope):
    """The key that signs in a scope."""
    key = b"AWS4" + SECRET.encode()
    for part in scope.split("/"):
        key = hmac.digest(key, part.encode(), "sha256")
    return key


def unchunked(headers, body, before):
    """The data of a body in chunks behind a request of this signature, where its signatures, lengths, trailers and checksums are right."""
    signed = headers["x-amz-content-sha256"].startswith("STREAMING-AWS4-")
    date, scope = headers["x-amz-date"], headers["authorization"].split("Credential=")[1].split(",")[0].split("/", 1)[1]
    key = signing_key(scope)

    def own(*lines):
        return hmac.digest(key, "\n".join([lines[0], date, scope, before, *lines[1:]]).encode(), "sha256").hex()

    data, count, body = [], 1, io.BytesIO(body)
    while count:
        size, mark, carried = body.readline().removesuffix(b"\r\n").decode().partition(";chunk-signature=")
        count = int(size, 16)
        piece = body.read(count)
        if signed:
            before = own("AWS4-HMAC-SHA256-PAYLOAD", hashlib.sha256(b"").hexdigest(), hashlib.sha256(piece).hexdigest())
        if (carried != before) if signed else mark:
            return None
        data.append(piece)
        if count and body.read(2) != b"\r\n":
            return None
    data, body = b"".join(data), body.read()
    pairs = [line.split(":", 1) for line in body.decode().split("\r\n") if line]
    trailers = dict(pairs)
    carried = trailers.pop("x-amz-trailer-signature", None)
    if signed and trailers:
        lines = "".join(f"{name}:{value}\n" for name, value in sorted(trailers.items()))
        if carried != own("AWS4-HMAC-SHA256-TRAILER", hashlib.sha256(lines.encode()).hexdigest()):
            return None
    elif carried:
        return None
    sums = {"x-amz-checksum-crc32": zlib.crc32(data).to_bytes(4, "big"), "x-amz-checksum-sha256": hashlib.sha256(data).digest()}
    right = all(base64.b64encode(value).decode() == trailers.get(name, base64.b64encode(value).decode()) for name, value in sums.items())
    told = headers.get("x-amz-trailer", "").split(",") if trailers else []
    kind = ("STREAMING-AWS4-HMAC-SHA256-PAYLOAD" + ("-TRAILER" if trailers else "")) if signed else "STREAMING-UNSIGNED-PAYLOAD-TRAILER"
    announced = headers["x-amz-decoded-content-length"] == str(len(data)) and headers["x-amz-content-sha256"] == kind
    return data if right and announced and told == list(trailers) and body.endswith(b"\r\n") and headers["content-encoding"] == "aws-chunked" else None


class Server(http.server.ThreadingHTTPServer):
    """Says nothing of a client that ends the connection first, as curl may."""

    def handle_error(self, request, client_address):
        pass


class Listener(http.server.BaseHTTPRequestHandler):
    """Keeps the objects of signed requests, and refuses the others."""
    protocol_version = "HTTP/1.1"
    token = None

    def log_message(self, *_):
        pass

    def answer(self):
        digest, length = hashlib.sha256(), int(self.headers.get("content-length") or 0)
        kept, left, payload = bytearray(), length, self.headers.get("x-amz-content-sha256") or ""
        if self.headers.get("expect"):
            self.send_response_only(100)
            self.end_headers()
        while left:
            piece = self.rfile.read(min(left, 1 << 20))
            if not piece:
                break
            left -= len(piece)
            digest.update(piece)
            if length < 1 << 23 or payload.startswith("STREAMING-"):
                kept += piece
        wanted, carried = expected(self, Listener.token)
        good = wanted == carried and payload in ("", "UNSIGNED-PAYLOAD", digest.hexdigest())
        if wanted == carried and payload.startswith("STREAMING-"):
            data = unchunked(self.headers, kept, carried)
            good, kept = data is not None, data or b""
            digest = hashlib.sha256(kept)
        path = self.path.partition("?")[0]
        body, status = b"", 403
        if good and self.command == "PUT":
            objects[path], status = bytes(kept) if length < 1 << 23 else digest.hexdigest().encode(), 200
        elif good and self.command == "DELETE":
            status = 204 if objects.pop(path, None) is not None else 404
        elif good and self.command in ("GET", "HEAD"):
            status = 200
            body = "\n".join(sorted(objects)).encode() if path.count("/") == 1 else objects.get(path, b"")
        self.send_response(status)
        if status != 204:
            self.send_header("content-length", str(len(body)))
        self.end_headers()
        if self.command != "HEAD":
            self.wfile.write(body)

    do_GET = do_PUT = do_DELETE = do_HEAD = do_POST = answer


def shell(task, command, wanted, **more):
    """Runs one command of a shell, whose output has to be this."""
    env = {"PATH": os.environ["PATH"], "HOME": os.getcwd(), "AWS_ACCESS_KEY_ID": KEY, "AWS_SECRET_ACCESS_KEY": SECRET, "AWS_REGION": REGION, **more}
    run = subprocess.run(["sh", "-c", command], capture_output=True, env=env, timeout=600)
    if run.stdout.decode(errors="replace") != wanted:
        failed.append(f"{task}: wrote {run.stdout[:200]!r} and said {run.stderr[:300]!r}")


def says(task, command, code, out="", err="", **more):
    """Runs one command of a shell, which has to end with this number, and to write and say texts that have these in them; what it writes
    is empty where none is wanted, and no secret is in either."""
    env = {"PATH": os.environ["PATH"], "HOME": os.getcwd(), "AWS_ACCESS_KEY_ID": KEY, "AWS_SECRET_ACCESS_KEY": SECRET, "AWS_REGION": REGION, **more}
    run = subprocess.run(["bash", "-o", "pipefail", "-c", command], capture_output=True, env=env, timeout=600)
    wrote, said = run.stdout.decode(errors="replace"), run.stderr.decode(errors="replace")
    if run.returncode != code or out not in wrote or err not in said or (not out and wrote) or SECRET in wrote + said:
        failed.append(f"{task}: ended with {run.returncode}, wrote {wrote[:300]!r} and said {said[:300]!r}")


def wire(task, port, command, body, wanted):
    """Sends the head that a command prints, and a body, and compares the status of the answer."""
    env = {"PATH": os.environ["PATH"], "HOME": os.getcwd(), "AWS_ACCESS_KEY_ID": KEY, "AWS_SECRET_ACCESS_KEY": SECRET, "AWS_REGION": REGION}
    head = subprocess.run(["sh", "-c", command], capture_output=True, env=env, timeout=60).stdout
    with socket.create_connection(("127.0.0.1", port)) as it:
        it.sendall(head + body)
        got = it.recv(1 << 16).split(b"\r\n")[0].decode()
    if got.split(" ")[1:2] != [wanted]:
        failed.append(f"{task}: answered {got!r} to {head[:300]!r}")


def on_terminal(command):
    """What a command of a shell shows on a terminal, which is its standard error alone."""
    env = {"PATH": os.environ["PATH"], "HOME": os.getcwd(), "AWS_ACCESS_KEY_ID": KEY, "AWS_SECRET_ACCESS_KEY": SECRET, "AWS_REGION": REGION}
    ours, theirs = pty.openpty()
    run = subprocess.Popen(["sh", "-c", command], stdout=subprocess.DEVNULL, stderr=theirs, env=env)
    os.close(theirs)
    shown = b""
    try:
        while piece := os.read(ours, 1 << 16):
            shown += piece
    except OSError:  # the terminal has no writer any more
        pass
    os.close(ours)
    run.wait(timeout=600)
    return shown


def heads(at, port):
    """Heads as they go over the wire, and services that hosts name."""
    wire("a head", port, f"awsign sign GET {at}/b/a%20b --s3 --as http", b"", "200")
    wire("a head without a path", port, f"awsign sign GET '{at}?list-type=2#part' --s3 --as http", b"", "200")
    wire("a head with a body", port, f"awsign sign PUT {at}/b/w --s3 --data word -H 'content-length: 5' --as http", b"hello", "200")
    wire("a head with another body", port, f"awsign sign PUT {at}/b/w --s3 --data word -H 'content-length: 5' --as http", b"hallo", "403")
    for host, service in (("iam.amazonaws.com", "iam"), ("dynamodb.us-east-1.amazonaws.com", "dynamodb"), ("b.c.s3.eu-west-1.amazonaws.com:443", "s3"),
                          ("x.execute-api.us-east-1.amazonaws.com", "execute-api"), ("b.s3.dualstack.us-gov-west-1.amazonaws.com", "s3"),
                          ("b.s3-us-west-2.amazonaws.com", "s3"), ("x.us-east-1.es.amazonaws.com", "es")):
        says(f"service of {host}", f"awsign sign GET 'https://{host}/a?x=//sqs.amazonaws.com/' --as headers", 0, f"/{REGION}/{service}/aws4_request", f"the service is {service}, by the host")
        says(f"service of {host} in a head", f"awsign sign GET https://{host}/a --as http 2>&1 | grep -v ^awsign: | awsign verify", 0, f"service {service}\n")
    says("a named service", "awsign sign GET https://iam.amazonaws.com/ --service sts --as headers 2>&1", 0, "/sts/aws4_request")
    for host in ("example.com", "us-east-1.amazonaws.com", "amazonaws.com", "iam.amazonaws.com.example.com", "u@iam.amazonaws.com"):
        says(f"no service of {host}", f"awsign sign GET https://{host}/", 1, "", "no service")


def manners(at):
    """Lengths of time and raw paths as words give them, outputs whose reader leaves, and what a terminal is shown."""
    curl = "curl -sS -K - -w '%{http_code}'"
    for time, seconds in (("1", 1), ("90s", 90), ("10m", 600), ("12h", 43200), ("7d", 604800), ("604800", 604800)):
        says(f"good for {time}", f"awsign presign GET {at}/b/k --s3 --expires {time}", 0, f"&X-Amz-Expires={seconds}&")
    for time in ("0", "0d", "m", "10 m", "1m30s", "10M", "1w", "1.5h", "-1", "+1", "010", "", "18446744073709551616", "213503982334602d"):
        says(f"good for {time!r}", f'awsign presign GET {at}/b/k --s3 --expires "$TIME"', 2, "", f"awsign: word 6 isn't understood here: {time};", TIME=time)
    for time in ("604801", "8d", "169h"):
        says(f"good for {time}", f"awsign presign GET {at}/b/k --s3 --expires {time}", 1, "", "over 604800 seconds")
    for name in ("X-Amz-Signature", "X%2DAmz-Signature"):
        says(f"presigned already, {name}", f"awsign presign GET '{at}/b/k?a=b&{name}=c' --s3 --expires 10m", 1, "", "awsign: the URL is presigned already")
    says("signed in headers too", f"awsign sign GET '{at}/b/k?X-Amz-Signature=c' --s3", 0, "authorization")
    says("good for long", f"awsign presign GET {at}/b/k --s3 --expires 8d --long", 0, "&X-Amz-Expires=691200&")
    says("good for the most", f"awsign presign GET {at}/b/k --s3 --expires 213503982334601d --long", 0, "&X-Amz-Expires=18446744073709526400&")
    for key in ("odd key+ü", "a%20b", "a#b", "a//../b", " \"<>\\^`{|}", "(a)!$&'*,;=:@~[]", "日本/€.txt"):
        spelled = urllib.parse.quote(key, safe="/")
        shell(f"raw key {key}", f"""awsign sign PUT "$URL/b/$KEY" --s3 --data word --encode-path | {curl}""", "200", URL=at, KEY=key)
        shell(f"raw key {key}, spelled", """awsign sign GET "$URL/b/$KEY" --s3 | curl -sS -K -""", "hello", URL=at, KEY=spelled)
        says(f"raw key {key} in a URL", 'awsign presign GET "$URL/b/$KEY?list-type=2&a=%20" --s3 --expires 10m --encode-path', 0, f"{at}/b/{spelled}?list-type=2&a=%20&X-Amz-", URL=at, KEY=key)
    says("a raw path of another service", "awsign sign GET 'https://h.example/a b' --service x --encode-path --at 0 --as json", 0, '"url":"https://h.example/a%20b"')
    says("a raw path alone", "awsign sign GET '/a b%?c' -H 'host: h.example' --service x --encode-path --at 0 --as json", 0, '"url":"/a%20b%25?c"')
    says("a raw query", "awsign sign GET 'https://h.example/a?b c' --service x --encode-path", 1, "", "invalid target")
    says("an upload to a raw key", f"awsign chunk PUT '{at}/b/odd key' --s3 --data small --out body --encode-path | {curl}", 0, "200")
    for words in (f"verify GET {at}/ --encode-path", "settings --encode-path", f"sign GET {at}/ --s3 --encode-path --encode-path", f"sign GET {at}/ --s3 --expires 10m"):
        says(words, f"awsign {words}", 2, "", "isn't understood here: --e")
    for words in ("--help", "settings", f"sign GET {at}/b/k --s3", f"presign GET {at}/b/k --s3 --expires 10m", "events encode < job",
                  f"chunk PUT {at}/b/k --s3 --data small --out body"):
        says(f"{words} without a reader", f"(sleep 0.2; printf 'event\n' > job; awsign {words} 2> said; echo $? > code) | true; cat code said", 0, "141\n")
        says(f"{words} without a word", "cat said", 0)
        says(f"{words} to a full device", f"awsign {words} > /dev/full", 3, "", "awsign: the output failed")
    says("a file that isn't there", f"awsign sign PUT {at}/b/k --s3 -H 'x-a: --data' --data 'no where'", 3, "", "could not read the file that --data names: no where\n")
    both, key = f"{os.getcwd()}/.aws/config, {os.getcwd()}/.aws/credentials", "aws_access_key_id and aws_secret_access_key"
    for words, profile, files in (("", "default", both), ("--profile work", "work", both), ("--config bare", "default", "bare"), ("--credentials bare", "default", "bare"),
                                  ("--config bare --credentials /dev/null", "default", "bare, /dev/null")):
        for command in (f"sign PUT {at}/b/k --s3", f"verify GET {at}/b/k --s3", f"chunk PUT {at}/b/k --s3 --data word --out kept",
                        f"events verify --service x --seed {'0' * 64}", "settings"):
            says(f"{command} {words} without a key", f"echo '[other]' > bare; env -u AWS_ACCESS_KEY_ID awsign {command} {words}", 1, "not set" if command == "settings" else "",
                 f"awsign: no key: set AWS_ACCESS_KEY_ID and AWS_SECRET_ACCESS_KEY, which don't count beside --profile, or give the profile '{profile}' {key}; looked in {files}\n")
    for command in (f"sign PUT {at}/b/k", f"presign PUT {at}/b/k --expires 10m", f"verify GET {at}/b/k", f"chunk PUT {at}/b/k --data word --out kept", f"events verify --seed {'0' * 64}"):
        says(f"{command} for an empty region", f"awsign {command} --service x --region ''", 1, "", "awsign: the region is empty: give --region a name, or leave it out\n")
        says(f"{command} for an empty service", f"awsign {command} --service ''", 1, "", "awsign: the service's name is empty: give --service a name, or leave it out\n")
    says("settings of an empty region", "awsign settings --region ''", 1, "region\t\t--region\n", "awsign: the region is empty: ")
    says("a region that isn't there", f"env -u AWS_REGION awsign sign PUT {at}/b/k --s3", 1, "", "the profile 'default' a region; awsign settings says")
    shown = on_terminal(f"awsign sign PUT {at}/b/big --s3 --data big > said")
    if BIG and (re.sub(rb"\rawsign: \d+ MiB read", b"", shown).strip(b" \r") or shown.count(b"MiB read") != (BIG - 1) // (1 << 26)):
        failed.append(f"a big file shows {shown[:300]!r} on a terminal")
    for task, command in (("a small file", f"awsign sign PUT {at}/b/s --s3 --data small"), ("a big file without a terminal", f"awsign sign PUT {at}/b/big --s3 --data big 2> said; cat said >&2")):
        if b"MiB" in (shown := on_terminal(command)):
            failed.append(f"{task} shows {shown[:300]!r} on a terminal")
    if BIG:
        os.remove("big")


def chunked(at, at_body):
    """Uploads in chunks, and ones that are altered behind the signed request."""
    curl = "curl -sS -K - -w '%{http_code}'"
    for task, words in (("unsigned", ""), ("unsigned, with a checksum", "--checksum sha256"), ("signed", "--signed"),
                        ("signed, with a checksum", "--signed --checksum crc32"), ("signed, small", "--signed --size 8192 --checksum sha256"),
                        ("signed, with trailers", "--signed --trailer 'X-Amz-Meta-B: b c' --checksum crc32 --trailer 'x-amz-meta-a: a'")):
        shell(f"chunks, {task}", f"awsign chunk PUT {at}/b/chunks --s3 --data small --out body {words} | {curl}", "200")
        shell(f"chunks, {task}: again", f"awsign sign GET {at}/b/chunks --s3 | curl -sS -K - | sha256sum | cut -c1-64", at_body + "\n")
        shell(f"chunks, {task}: none", f"awsign chunk PUT {at}/b/chunks --s3 --data /dev/null --out body {words} | {curl}", "200")
    shell("chunks of the input", f"awsign chunk PUT {at}/b/piped --s3 --data - --out body --signed < word | {curl}", "200")
    shell("chunks of the input again", f"awsign sign GET {at}/b/piped --s3 | curl -sS -K -", "hello")
    for size in (0, 1, 8191, 8192, 8193, 16383, 16384, 16385):
        for words in ("--signed --checksum crc32", "--checksum sha256"):
            sent = f"awsign chunk PUT {at}/b/cut --s3 --data cut --out body --size 8192 {words}"
            shell(f"chunks of {size} bytes, {words}", f"head -c {size} small > cut; {sent} | {curl}", "200")
            shell(f"chunks of {size} bytes, {words}: again", f"awsign sign GET {at}/b/cut --s3 | curl -sS -K - | cmp - cut", "")
    large_uploads(at, curl)
    sent = f"awsign chunk PUT {at}/b/altered --s3 --data word --out body --signed --checksum crc32"
    for task, edit in (("data", "s/hello/hallo/"), ("a chunk's signature", "s/^5;chunk-signature=./5;chunk-signature=x/"),
                       ("the last signature", "s/^0;chunk-signature=./0;chunk-signature=x/"), ("a trailer", "s/^x-amz-checksum-crc32:./x-amz-checksum-crc32:x/"),
                       ("the trailers' signature", "s/^x-amz-trailer-signature:./x-amz-trailer-signature:x/")):
        shell(f"chunks with another {task}", f"{sent} > head; LC_ALL=C sed -i '{edit}' body; cat head | {curl}", "403")
    shell("chunks behind another head", f"{sent} > head; {sent} --at 1440938160 > other; cat head | {curl}", "403")
    says("an upload to a closed output", f"awsign chunk PUT {at}/b/x --s3 --data word --out closed >&-; code=$?; grep -ac authorization closed; exit $code", 3, "0\n",
         "awsign: the output failed")
    says("a refused upload", f"awsign chunk PUT {at}/b/x --s3 --data word --out kept --trailer 'x y: z'", 1, "", "awsign: a trailer can't be sent")
    says("an upload without a key", f"env -u AWS_ACCESS_KEY_ID awsign chunk PUT {at}/b/x --s3 --data word --out kept", 1, "", "awsign: no key")
    shell("a file that a refused upload leaves", "cat kept", "kept")
    says("an upload of no file", f"awsign chunk PUT {at}/b/x --s3 --data nowhere --out body", 3, "", "could not read the file that --data names: nowhere\n")
    says("an upload to a full device", f"awsign chunk PUT {at}/b/x --s3 --data word --out /dev/full", 3, "", "could not write the file that --out names")
    says("an upload's head to a full device", f"awsign chunk PUT {at}/b/x --s3 --data word --out body > /dev/full", 3, "", "awsign: the output failed")
    for task, words in (("no file", "--data word"), ("no data", "--out body"), ("size 0", "--data word --out body --size 0"), ("another checksum", "--data word --out body --checksum md5"),
                        ("a payload", "--data word --out body --unsigned")):
        says(f"an upload with {task}", f"awsign chunk PUT {at}/b/x --s3 {words}", 2, "", "awsign: ")


def large_uploads(at, curl):
    """Uploads of files that are larger than the memory that is allowed, and of files that end elsewhere than they say."""
    with open("large", "wb") as large:
        for _ in range(LARGE >> 20):
            large.write(os.urandom(1 << 20))
    with open("large", "rb") as large:
        digest = hashlib.file_digest(large, "sha256").hexdigest()
    for words in ("--signed --checksum sha256", "--signed --size 1048576", "--checksum crc32"):
        sent = f"awsign chunk PUT {at}/b/large --s3 --data large --out body {words}"
        shell(f"chunks of a large file, {words}", f"(ulimit -v {MOST_MEMORY}; {sent}) | {curl}", "200")
        shell(f"chunks of a large file, {words}: again", f"awsign sign GET {at}/b/large --s3 | curl -sS -K -", digest)
    sent = f"awsign chunk PUT {at}/b/x --s3 --out body --signed"
    says("chunks of a large input", f"(ulimit -v {MOST_MEMORY}; {sent} --data - < large)", 3, "", "awsign: no memory")
    shell("chunks in the place of their data", f"cp small own; awsign chunk PUT {at}/b/own --s3 --data own --out own --signed | {curl}", "200")
    shell("chunks in the place of their data: again", f"awsign sign GET {at}/b/own --s3 | curl -sS -K - | cmp - small", "")
    shell("chunks of a pipe", f"mkfifo pipe; cat small > pipe & awsign chunk PUT {at}/b/pipe --s3 --data pipe --out body --signed | {curl}", "200")
    shell("chunks of a pipe: again", f"awsign sign GET {at}/b/pipe --s3 | curl -sS -K - | cmp - small", "")
    shell("chunks of a file of the system", f"awsign chunk PUT {at}/b/made --s3 --data /proc/self/limits --out body --signed | {curl}", "200")
    if os.path.exists(SHORT) and os.stat(SHORT).st_size == 4096:
        says("chunks of a file that is shorter than it says", f"{sent} --data {SHORT}", 3, "", "awsign: the data changed while it was read\n")
    os.remove("large")


def verified(at):
    """What `awsign verify` says of good requests, and of bad ones."""
    good = "--at 1440938160"
    head = f"awsign sign PUT {at}/b/a%20b --s3 --data word -H 'x-amz-meta-a: b' --as http {good}"
    told = f"key {KEY}\nregion {REGION}\nservice s3\nplace headers\nsigned 2015-08-30T12:36:00Z\nuntil 2015-08-30T12:51:01Z\n" \
        "headers host;x-amz-content-sha256;x-amz-date;x-amz-meta-a\npayload digest\n"
    says("a good request", f"({head}; cat word) | awsign verify --s3 {good}", 0, told)
    says("a good request with bare line ends", f"({head} | tr -d '\\r'; cat word) | awsign verify --s3 {good}", 0, told)
    says("a good request later", f"({head}; cat word) | awsign verify --s3 --at 1440939060", 0, told)
    says("a request too late", f"({head}; cat word) | awsign verify --s3 --at 1440939061", 1, "", "awsign: the request isn't good: too late\n")
    says("a request too early", f"({head}; cat word) | awsign verify --s3 --at 1440937259", 1, "", "too early")
    says("another method", f"({head} | sed 's,^PUT,GET,'; cat word) | awsign verify --s3 {good}", 1, "", "another signature than its own")
    says("another path", f"({head} | sed 's,/b/,/c/,'; cat word) | awsign verify --s3 {good}", 1, "", "another signature than its own")
    says("another header", f"({head} | sed 's,meta-a: b,meta-a: c,'; cat word) | awsign verify --s3 {good}", 1, "", "another signature than its own")
    says("an added header", f"({head} | sed 's,^host,x-amz-acl: public-read\\r\\nhost,'; cat word) | awsign verify --s3 {good}", 1, "", "a header isn't signed")
    says("another body", f"({head}; echo hallo) | awsign verify --s3 {good}", 1, "", "another payload")
    says("another secret", f"({head}; cat word) | AWS_SECRET_ACCESS_KEY=x awsign verify --s3 {good}", 1, "", "another signature than its own")
    says("another key", f"({head}; cat word) | AWS_ACCESS_KEY_ID=x awsign verify --s3 {good}", 1, "", "unknown key")
    says("another region", f"({head}; cat word) | awsign verify --s3 {good} --region eu-west-1", 1, "", "a credential for another region")
    says("another service", f"({head}; cat word) | awsign verify --service iam {good}", 1, "", "a credential for another service")
    says("no key", f"({head}; cat word) | env -u AWS_ACCESS_KEY_ID awsign verify --s3 {good}", 1, "", "awsign: no key")
    says("no service", f"({head}; cat word) | awsign verify {good}", 1, "", "awsign: no service")
    says("an unsigned request", f"printf 'GET / HTTP/1.1\\r\\nhost: h\\r\\n\\r\\n' | awsign verify --s3 {good}", 1, "", "no signature")
    says("a bad line", f"printf 'GET / HTTP/1.1\\r\\nhost: h\\r\\nnothing\\r\\n\\r\\n' | awsign verify --s3 {good}", 1, "", "awsign: line 3 of the request isn't understood")
    says("no first line", f"printf 'GET /\\r\\n\\r\\n' | awsign verify --s3 {good}", 1, "", "line 1 of the request")
    says("no request", f"awsign verify --s3 {good} < /dev/null", 1, "", "line 1 of the request")
    says("a file that isn't there", f"({head}; cat word) | awsign verify --s3 --config nowhere {good}", 3, "", "could not read the profile file nowhere")
    says("a full device", f"({head}; cat word) | awsign verify --s3 {good} > /dev/full", 3, "", "awsign: the output failed")
    says("half of a request", f"awsign verify GET {good}", 2, "", "a word is missing at the end")
    says("a word of sign", f"awsign verify GET {at}/b --data word", 2, "", "word 4 isn't understood here: --data")
    url = f"awsign presign GET {at}/b/a%20b --s3 --expires 600 {good}"
    says("a good URL", f"awsign verify GET \"$({url})\" --s3 --at 1440938759", 0, f"place URL\nsigned 2015-08-30T12:36:00Z\nuntil 2015-08-30T12:46:00Z\nheaders host\npayload unsigned\n")
    says("a URL too late", f"awsign verify GET \"$({url})\" --s3 --at 1440938760", 1, "", "too late")
    says("a URL of another method", f"awsign verify PUT \"$({url})\" --s3 {good}", 1, "", "another signature than its own")
    says("an altered URL", f"awsign verify GET \"$({url} | sed s,/b/,/c/,)\" --s3 {good}", 1, "", "another signature than its own")
    says("a URL without its host", f"awsign verify GET \"$({url} | sed s,http://[^/]*,,)\" --s3 {good}", 1, "", "a header or the host isn't fit")
    says("a token", f"({head}; cat word) | awsign verify --s3 {good}", 0, "headers host;x-amz-content-sha256;x-amz-date;x-amz-meta-a;x-amz-security-token\n", AWS_SESSION_TOKEN=TOKEN)
    outside()


def outside():
    """What `awsign verify` says of requests that botocore signed."""
    from botocore.auth import S3SigV4Auth, S3SigV4QueryAuth, SigV4Auth
    from botocore.awsrequest import AWSRequest
    from botocore.credentials import Credentials

    made = AWSRequest(method="GET", url="https://b.s3.us-east-1.amazonaws.com/a//%C3%A4?x=1&y=%2F")
    S3SigV4QueryAuth(Credentials(KEY, SECRET, TOKEN), "s3", REGION, expires=60).add_auth(made)
    says("a URL of botocore", "awsign verify GET \"$URL\"", 0, "headers host\npayload unsigned\n", URL=made.url)
    for sign, service, host in ((S3SigV4Auth, "s3", "b.s3.us-east-1.amazonaws.com"), (SigV4Auth, "iam", "iam.amazonaws.com")):
        made = AWSRequest(method="POST", url=f"https://{host}/a%20b", data=b"hello", headers={"Content-Type": "text/plain"})
        sign(Credentials(KEY, SECRET), service, REGION).add_auth(made)
        head = f"POST /a%20b HTTP/1.1\r\nHost: {host}\r\n" + "".join(f"{name}:{value}\r\n" for name, value in made.headers.items())
        with open("message", "w") as it:
            it.write(head + "\r\nhello")
        says(f"a request of botocore to {service}", "awsign verify < message", 0, f"service {service}\nplace headers\n")


FILES = {
    ".aws/config": "[default]\nregion = eu-west-1\n\n[profile work]\n# region = nowhere\nregion_x = eu-north-1\nRegion = eu-central-1\n"
                   "[profile bare]\noutput = json\n[profile both]\naws_access_key_id = AKIDCONFIG\naws_secret_access_key = of-config\nregion = ca-west-1",
    ".aws/credentials": "[default]\naws_access_key_id = AKIDDEFAULT\naws_secret_access_key = of-default\n\n[work]\r\naws_access_key_id=AKIDWORK\r\n"
                        "aws_session_token = of-token\r\naws_secret_access_key=of-work\r\n[both]\naws_access_key_id = AKIDBOTH\naws_secret_access_key = of-both\n",
    "odd": "[profile work]\nregion = a\n[other]\nregion = b\n[profile  work]\nregion = c\n\n[profile work]\nregion = d\nregion = e\n",
    "half": "[default]\naws_access_key_id = A\nregion =\n",
    "faulty": "[default]\nregion\n",
}


def told(task, words, code, out, err="", **more):
    """Runs `awsign settings` with these variables alone: what it writes, by lines whose fields have tabs between them."""
    env = {"PATH": os.environ["PATH"], "HOME": os.getcwd(), **more}
    run = subprocess.run(["awsign", "settings", *words.split()], capture_output=True, env=env, timeout=60)
    wrote, said = run.stdout.decode(), run.stderr.decode()
    wanted = out.replace("; ", "\n").replace(" | ", "\t").replace("~", os.getcwd())
    if run.returncode != code or wrote.rstrip("\n") != wanted or err not in said or (not err and said) or "of-" in wrote + said:
        failed.append(f"settings, {task}: ended with {run.returncode}, wrote {wrote!r} and said {said!r}")
    if code == 0 and shutil.which("aws") and "AWS_REGION" not in more and all(more.values()) and "--" not in words.replace("--profile", ""):
        compared(task, words, wrote, env)


def compared(task, words, wrote, env):
    """The same as `aws configure list` tells: profile, end of the key's id, region, and what kind of place each came from."""
    listed = subprocess.run(["aws", *words.split(), "configure", "list"], capture_output=True, env=env, timeout=60).stdout.decode()
    own = {name: (value, place) for name, value, place in (line.split("\t") for line in wrote.splitlines())}
    for line in listed.splitlines()[2:]:
        name, value, kind = line.replace("<not set>", "-").split()[:3]
        mine, place = own[{"access_key": "key", "secret_key": "secret"}.get(name, name)]
        kinds = {"env": place.startswith("AWS_"), "manual": place == "--profile", "None": place == "not named" or mine == "not set",
                 "config-file": "/.aws/" in place, "shared-credentials-file": "/.aws/credentials" in place}
        if not kinds[kind] or (value not in ("-", mine) and name != "secret_key") or (value == "-") != (place == "not named" or mine == "not set"):
            failed.append(f"settings, {task}: {name} is {mine} of {place}, and by aws configure list {line.strip()!r}")


def settings():
    """What `awsign settings` tells by options, variables and files."""
    os.mkdir(".aws")
    for name, text in FILES.items():
        with open(name, "w", newline="") as it:
            it.write(text)
    file, both = "~/.aws/config", "~/.aws/config, ~/.aws/credentials"
    work = "key | ****************WORK | ~/.aws/credentials, line 6; secret | set | ~/.aws/credentials, line 8; token | set | ~/.aws/credentials, line 7"
    default = "key | ****************AULT | ~/.aws/credentials, line 2; secret | set | ~/.aws/credentials, line 3"
    region = f"region | eu-west-1 | {file}, line 2"
    own = {"AWS_ACCESS_KEY_ID": "AKIDOWN", "AWS_SECRET_ACCESS_KEY": "of-own"}
    told("files", "", 0, f"profile | default | not named; {default}; token | not set | {both}; {region}")
    told("a profile by a variable", "", 0, f"profile | work | AWS_PROFILE; {work}; region | eu-central-1 | {file}, line 7", AWS_PROFILE="work")
    told("a profile by an option", "--profile work", 0, f"profile | work | --profile; {work}; region | eu-central-1 | {file}, line 7", AWS_PROFILE="none", **own)
    told("a key by variables", "", 0, f"profile | default | not named; key | ****************DOWN | AWS_ACCESS_KEY_ID; secret | set | AWS_SECRET_ACCESS_KEY; "
         f"token | not set | AWS_SESSION_TOKEN; {region}", **own)
    told("a token by a variable", "", 0, f"profile | default | not named; key | ****************DOWN | AWS_ACCESS_KEY_ID; secret | set | AWS_SECRET_ACCESS_KEY; "
         f"token | set | AWS_SESSION_TOKEN; {region}", **own, AWS_SESSION_TOKEN="of-token")
    told("empty variables", "", 0, f"profile | default | not named; {default}; token | not set | {both}; {region}", AWS_ACCESS_KEY_ID="", AWS_REGION="", AWS_DEFAULT_REGION="")
    told("a region by its usual variable", "", 0, f"profile | default | not named; {default}; token | not set | {both}; region | sa-east-1 | AWS_DEFAULT_REGION",
         AWS_DEFAULT_REGION="sa-east-1")
    told("a region by its variable", "", 0, f"profile | default | not named; {default}; token | not set | {both}; region | sa-east-1 | AWS_REGION",
         AWS_REGION="sa-east-1", AWS_DEFAULT_REGION="none")
    told("a region by an option", "--region x", 0, f"profile | default | not named; {default}; token | not set | {both}; region | x | --region", AWS_REGION="sa-east-1")
    told("a key in both files", "--profile both", 0, "profile | both | --profile; key | ****************BOTH | ~/.aws/credentials, line 10; "
         f"secret | set | ~/.aws/credentials, line 11; token | not set | {both}; region | ca-west-1 | {file}, line 13")
    told("named files", "--config .aws/config --region x --profile both", 0, "profile | both | --profile; key | ****************NFIG | .aws/config, line 11; "
         "secret | set | .aws/config, line 12; token | not set | .aws/config; region | x | --region")
    told("a section that is gone on with", "--config odd", 0, "profile | work | AWS_PROFILE; key | ****************DOWN | AWS_ACCESS_KEY_ID; "
         "secret | set | AWS_SECRET_ACCESS_KEY; token | not set | AWS_SESSION_TOKEN; region | c | odd, line 6", AWS_PROFILE="work", **own)
    told("a profile without all", "--profile bare", 1, f"profile | bare | --profile; key | not set | {both}; secret | not set | {both}; token | not set | {both}; "
         f"region | not set | {both}", "awsign: no key")
    told("a profile without a region", "", 1, f"profile | bare | AWS_PROFILE; key | ****************DOWN | AWS_ACCESS_KEY_ID; secret | set | AWS_SECRET_ACCESS_KEY; "
         f"token | not set | AWS_SESSION_TOKEN; region | not set | {both}", "awsign: no region", AWS_PROFILE="bare", **own)
    told("half of a key", "", 1, f"profile | default | not named; key | ****************DOWN | AWS_ACCESS_KEY_ID; secret | not set | AWS_SECRET_ACCESS_KEY; "
         f"token | not set | AWS_SESSION_TOKEN; {region}", "AWS_SECRET_ACCESS_KEY isn't", AWS_ACCESS_KEY_ID="AKIDOWN")
    told("half of a key and no region in a file", "--credentials half", 1, "profile | default | not named; key | ****************A | half, line 2; secret | not set | half; "
         "token | not set | half; region | not set | half", "awsign: no key")
    told("a faulty file", "--config faulty", 1, "", "faulty, line 2: ", **own)
    told("a file that isn't there", "--config nowhere", 3, "", "could not read the profile file nowhere", **own)
    told("an operand", "GET", 2, "", "word 2 isn't understood here: GET")
    told("an option of other commands", "--s3", 2, "", "word 2 isn't understood here: --s3")
    told("an option twice", "--region x --region y", 2, "", "word 4 isn't understood here: --region")
    told("an option without its value", "--profile", 2, "", "a word is missing at the end")
    says("settings to a full device", "awsign settings > /dev/full", 3, "", "awsign: the output failed")
    shutil.rmtree(".aws")


def framed(headers, payload):
    """The frame of headers, each a name, a type's number and the bytes of its value; botocore has to read it."""
    from botocore.eventstream import EventStreamBuffer

    block = b"".join(bytes([len(name)]) + name + bytes([kind]) + value for name, kind, value in headers)
    front = struct.pack(">II", 16 + len(block) + len(payload), len(block))
    body = front + struct.pack(">I", zlib.crc32(front)) + block + payload
    frame = body + struct.pack(">I", zlib.crc32(body))
    buffer = EventStreamBuffer()
    buffer.add_data(frame)
    (message,) = list(buffer)
    if message.payload != payload or len(message.headers) != len({name for name, _, _ in headers}):
        failed.append(f"botocore reads another message than {headers} and {payload}")
    return frame


def chained(payloads, seed, second=1440938160):
    """The frames of a chain over a seed, a second apart: one for each payload, and the closing one. Each is signed as AWS documents it for
    event streams: over its date, the signature before it, and the digests of its date's header and of its payload."""
    chain = []
    for payload in [*payloads, b""]:
        moment, stamp = struct.pack(">q", second * 1000), time.strftime("%Y%m%dT%H%M%SZ", time.gmtime(second))
        scope = f"{stamp[:8]}/{REGION}/transcribe/aws4_request"
        digests = [hashlib.sha256(part).hexdigest() for part in (b"\x05:date\x08" + moment, payload)]
        code = hmac.digest(signing_key(scope), "\n".join(["AWS4-HMAC-SHA256-PAYLOAD", stamp, scope, seed, *digests]).encode(), "sha256")
        chain.append(framed([(b":chunk-signature", 6, struct.pack(">H", 32) + code), (b":date", 8, moment)], payload))
        seed, second = code.hex(), second + 1
    return chain


def summed(frame):
    """The frame with the checksum that goes with it."""
    return frame[:-4] + struct.pack(">I", zlib.crc32(frame[:-4]))


def flipped(frame, at):
    """The frame with another byte at a place, and the checksum that goes with it."""
    return summed(frame[:at] + bytes([frame[at] ^ 1]) + frame[at + 1 :])


def prints(task, command, code, wrote, said="", **more):
    """Runs one command of a shell, which has to end with this number, to write exactly this, and to say a text that has that in it."""
    env = {"PATH": os.environ["PATH"], "HOME": os.getcwd(), "AWS_ACCESS_KEY_ID": KEY, "AWS_SECRET_ACCESS_KEY": SECRET, "AWS_REGION": REGION, **more}
    run = subprocess.run(["bash", "-o", "pipefail", "-c", command], capture_output=True, env=env, timeout=600)
    if run.returncode != code or run.stdout.decode(errors="replace") != wrote or said not in run.stderr.decode(errors="replace") or SECRET.encode() in run.stdout + run.stderr:
        failed.append(f"{task}: ended with {run.returncode}, wrote {run.stdout[:300]!r} and said {run.stderr[:300]!r}")


# Where the signature and the date of a signed frame stand.
SIGNATURE, DATE = slice(32, 64), slice(71, 79)


def verified_events(whole, bare, broken, lines):
    """What `awsign events verify` prints of chains of these two events and of one that lines can't spell, good and bad."""
    seed, none, bad = "0f" * 32, "event\npayload\n", "awsign: the chain isn't good: frame "
    verify = f"awsign events verify --service transcribe --seed {seed}"
    chain = chained([whole, bare], seed)
    first, second, last = chain
    carried = [(b":chunk-signature", 6, struct.pack(">H", 32) + second[SIGNATURE]), (b":date", 8, second[DATE])]
    later = summed(second[:71] + struct.pack(">q", 1440938170000) + second[79:])
    kept = {"chain": b"".join(chain), "long": b"".join(chained([whole] * 500, seed)), "closed": chained([], seed)[0], "lined": "".join(frame.hex() + "\n" for frame in chain).encode(),
            "plain": whole + bare, "spelling": b"".join(chained([bare, broken], seed))}
    ends = {"unclosed": (first + second, "3 is missing: the chain has no closing frame"), "cut": (b"".join(chain)[:-1], "3 isn't a whole frame"),
            "closing": (first + second + flipped(last, 32), "3 carries another signature than its own"), "followed": (b"".join(chain) + first, "4 follows the closing frame")}
    faults = {"signature": (first + flipped(second, 32) + last, "carries another signature"), "payload": (first + framed(carried, whole) + last, "carries another signature"),
              "later": (first + later + last, "carries another signature"), "dropped": (first + last, "carries another signature"), "twice": (first + first + second + last, "carries another signature"),
              "date": (first + flipped(second, 78) + last, "has no whole second"), "byte": (first + flipped(second, len(second) - 5) + last, "has a payload that is no frame of a message"),
              "inner": (b"".join(chained([whole, b"x"], seed)), "has a payload that is no frame of a message"), "headers": (first + framed(carried[1:], bare) + last, "doesn't carry a signature"),
              "checksum": (first + second[:-1] + bytes([second[-1] ^ 1]) + last, "isn't a whole frame")}
    for name, data in {**kept, **{name: data for name, (data, _) in {**ends, **faults}.items()}}.items():
        with open(name, "wb") as it:
            it.write(data)
    prints("a chain", f"{verify} < chain", 0, lines + none)
    prints("a chain of many pieces", f"{verify} < long", 0, lines * 500)
    prints("a chain of no events", f"{verify} < closed", 0, "")
    prints("a chain in hexadecimal", f"{verify} --hex --as lines < lined", 0, lines + none)
    prints("a chain in JSON", f"{verify} --raw --as json < chain | cmp - <(awsign events decode --as json < plain) && echo same", 0, "same\n")
    prints("a chain by a profile", f"env -u AWS_ACCESS_KEY_ID -u AWS_REGION {verify} --region {REGION} --credentials keys --profile of-keys < chain", 0, lines + none)
    for name, (_, why) in ends.items():
        prints(f"a chain, {name}", f"{verify} < {name}", 1, lines + none, bad + why)
    for name, (_, why) in faults.items():
        prints(f"a chain, {name}", f"{verify} < {name}", 1, lines, f"{bad}2 {why}")
    prints("no chain", f"{verify} < nothing", 1, "", bad + "1 is missing")
    prints("frames that aren't signed", f"{verify} < plain", 1, "", bad + "1 doesn't carry a signature and then a date alone")
    other = bad + "1 carries another signature than its own"
    prints("a chain of another seed", f"{verify[:-1]}e < chain", 1, "", other)
    prints("a chain of another key", f"{verify} < chain", 1, "", other, AWS_SECRET_ACCESS_KEY="other")
    prints("a chain of another region", f"{verify} --region eu-west-1 < chain", 1, "", other)
    prints("a chain of another service", f"awsign events verify --service s3 --seed {seed} < chain", 1, "", other)
    prints("a chain with a line end in a text", f"{verify} < spelling", 1, none, "awsign: frame 2: lines can't spell one of its headers")
    prints("a chain without a key", f"env -u AWS_ACCESS_KEY_ID {verify} < chain", 1, "", "awsign: no key")
    prints("a chain without a region", f"env -u AWS_REGION {verify} < chain", 1, "", "awsign: no region")
    prints("a chain by a file that isn't there", f"{verify} --config nowhere < chain", 3, "", "could not read the profile file nowhere")
    prints("a chain to a full device", f"{verify} < chain > /dev/full", 3, "", "awsign: the output failed")
    prints("a chain of a folder", f"{verify} < .", 3, "", "awsign: could not read standard input")
    for words in ("", "--service transcribe", f"--seed {seed}", f"--service transcribe --seed {seed[1:]}", f"--service transcribe --seed {seed.upper()}"):
        prints(f"events verify {words}", f"awsign events verify {words} < chain", 2, "", "awsign: ")
    for words in (f"--seed {seed}", "--raw --hex", "--s3", "--profile", "chain"):
        prints(f"events verify, and {words}", f"{verify} {words} < chain", 2, "", "awsign: ")
    each_event_in_time(verify.split(" "), chain, [lines, none])


def each_event_in_time(words, chain, texts):
    """Each event of a chain is printed once its frame is there, and no byte of it before, while the input is open."""
    env = {"PATH": os.environ["PATH"], "AWS_ACCESS_KEY_ID": KEY, "AWS_SECRET_ACCESS_KEY": SECRET, "AWS_REGION": REGION}
    with subprocess.Popen(words, stdin=subprocess.PIPE, stdout=subprocess.PIPE, env=env, bufsize=0) as run:
        for frame, text in zip(chain, texts):
            run.stdin.write(frame[:-1])
            if select.select([run.stdout], [], [], 0.2)[0]:
                failed.append(f"an event was printed before its frame was there: {run.stdout.read(1 << 16)!r}")
            run.stdin.write(frame[-1:])
            wrote = b""
            while len(wrote) < len(text.encode()) and select.select([run.stdout], [], [], 20)[0]:
                wrote += run.stdout.read(len(text.encode()) - len(wrote)) or b"."
            if wrote != text.encode():
                failed.append(f"an event's frame was there, and {wrote!r} was printed and not {text!r}")
        run.stdin.write(chain[-1])
        run.stdin.close()
        if run.stdout.read() or run.wait(20):
            failed.append(f"a chain in pieces ended with {run.returncode}")


def events():
    """What `awsign events` prints of frames that botocore reads, and what it writes."""
    from botocore.eventstream import EventStreamBuffer

    def text(value):
        return struct.pack(">H", len(value)) + value

    whole = framed([(b":event-type", 7, text("Größe \"x\" \\".encode())), (b"t", 0, b""), (b"f", 1, b""), (b"a", 2, b"\x80"), (b"b", 3, b"\xff\xfe"),
                    (b"c", 4, struct.pack(">i", 2 ** 31 - 1)), (b"d", 5, struct.pack(">q", -2 ** 63)), (b"e", 6, text(b"\x00\xff")),
                    (b"g", 8, struct.pack(">q", -1)), (b"h", 9, bytes(range(16))), (b"none", 7, text(b""))], b"hello")
    lines = "event\nh :event-type text Größe \"x\" \\\nh t true\nh f false\nh a i8 -128\nh b i16 -2\nh c i32 2147483647\nh d i64 -9223372036854775808\n" \
        "h e bytes 00ff\nh g time -1 999000000\nh h uuid 000102030405060708090a0b0c0d0e0f\nh none text\npayload 68656c6c6f\n"
    bare, broken = framed([], b""), framed([(b"x", 7, text(b"a\nb\x01"))], b"")
    kept = {"frames": whole + bare + whole, "wrong": whole + bare[:-1] + b"x" + whole, "short": whole + bare + whole[:-1], "broken": whole + broken,
            "digits": (whole.hex() + "\n" + bare.hex().upper() + "\n").encode(), "job": (lines + "event\npayload\n").encode(), "nothing": b"",
            "keys": f"[of-keys]\naws_access_key_id={KEY}\naws_secret_access_key={SECRET}\n".encode()}
    for name, data in kept.items():
        with open(name, "wb") as it:
            it.write(data)
    says("events", "awsign events decode < frames", 0, lines + "event\npayload\n" + lines)
    says("events of a slow pipe", "(head -c 5 frames; sleep 0.2; tail -c +6 frames) | awsign events decode --raw --as lines", 0, lines + "event\npayload\n" + lines)
    says("events in hexadecimal", "awsign events decode --hex < digits", 0, lines + "event\npayload\n")
    says("no events", "awsign events decode < nothing", 0)
    says("frames again", "awsign events decode < frames | awsign events encode | cmp - frames && echo same", 0, "same")
    says("frames of lines", "awsign events encode --hex < job", 0, whole.hex() + "\n" + bare.hex() + "\n")
    says("frames of no lines", "awsign events encode < nothing", 0)
    says("a wrong frame", "awsign events decode < wrong", 1, lines, "awsign: frame 2: message checksum")
    says("nothing behind a wrong frame", "awsign events decode < wrong 2> said | grep -c event-type", 1, "1\n")
    says("a short frame", "awsign events decode < short", 1, lines + "event\npayload\n", "awsign: frame 3: the input ends within it")
    says("bytes that are no frame", "awsign events decode < word", 1, "", "awsign: frame 1: the input ends within it")
    says("a line end in a text", "awsign events decode < broken", 1, lines, "awsign: frame 2: lines can't spell one of its headers")
    shown = subprocess.run(["awsign", "events", "decode", "--as", "json"], input=whole + broken, capture_output=True, timeout=60).stdout.decode()
    wanted = [{"headers": [[*part, ""][:3] for part in (line[2:].split(" ", 2) for line in lines.splitlines()[1:-1])], "payload": "68656c6c6f"},
              {"headers": [["x", "text", "a\nb\x01"]], "payload": ""}]
    try:
        same = [json.loads(line) for line in shown.splitlines()] == wanted
    except ValueError:
        same = False
    if not same:
        failed.append(f"events in JSON: {shown!r} for {wanted}")
    for task, job, place in (("a line before the first event", "h a text b\n", 1), ("a line of a request", "event\nmethod GET\n", 2),
                             ("a header without a type", "event\n\nh a\n", 3), ("odd digits", "event\npayload 0\n", 2), ("two payloads", "event\npayload\npayload\n", 3)):
        says(task, "printf \"$JOB\" | awsign events encode", 1, "", f"awsign: line {place} of the input isn't understood", JOB=job)
    says("a name that is too long", "(printf 'event\\nevent\\nh '; head -c 256 /dev/zero | tr '\\0' n; echo ' true') | awsign events encode", 1, "", "awsign: event 2: invalid header name length")
    says("odd digits of a frame", "(head -1 digits; echo 0) | awsign events decode --hex", 1, "", "awsign: line 2 of the input")
    says("events to a full device", "awsign events decode < frames > /dev/full", 3, "", "awsign: the output failed")
    says("events of a folder", "awsign events decode < .", 3, "", "awsign: could not read standard input")
    for words in ("events", "events print", "events decode --raw --hex", "events encode --as json", "events decode --as curl", "events decode --as", "events encode --seed x", "events decode --service x"):
        says(words, f"awsign {words} < frames", 2, "", "awsign: ")
    verified_events(whole, bare, broken, lines)
    reader = subprocess.run(["awsign", "events", "encode"], input=kept["job"], capture_output=True, timeout=60).stdout
    buffer = EventStreamBuffer()
    buffer.add_data(reader)
    if [message.payload for message in buffer] != [b"hello", b""]:
        failed.append(f"botocore reads other messages of {reader!r}")


def known_words():
    """The commands, the actions of events, and the options that the sources of the words have."""
    text = {}
    for name in ("words", "events", "sources"):
        with open(os.path.join(ROOT, "crates", "awsign_words", "src", name + ".rt")) as it:
            text[name] = it.read()
    commands = re.findall(r'^ +"(\w+)" => read_\w+\(', text["words"], re.M)
    actions = re.findall(r'^ +"(\w+)" => Some\(EventsAction::', text["events"], re.M)
    return commands, actions, sorted(set(re.findall(r'"(--[a-z0-9-]+|-H)"', "".join(text.values()))))


def is_taken(command, option):
    """Whether a command takes an option."""
    run = subprocess.run(["awsign", *command.split(), option], stdin=subprocess.DEVNULL, capture_output=True, text=True, timeout=60)
    return f"isn't understood here: {option};" not in run.stderr


def page_of(words):
    """What `--help` behind these words prints, where it ends well and no line is too long."""
    run = subprocess.run(["awsign", *words.split(), "--help"], capture_output=True, text=True, timeout=60)
    if run.returncode or run.stderr or any(len(line) > 80 for line in run.stdout.splitlines()):
        failed.append(f"awsign {words} --help: ended with {run.returncode}, said {run.stderr!r} and printed {run.stdout!r}")
    return run.stdout


def completed(words):
    """What bash completes behind the words of a line, by the repository's completion."""
    script = 'source "$0"; COMP_WORDS=("$@"); COMP_CWORD=$(($# - 1)); _awsign; printf "%s\\n" "${COMPREPLY[@]}"'
    completion = os.path.join(ROOT, "completions", "awsign.bash")
    run = subprocess.run(["bash", "-c", script, completion, "awsign", *words.split(), "-"], capture_output=True, text=True, timeout=60)
    return set(run.stdout.split())


def pages():
    """The pages that `--help` prints: each names the options that its command takes and no other, as the completion does, and its example
    does what it says."""
    commands, actions, options = known_words()
    actions = [f"events {action}" for action in actions]
    taken = {command: {option for option in options if is_taken(command, option)} for command in [*commands, *actions] if command != "events"}
    for command in taken:
        if completed(command) != taken[command] | {"--help"}:
            failed.append(f"the completion of awsign {command} has {sorted(completed(command))}")
    taken["events"] = set().union(*(taken[action] for action in actions))
    if re.findall(r"^  awsign (\w+) ", page_of(""), re.M) != commands:
        failed.append(f"awsign --help hasn't a line for each of {commands}")
    for command in taken:
        page = page_of(command)
        named, examples = re.findall(r"^  (-\S+)", page, re.M), re.findall(r"^  (awsign (?:.*\\\n)*.*)$", page, re.M)
        if sorted(named) != sorted(taken[command]) or not page.startswith(f"awsign {command} ") or "\nExit status: 0, 1 " not in page or not examples:
            failed.append(f"awsign {command} --help: takes {sorted(taken[command])} and prints {page!r}")
        for example in examples:
            tried(example)
    for words in ("print --help", "events print --help", "sign --help GET", "sign GET --help", "events decode --raw --help", "--help --help"):
        says(words, f"awsign {words}", 2, "", "awsign: ")


def tried(example):
    """Runs an example of a page over files and variables of the names in it, and no curl; it has to end well."""
    event, seed = framed([(b":event-type", 7, b"\0\1a")], b""), "0f" * 32
    kept = {"FILE": b"hello", "EVENTS": b"event\nh :event-type text a\n", "FRAMES": b"".join(chained([event], seed)) if "$SEED" in example else event,
            "profiles": f"[work]\naws_access_key_id={KEY}\naws_secret_access_key={SECRET}\n".encode()}
    for name, data in kept.items():
        with open(name, "wb") as it:
            it.write(data)
    head = "awsign sign GET https://bucket.s3.amazonaws.com/key --as http > REQUEST && "
    env = {"PATH": os.environ["PATH"], "HOME": os.getcwd(), "AWS_ACCESS_KEY_ID": KEY, "AWS_SECRET_ACCESS_KEY": SECRET, "AWS_REGION": REGION,
           "AWS_SHARED_CREDENTIALS_FILE": "profiles", "SEED": seed}
    run = subprocess.run(["bash", "-o", "pipefail", "-c", head + example.replace("curl -K -", "grep ^url")], capture_output=True, env=env, timeout=60)
    if run.returncode:
        failed.append(f"the example {example}: ended with {run.returncode}, wrote {run.stdout[:300]!r} and said {run.stderr[:300]!r}")


def tasks(at, at_body):
    """The tasks with a listener."""
    curl = "curl -sS -K - -w '%{http_code}'"
    shell("put 3 MB", f"awsign sign PUT {at}/b/small --s3 --data small | {curl}", "200")
    if BIG:
        with open("big", "wb") as it:
            it.truncate(BIG)
        shell("put a big file", f"awsign sign PUT {at}/b/big --s3 --data big | {curl}", "200")
    shell("get", f"awsign sign GET {at}/b/small --s3 | curl -sS -K - | sha256sum | cut -c1-64", at_body + "\n")
    shell("list with a query", f"awsign sign GET '{at}/b?list-type=2&prefix=a%20b%2F&delimiter=%2F&empty=' --s3 | {curl} | tail -c 3", "200")
    for key in ("a%20b", "a+b", "a%2Bb", "a//b", "x/../b", "x/./b", "%C3%A4%E2%82%AC", "(a)!$&'*,;=:@~", "[a]{1,2}"):
        shell(f"key {key}", f"""awsign sign PUT "$URL/b/$NAME" --s3 --data word | {curl}""", "200", URL=at, NAME=key)
        shell(f"key {key} again", """awsign sign GET "$URL/b/$NAME" --s3 | curl -sS -K -""", "hello", URL=at, NAME=key)
    shell("delete", f"awsign sign DELETE {at}/b/a+b --s3 | {curl}", "204")
    shell("head", f"awsign sign HEAD {at}/b/small --s3 | {curl} | tail -c 3", "200")
    shell("presigned get", f"curl -sS \"$(awsign presign GET {at}/b/a%20b --s3 --expires 600)\"", "hello")
    shell("presigned put", f"curl -sS -w '%{{http_code}}' -T word \"$(awsign presign PUT {at}/b/up --s3 --expires 600)\"", "200")
    shell("headers", f"awsign sign PUT {at}/b/meta --s3 --data word -H 'x-amz-meta-a:  say \"two\"  \\\\ words' -H 'x-amz-meta-none: ' -H 'content-type: text/plain' | {curl}", "200")
    shell("an altered request", f"awsign sign PUT {at}/b/small --s3 --data word | sed 's,/b/small,/b/other,' | {curl}", "403")
    shell("an altered body", f"awsign sign PUT {at}/b/small --s3 --data word | sed 's,\"word\",\"small\",' | {curl}", "403")
    heads(at, int(at.rsplit(":", 1)[1]))
    manners(at)
    verified(at)
    settings()
    chunked(at, at_body)
    events()
    pages()
    Listener.token = TOKEN
    shell("a session token", f"awsign sign GET {at}/b/a%20b --s3 | curl -sS -K -", "hello", AWS_SESSION_TOKEN=TOKEN)
    shell("a token in a URL", f"curl -sS \"$(awsign presign GET {at}/b/a%20b --s3 --expires 600)\"", "hello", AWS_SESSION_TOKEN=TOKEN)


def main():
    if not os.access(PROGRAM, os.X_OK):
        failed.append(f"checks/awsign.py: {PROGRAM} isn't built")
        return
    try:
        import botocore  # noqa: F401
    except ImportError:
        return
    if not shutil.which("curl"):
        return
    program = os.path.abspath(PROGRAM)
    with tempfile.TemporaryDirectory() as folder:
        os.chdir(folder)
        os.mkdir("bin")
        os.symlink(program, "bin/awsign")
        os.environ["PATH"] = folder + "/bin:" + os.environ["PATH"]
        small = bytes(range(256)) * 11719
        for name, data in (("small", small), ("word", b"hello"), ("kept", b"kept")):
            with open(name, "wb") as it:
                it.write(data)
        server = Server(("127.0.0.1", 0), Listener)
        threading.Thread(target=server.serve_forever, daemon=True).start()
        tasks(f"http://127.0.0.1:{server.server_address[1]}", hashlib.sha256(small).hexdigest())
        server.shutdown()
        os.chdir("/")


if __name__ == "__main__":
    main()
    for line in failed:
        print(line)
    sys.exit(1 if failed else 0)
