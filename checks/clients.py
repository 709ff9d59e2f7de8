#!/usr/bin/env python3
"""Records what clients that people have send to a listener on loopback, and asks the built program of the cases of what
checks who signed it, of each request as it came and of one with another path; and of bodies in signed chunks what they hold, as
they came and with another byte. It runs outside the gate:

    checks/clients.py [--lines | --chunk-lines]

The program is crates/tool_check_cases/out/tool_check_cases. A client that isn't installed is skipped, and named; --lines prints
the door's case lines, --chunk-lines those of bodies. Clients: curl (--aws-sigv4), botocore, awscli, s3cmd, rclone, Ruby's
aws-sigv4, the AWS Common Runtime (awscrt), and from Go the AWS SDK and minio's client, by Debian's packages golang-go,
golang-github-aws-aws-sdk-go-v2-dev and golang-github-minio-minio-go-v7-dev.
"""
import calendar
import hashlib
import http.server
import os
import pathlib
import re
import shutil
import subprocess
import sys
import tempfile
import threading
import time
import urllib.parse

ROOT = pathlib.Path(__file__).resolve().parent.parent
PROGRAM = ROOT / "crates/tool_check_cases/out/tool_check_cases"
KEY, SECRET = "AKIDEXAMPLE", "wJalrXUtnFEMI/K7MDENG+bPxRfiCYEXAMPLEKEY"
RECORDED = []


class Listener(http.server.BaseHTTPRequestHandler):
    """Keeps each request, and answers it with an empty body."""

    def take(self):
        length = int(self.headers.get("content-length", 0))
        RECORDED.append((self.command, self.path, list(self.headers.items()), self.rfile.read(length)))
        self.send_response(200)
        self.send_header("content-length", "0")
        self.send_header("etag", '"d41d8cd98f00b204e9800998ecf8427e"')
        self.end_headers()

    do_GET = do_PUT = do_POST = do_HEAD = do_DELETE = take

    def log_message(self, *words):
        pass


def run(words, folder, **more):
    """Runs a client for half a minute at most. Whatever it makes of the answer, its request counts."""
    environment = {name: value for name, value in os.environ.items() if not name.startswith("AWS_")}
    environment.update({"AWS_ACCESS_KEY_ID": KEY, "AWS_SECRET_ACCESS_KEY": SECRET, "AWS_DEFAULT_REGION": "us-east-1", "AWS_MAX_ATTEMPTS": "1",
                        "AWS_CONFIG_FILE": f"{folder}/none", "AWS_SHARED_CREDENTIALS_FILE": f"{folder}/none", "AWS_EC2_METADATA_DISABLED": "true",
                        "RCLONE_CONFIG": "/dev/null"})
    environment.update(more)
    subprocess.run(words, env=environment, stdin=subprocess.DEVNULL, stdout=subprocess.DEVNULL, stderr=subprocess.DEVNULL, timeout=30)


def by_curl(at, folder):
    """Its parameters are in order: curl before 8.3 signs them as they stand, which nobody accepts otherwise."""
    if not shutil.which("curl"):
        return False
    run(["curl", "-s", "--aws-sigv4", "aws:amz:us-east-1:execute-api", "-u", f"{KEY}:{SECRET}", f"{at}/items?a=1&b=2"], folder)
    return "execute-api"


def by_botocore(at, folder):
    code = ("import botocore.session, urllib.request\nfrom botocore.config import Config\n"
            "config = Config(signature_version='s3v4', s3={'addressing_style': 'path'})\n"
            f"client = botocore.session.get_session().create_client('s3', endpoint_url='{at}', config=config)\n"
            "try: client.put_object(Bucket='bucket', Key='a b/c', Body=b'hello')\nexcept Exception: pass\n"
            "url = client.generate_presigned_url('get_object', Params={'Bucket': 'bucket', 'Key': 'a b/c'}, ExpiresIn=900)\n"
            "urllib.request.urlopen(url).read()\n")
    if subprocess.run([sys.executable, "-c", "import botocore"], capture_output=True).returncode:
        return False
    run([sys.executable, "-c", code], folder)
    return "s3"


def by_awscli(at, folder):
    if not shutil.which("aws"):
        return False
    run(["aws", "--endpoint-url", at, "s3api", "list-objects-v2", "--bucket", "bucket", "--prefix", "a b"], folder)
    return "s3"


def by_s3cmd(at, folder):
    if not shutil.which("s3cmd"):
        return False
    host = at.removeprefix("http://")
    pathlib.Path(folder, "hello").write_bytes(b"hello")
    run(["s3cmd", "-c", "/dev/null", f"--access_key={KEY}", f"--secret_key={SECRET}", "--region=us-east-1", "--no-ssl", f"--host={host}", f"--host-bucket={host}",
         "put", f"{folder}/hello", "s3://bucket/a"], folder)
    return "s3"


def by_rclone(at, folder):
    if not shutil.which("rclone"):
        return False
    run(["rclone", "--retries", "1", "--low-level-retries", "1", "lsf", ":s3:bucket/a"], folder, RCLONE_S3_PROVIDER="Other", RCLONE_S3_ENDPOINT=at,
        RCLONE_S3_REGION="us-east-1", RCLONE_S3_ACCESS_KEY_ID=KEY, RCLONE_S3_SECRET_ACCESS_KEY=SECRET)
    return "s3"


def by_ruby(at, folder):
    code = ("require 'aws-sigv4'; require 'net/http'\n"
            f"s = Aws::Sigv4::Signer.new(service: 'execute-api', region: 'us-east-1', access_key_id: '{KEY}', secret_access_key: '{SECRET}')\n"
            f"u = URI('{at}/items?b=2&a=1'); h = s.sign_request(http_method: 'POST', url: u, body: 'hello').headers\n"
            "Net::HTTP.start(u.host, u.port) { |c| q = Net::HTTP::Post.new(u); h.each { |k, v| q[k] = v }; q.body = 'hello'; c.request(q) }\n")
    if not shutil.which("ruby") or subprocess.run(["ruby", "-e", "require 'aws-sigv4'"], capture_output=True).returncode:
        return False
    run(["ruby", "-e", code], folder)
    return "execute-api"


CRT = """
import http.client, io
from awscrt import auth
from awscrt.http import HttpHeaders, HttpRequest
def send(kind, method, body, value, header, expiry):
    request = HttpRequest(method, "/bucket/a%20b/c?b=2&a=1", HttpHeaders([("Host", HOST)]), io.BytesIO(body))
    config = auth.AwsSigningConfig(
        algorithm=auth.AwsSigningAlgorithm.V4, signature_type=kind, credentials_provider=auth.AwsCredentialsProvider.new_static(KEY, SECRET), region="us-east-1",
        service="s3", use_double_uri_encode=False, should_normalize_uri_path=False, signed_body_value=value, signed_body_header_type=header,
        expiration_in_seconds=expiry)
    signed = auth.aws_sign_request(request, config).result(10)
    link = http.client.HTTPConnection(HOST)
    link.putrequest(method, signed.path, skip_host=True, skip_accept_encoding=True)
    for name, value in [*signed.headers, *([("content-length", str(len(body)))] if body else [])]: link.putheader(name, value)
    link.endheaders(body or None)
    link.getresponse().read()
send(auth.AwsSignatureType.HTTP_REQUEST_HEADERS, "PUT", b"hello", None, auth.AwsSignedBodyHeaderType.X_AMZ_CONTENT_SHA_256, None)
send(auth.AwsSignatureType.HTTP_REQUEST_QUERY_PARAMS, "GET", b"", auth.AwsSignedBodyValue.UNSIGNED_PAYLOAD, auth.AwsSignedBodyHeaderType.NONE, 900)
"""

SDK_FOR_GO = """
package main
import ("context"; "net/http"; "os"; "strings"; "github.com/aws/aws-sdk-go-v2/aws"; "github.com/aws/aws-sdk-go-v2/credentials"
  "github.com/aws/aws-sdk-go-v2/service/s3")
func main() {
  client := s3.New(s3.Options{Region: "us-east-1", Credentials: credentials.NewStaticCredentialsProvider(os.Args[2], os.Args[3], ""),
    EndpointResolver: s3.EndpointResolverFromURL(os.Args[1]), UsePathStyle: true})
  bucket, key := aws.String("bucket"), aws.String("a b/c")
  client.PutObject(context.TODO(), &s3.PutObjectInput{Bucket: bucket, Key: key, Body: strings.NewReader("hello")})
  signed, err := s3.NewPresignClient(client).PresignGetObject(context.TODO(), &s3.GetObjectInput{Bucket: bucket, Key: key})
  if err == nil { http.Get(signed.URL) }
}
"""

MINIO = """
package main
import ("context"; "io"; "net/http"; "os"; "strings"; "time"; "github.com/minio/minio-go/v7"; "github.com/minio/minio-go/v7/pkg/credentials"
  "github.com/minio/minio-go/v7/pkg/signer")
func main() {
  at, key, secret := os.Args[1], os.Args[2], os.Args[3]
  client, err := minio.New(strings.TrimPrefix(at, "http://"), &minio.Options{Creds: credentials.NewStaticV4(key, secret, ""), Region: "us-east-1"})
  if err == nil { client.PutObject(context.TODO(), "bucket", "a b/c", strings.NewReader("hello"), 5, minio.PutObjectOptions{}) }
  request, err := http.NewRequest("PUT", at + "/bucket/trailer", io.NopCloser(strings.NewReader("hello")))
  if err == nil {
    request.Trailer = http.Header{"X-Amz-Checksum-Crc32c": []string{"mnG7TA=="}}
    http.DefaultClient.Do(signer.StreamingSignV4(request, key, secret, "", "us-east-1", 5, time.Now().UTC()))
  }
}
"""


def by_crt(at, folder):
    """Debian's package is for Debian's own Python."""
    for python in (sys.executable, "/usr/bin/python3"):
        if not subprocess.run([python, "-c", "import awscrt"], capture_output=True).returncode:
            run([python, "-c", f"HOST, KEY, SECRET = {at.removeprefix('http://')!r}, {KEY!r}, {SECRET!r}\n{CRT}"], folder)
            return "s3"
    return False


def by_program_in_go(at, folder, text):
    """Builds the program over Debian's sources, half a minute or more, and runs it."""
    if not shutil.which("go"):
        return False
    pathlib.Path(folder, "main.go").write_text(text)
    environment = {**os.environ, "GO111MODULE": "off", "GOPATH": "/usr/share/gocode"}
    if subprocess.run(["go", "build", "-o", f"{folder}/main", f"{folder}/main.go"], env=environment, capture_output=True).returncode:
        return False
    run([f"{folder}/main", at, KEY, SECRET], folder)
    return "s3"


def by_go(at, folder):
    return by_program_in_go(at, folder, SDK_FOR_GO)


def by_minio(at, folder):
    return by_program_in_go(at, folder, MINIO)


def escaped(text):
    """A word of a case line."""
    return "".join(c if " " <= c <= "~" and c != "%" else "".join(f"%{b:02X}" for b in c.encode()) for c in text)


def case_line(at, request, name, answer, path=None):
    """The case of a request, with the answer that is wanted of it."""
    method, target, headers, body = request
    words = ["door", f"{method} {at}{path or target}"] + [f"header {key}: {value}" for key, value in headers]
    words += [f"body {body.hex()}"] * bool(body) + [f"name {name}", f"at {moment(request)}"] + ["for-s3"] * (name == "s3")
    return "\t".join(escaped(word) for word in words) + "\t" + escaped(answer)


def carried(request):
    """The form, the names, the date, the expiry and the signature that a request carries, and the text of its payload."""
    _, target, headers, _ = request
    fields = {key.lower(): value for key, value in headers}
    query = dict(urllib.parse.parse_qsl(urllib.parse.urlsplit(target).query, keep_blank_values=True))
    if "authorization" in fields:
        names, signature = re.search(r"SignedHeaders=([^,]*), ?Signature=(\w+)", fields["authorization"]).groups()
        return "Headers", names, fields["x-amz-date"], None, signature, fields.get("x-amz-content-sha256")
    return "QueryParams", query["X-Amz-SignedHeaders"], query["X-Amz-Date"], int(query["X-Amz-Expires"]), query["X-Amz-Signature"], None


def moment(request):
    return calendar.timegm(time.strptime(carried(request)[2], "%Y%m%dT%H%M%SZ"))


def admitted(request, name):
    """What the door has to tell of the request: all of it stands in the request."""
    place, names, _, expiry, signature, payload = carried(request)
    second = moment(request)
    form = {"UNSIGNED-PAYLOAD": "Unsigned", "STREAMING-UNSIGNED-PAYLOAD-TRAILER": "UnsignedChunks"}.get(payload, "Digest")
    if payload and payload.startswith("STREAMING-AWS4"):
        form = "SignedChunks"
    if place == "QueryParams" and name == "s3" and payload is None:
        form = "Unsigned"
    until = second + (expiry if expiry is not None else 901)
    return f"{KEY} {place} {second} {until} {names} {form} {signature}"


MISMATCH = "Mismatch another signature than its own: SignatureDoesNotMatch 403"


def altered(target):
    """The target with another path."""
    path, mark, query = target.partition("?")
    return path + "x" + mark + query


def chunk_case(request, body, answer):
    """The case of a body in signed chunks, with the answer that is wanted of it."""
    fields = {key.lower(): value for key, value in request[2]}
    words = ["chunks", f"seed {carried(request)[4]}", f"secret {SECRET}", f"at {moment(request)}", f"length {fields['x-amz-decoded-content-length']}"]
    if "x-amz-trailer" in fields:
        words += ["trailers", f"announced {fields['x-amz-trailer']}"]
    return "\t".join(escaped(word) for word in [*words, f"piece {body.decode()}"]) + "\t" + answer


def chunk_lines(request):
    """The case lines of a body in signed chunks: as it came, and with another byte."""
    body, whole = request[3], f"5 bytes {hashlib.sha256(b'hello').hexdigest()} | whole"
    for name, value in re.findall(rb"\r\n(x-amz-checksum-\w+):(\S+)", body):
        whole += f" | {name.decode()}: {value.decode()}"
    mismatch = f"0 bytes {hashlib.sha256(b'').hexdigest()} | Mismatch(1) chunk 1 has another signature than its own"
    return [chunk_case(request, body, whole), chunk_case(request, body.replace(b"hello", b"hellp"), mismatch)]


def lines_of(at, client):
    """The case lines of what a client sends for the door, and of its bodies in signed chunks; none where it isn't installed."""
    RECORDED.clear()
    with tempfile.TemporaryDirectory() as folder:
        name = client(at, folder)
    lines, chunks, seen = [], [], set()
    for request in RECORDED if name else []:
        if request[:2] not in seen:
            seen.add(request[:2])
            wanted = admitted(request, name)
            lines.append(case_line(at, request, name, wanted))
            lines.append(case_line(at, request, name, MISMATCH, altered(request[1])))
            if (carried(request)[5] or "").startswith("STREAMING-AWS4-HMAC-SHA256-PAYLOAD"):
                chunks += chunk_lines(request)
    return lines, chunks


def passes(who, lines):
    """Whether the built program finds each wanted answer."""
    told = subprocess.run([PROGRAM], input="\n".join([*forms(), *lines]) + "\n", capture_output=True, text=True)
    good = told.returncode == 0 and told.stdout.strip() == f"{len(lines)} cases"
    print(f"{who}: {len(lines)} cases {'passed' if good else 'FAILED'}")
    if not good:
        print(told.stderr, file=sys.stderr)
    return good


def forms():
    """The lines that say which words the program's cases may have."""
    return [line for line in (ROOT / "crates/tool_check_cases/stdin").read_text().split("\n") if line.startswith("form\t")]


def main():
    server = http.server.ThreadingHTTPServer(("127.0.0.1", 0), Listener)
    threading.Thread(target=server.serve_forever, daemon=True).start()
    at, failed = f"http://127.0.0.1:{server.server_port}", []
    for client in (by_curl, by_botocore, by_awscli, by_s3cmd, by_rclone, by_ruby, by_crt, by_go, by_minio):
        who = client.__name__.removeprefix("by_")
        lines, chunks = lines_of(at, client)
        if "--lines" in sys.argv or "--chunk-lines" in sys.argv:
            print("\n".join(lines if "--lines" in sys.argv else chunks))
        elif not lines:
            print(f"{who}: skipped, it isn't installed or sent nothing")
        elif not passes(who, lines + chunks):
            failed.append(who)
    server.shutdown()
    sys.exit(f"######## CHECK FAILED: another answer to what these send: {', '.join(failed)}" if failed else 0)


if __name__ == "__main__":
    main()
