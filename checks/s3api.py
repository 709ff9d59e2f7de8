#!/usr/bin/env python3
"""Tasks from the shell with the built program `awsign` against OpenStack Swift with its middleware `s3api`, which computes each signature
again by code of its own: `awsign` signs, curl sends. Debian's packages swift-proxy, swift-account, swift-container and swift-object have
it; where they aren't installed this checks nothing. The servers run in one process of this script, in a folder that is removed, on
loopback, with objects in memory. For each task that goes wrong there is a line; the status is then 1.
AWSIGN_BIG is how many bytes the big file has: they are held in memory."""
import array
import hashlib
import os
import shutil
import subprocess
import sys
import tempfile
import time

PROGRAM = os.environ.get("AWSIGN") or os.path.join(
    os.path.dirname(os.path.abspath(__file__)), "..", "crates", "awsign", "out", "awsign")
# The middleware `tempauth` takes an account and a user as the key's id.
KEY, SECRET, REGION = "test:tester", "testing", "us-east-1"
BIG = int(os.environ.get("AWSIGN_BIG", 100_000_000))
PROXY = """
[pipeline:main]
pipeline = s3api tempauth proxy-server
[app:proxy-server]
use = egg:swift#proxy
account_autocreate = true
allow_account_management = true
[filter:tempauth]
use = egg:swift#tempauth
user_test_tester = testing .admin
[filter:s3api]
use = egg:swift#s3api
location = us-east-1
"""
failed = []


class Cache:
    """What the middleware keeps in memcached, in this process."""

    def __init__(self):
        self.kept = {}

    def get(self, key, **_):
        return self.kept.get(key)

    def set(self, key, value, **_):
        self.kept[key] = value

    def incr(self, key, delta=1, **_):
        self.kept[key] = int(self.kept.get(key, 0)) + delta
        return self.kept[key]

    def delete(self, key, **_):
        self.kept.pop(key, None)


def serve(folder):
    """Runs Swift's servers for ever, and writes the port of its proxy into a file `port` of the folder."""
    import eventlet
    import eventlet.wsgi
    eventlet.monkey_patch()
    from swift.account.server import AccountController
    from swift.common import utils
    from swift.common.ring import RingData
    from swift.common.storage_policy import reload_storage_policies
    from swift.common.wsgi import SwiftHttpProtocol, loadapp
    from swift.container.server import ContainerController
    from swift.obj.mem_server import ObjectController

    utils.SWIFT_CONF_FILE = os.path.join(folder, "swift.conf")
    with open(utils.SWIFT_CONF_FILE, "w") as it:
        it.write("[swift-hash]\nswift_hash_path_prefix = a\nswift_hash_path_suffix = b\n")
    utils.HASH_PATH_PREFIX, utils.HASH_PATH_SUFFIX = b"a", b"b"
    reload_storage_policies()
    os.makedirs(os.path.join(folder, "sda1", "tmp"))
    proxy = os.path.join(folder, "proxy-server.conf")
    with open(proxy, "w") as it:
        it.write(f"[DEFAULT]\nswift_dir = {folder}\n{PROXY}")
    sockets = {name: eventlet.listen(("127.0.0.1", 0)) for name in ("account", "container", "object", "proxy")}
    for name in ("account", "container", "object"):
        port = sockets[name].getsockname()[1]
        device = {"id": 0, "zone": 1, "region": 1, "device": "sda1", "ip": "127.0.0.1", "port": port,
                  "replication_ip": "127.0.0.1", "replication_port": port, "weight": 1.0, "meta": ""}
        RingData([array.array("H", [0, 0])], [device], 31).save(os.path.join(folder, name + ".ring.gz"))
    conf = {"devices": folder, "swift_dir": folder, "mount_check": "false"}
    logger, cache = utils.get_logger({"log_name": "swift"}), Cache()
    inner = loadapp(proxy, global_conf={"log_name": "proxy"})

    def app(env, start):
        env["swift.cache"] = cache
        return inner(env, start)

    apps = {"account": AccountController(conf, logger), "container": ContainerController(conf, logger),
            "object": ObjectController(conf, logger), "proxy": app}
    for name, it in apps.items():
        eventlet.spawn(eventlet.wsgi.server, sockets[name], it, open(os.devnull, "w"), protocol=SwiftHttpProtocol)
    with open(os.path.join(folder, "port.new"), "w") as it:
        it.write(str(sockets["proxy"].getsockname()[1]))
    os.rename(os.path.join(folder, "port.new"), os.path.join(folder, "port"))
    while True:
        eventlet.sleep(3600)


def interpreter():
    """A Python that has Swift, if there is one."""
    for it in (sys.executable, "/usr/bin/python3"):
        if os.access(it, os.X_OK) and not subprocess.run([it, "-c", "import swift.obj.mem_server"], capture_output=True).returncode:
            return it
    return None


def shell(task, command, wanted, **more):
    """Runs one command of a shell, whose output has to be this."""
    env = {"PATH": os.environ["PATH"], "HOME": os.getcwd(), "AWS_ACCESS_KEY_ID": KEY, "AWS_SECRET_ACCESS_KEY": SECRET, "AWS_REGION": REGION, **more}
    run = subprocess.run(["sh", "-c", command], capture_output=True, env=env, timeout=600)
    if run.stdout.decode(errors="replace") != wanted:
        failed.append(f"{task}: wrote {run.stdout[:300]!r} and said {run.stderr[:300]!r}")


def tasks(at, at_body):
    """The tasks, each one command."""
    curl = "curl -sS -K - -o /dev/null -w '%{http_code}'"
    shell("a bucket", f"awsign sign PUT {at}/bucket --s3 | {curl}", "200")
    shell("put 3 MB", f"awsign sign PUT {at}/bucket/small --s3 --data small | {curl}", "200")
    if BIG:
        with open("big", "wb") as it:
            it.truncate(BIG)
        shell("put a big file", f"awsign sign PUT {at}/bucket/big --s3 --data big | {curl}", "200")
        os.remove("big")
    shell("get", f"awsign sign GET {at}/bucket/small --s3 | curl -sS -K - | sha256sum | cut -c1-64", at_body + "\n")
    shell("head", f"awsign sign HEAD {at}/bucket/small --s3 | {curl} | tail -c 3", "200")
    shell("put a word", f"awsign sign PUT {at}/bucket/a%20b --s3 --data word -H 'x-amz-meta-a:  two  words' -H 'content-type: text/plain' | {curl}", "200")
    shell("list with a query", f"awsign sign GET '{at}/bucket?list-type=2&prefix=a%20&delimiter=%2F' --s3 | curl -sS -K - | grep -o '<Key>.*</Key>'", "<Key>a b</Key>\n")
    # Swift spells a path anew before it computes the signature, so each byte that may be escaped has to be.
    for key in ("a%2Bb", "a//b", "x/../b", "x/./b", "%C3%A4%E2%82%AC", "%28a%29%21"):
        shell(f"key {key}", f"""awsign sign PUT "$URL/bucket/$NAME" --s3 --data word | {curl}""", "200", URL=at, NAME=key)
        shell(f"key {key} again", """awsign sign GET "$URL/bucket/$NAME" --s3 | curl -sS -K -""", "hello", URL=at, NAME=key)
    for key in ("odd key+ü", "日本/€.txt", "a#b", "(a)!$&'*,;=:@~[]", "100%"):
        shell(f"raw key {key}", f"""awsign sign PUT "$URL/bucket/$KEY" --s3 --data word --encode-path | {curl}""", "200", URL=at, KEY=key)
        shell(f"raw key {key} again", """awsign sign GET "$URL/bucket/$KEY" --s3 --encode-path | curl -sS -K -""", "hello", URL=at, KEY=key)
    shell("delete", f"awsign sign DELETE {at}/bucket/a%2Bb --s3 | {curl}", "204")
    shell("presigned get", f"curl -sS \"$(awsign presign GET {at}/bucket/a%20b --s3 --expires 10m)\"", "hello")
    shell("presigned put", f"curl -sS -o /dev/null -w '%{{http_code}}' -T word \"$(awsign presign PUT {at}/bucket/up --s3 --expires 10m)\"", "200")
    shell("a presigned put again", f"awsign sign GET {at}/bucket/up --s3 | curl -sS -K -", "hello")
    for task, edit in (("a path", "s,/bucket/small,/bucket/other,"), ("a signature", "s,Signature=.,Signature=x,"), ("a header", "s,^header = .x-amz-date: .*,,")):
        shell(f"altered: {task}", f"awsign sign GET {at}/bucket/small --s3 | sed '{edit}' | {curl}", "403")
    shell("another body", f"awsign sign PUT {at}/bucket/small --s3 --data word | sed 's,\"word\",\"hallo\",' | {curl}", "400")
    shell("another secret", f"awsign sign GET {at}/bucket/small --s3 | {curl}", "403", AWS_SECRET_ACCESS_KEY="other")
    shell("an altered URL", f"curl -sS -o /dev/null -w '%{{http_code}}' \"$(awsign presign GET {at}/bucket/a%20b --s3 --expires 10m | sed s,/bucket/a%20b,/bucket/small,)\"", "403")
    shell("a request of another day", f"awsign sign GET {at}/bucket/small --s3 --at 1440938160 | {curl}", "403")


def run_tasks(python):
    """The tasks with servers in a folder of their own."""
    program = os.path.abspath(PROGRAM)
    with tempfile.TemporaryDirectory() as folder:
        os.chdir(folder)
        os.mkdir("bin")
        os.mkdir("swift")
        os.symlink(program, "bin/awsign")
        os.environ["PATH"] = folder + "/bin:" + os.environ["PATH"]
        small = bytes(range(256)) * 11719
        for name, data in (("small", small), ("word", b"hello"), ("hallo", b"hallo")):
            with open(name, "wb") as it:
                it.write(data)
        with open("said", "wb") as said:
            server = subprocess.Popen([python, os.path.abspath(SCRIPT), "--serve", folder + "/swift"], stdout=said, stderr=said)
        try:
            for _ in range(600):
                if os.path.exists("swift/port") or server.poll() is not None:
                    break
                time.sleep(0.1)
            if not os.path.exists("swift/port"):
                failed.append("Swift didn't start: " + open("said", errors="replace").read()[-300:])
                return
            tasks(f"http://127.0.0.1:{open('swift/port').read()}", hashlib.sha256(small).hexdigest())
        finally:
            server.terminate()
            server.wait()
            os.chdir("/")


SCRIPT = os.path.abspath(__file__)

if __name__ == "__main__":
    if sys.argv[1:2] == ["--serve"]:
        serve(sys.argv[2])
    found = interpreter()
    if found and shutil.which("curl"):
        if os.access(PROGRAM, os.X_OK):
            run_tasks(found)
        else:
            failed.append(f"checks/s3api.py: {PROGRAM} isn't built")
    for line in failed:
        print(line)
    sys.exit(1 if failed else 0)
