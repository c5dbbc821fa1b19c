"""The servers of bench/serve, and the system's figures about their processes."""
import os
import re
import shutil
import signal
import socket
import subprocess
import sys
import time
from functools import partial
from pathlib import Path
from typing import NamedTuple

PORT, OPERATOR, PEER_PORT, NGINX_PORT, BARE_PORT = 18080, 18081, 18082, 18083, 18084
NGINX_NAME, BARE_NAME = "nginx, static", "bare loop in C"

BODY = (
    '{"request":{"protocol":"3.1","requestid":"a","sessionid":"","app":'
    '[{"appid":"x","version":"1.0","updatecheck":{},"ping":{"r":1}}]}}'
)
RULE = "when bucket < 2000 offer 1; otherwise none;\n"
MANIFEST = """\
server = "prod"
[[app]]
appid = "x"
rule = "x.rule"
[[app.release]]
version = "2.0.0.0"
codebase = "http://dl.example/"
[[app.release.package]]
name = "x.bin"
hash_sha256 = "ba7816bf8f01cfea414140de5dae2223b00361a396177a9cb410ff61f20015ad"
size = 3
required = true
"""
NGINX = """\
daemon off;
worker_processes %d;
pid %s/nginx.pid;
error_log /dev/null;
events { worker_connections 1024; }
http {
    access_log off;
    client_body_temp_path %s;
    proxy_temp_path %s;
    fastcgi_temp_path %s;
    uwsgi_temp_path %s;
    scgi_temp_path %s;
    keepalive_timeout 0;
    server {
        listen 127.0.0.1:%d;
        location / { default_type application/json; return 200 '%s'; }
    }
}
"""


class Kind(NamedTuple):
    """A kind of server: its name, its port, and its command for a number of workers."""

    name: str
    port: int
    words: object


def write_texts(folder):
    """The files that rollout serves."""
    (folder / "x.toml").write_text(MANIFEST)
    (folder / "x.rule").write_text(RULE)


def nginx_words(program, folder, workers):
    """nginx with a static reply: the text of rollout's reply."""
    text = (folder / "body").read_text().replace("'", "\\'").replace("$", "")
    names = [str(folder / f"t{n}") for n in range(5)]
    path = folder / "nginx.conf"
    path.write_text(NGINX % (workers, folder, *names, NGINX_PORT, text))
    return [program, "-c", str(path)]


def kinds(program, peer, bare, folder):
    """The available servers. rollout comes first, because others send its reply."""
    rollout = [str(program), "serve", str(folder / "x.toml"), "--port", str(PORT)]
    rollout += ["--operator", str(OPERATOR), "--workers"]
    found = [
        Kind("rollout", PORT, lambda workers: [*rollout, str(workers)]),
        Kind("rollout, `--log`", PORT, lambda workers: [*rollout, str(workers), "--log"]),
    ]
    if peer:
        words = [str(peer), "serve", str(PEER_PORT)]
        found.append(Kind("plain Rust", PEER_PORT, lambda workers: [*words, str(workers)]))
    if nginx := shutil.which("nginx", path=f"{os.environ['PATH']}:/usr/sbin"):
        found.append(Kind(NGINX_NAME, NGINX_PORT, partial(nginx_words, nginx, folder)))
    if bare:
        loop = [str(bare), str(BARE_PORT)]
        reply = str(folder / "reply")
        found.append(Kind(BARE_NAME, BARE_PORT, lambda workers: [*loop, str(workers), reply]))
    return found


def listens(port):
    with socket.socket() as probe:
        return probe.connect_ex(("127.0.0.1", port)) == 0


def ask(port):
    """One reply to the request, head and body."""
    head = f"Host: h\r\nContent-Length: {len(BODY)}"
    request = f"POST /service/update2/json HTTP/1.1\r\n{head}\r\n\r\n{BODY}"
    with socket.create_connection(("127.0.0.1", port)) as stream:
        stream.sendall(request.encode())
        reply = b""
        while piece := stream.recv(65536):
            reply += piece
    return reply


class Calls:
    """Counts the system calls of a server's processes by `perf`, until `counted` is called. This
    makes each call slower."""

    EVENTS = ["raw_syscalls:sys_enter", "syscalls:sys_enter_futex"]

    def __init__(self, server):
        words = ["perf", "stat", "-x", " ", "-e", ",".join(self.EVENTS)]
        words += ["-p", ",".join(map(str, server.processes()))]
        self.process = subprocess.Popen(words, stderr=subprocess.PIPE, text=True)
        time.sleep(0.5)

    def counted(self):
        """All system calls, and those of futex, by which a thread sleeps or wakes another."""
        self.process.send_signal(signal.SIGINT)
        output = self.process.communicate()[1]
        found = [re.search(rf"^(\d+) .*{event}", output, re.M) for event in self.EVENTS]
        if None in found:
            sys.exit(f"perf counts no system calls: {output}")
        return [int(it[1]) for it in found]


class Used(NamedTuple):
    """What a server has used: user and system time in seconds, and how often its threads waited."""

    user: float
    system: float
    waits: int

    def since(self, before):
        return Used(*(now - then for now, then in zip(self, before)))


class Running:
    """A server with `workers` workers that has sent a first reply, until the end of a `with`."""

    def __init__(self, kind, workers, folder):
        self.kind, self.words, self.folder = kind, kind.words(workers), folder

    def __enter__(self):
        with open(self.folder / "log", "wb") as log:
            self.process = subprocess.Popen(self.words, stdout=subprocess.DEVNULL, stderr=log)
        until = time.monotonic() + 10
        while not listens(self.kind.port):
            if time.monotonic() > until:
                sys.exit(f"{self.kind.name}: nobody listens on port {self.kind.port}")
            time.sleep(0.05)
        reply = ask(self.kind.port)
        if self.kind.name == "rollout":
            (self.folder / "reply").write_bytes(reply)
            (self.folder / "body").write_bytes(reply.split(b"\r\n\r\n", 1)[1])
        time.sleep(0.3)  # time for nginx to start all its workers
        return self

    def __exit__(self, *_):
        self.process.terminate()
        self.process.wait()

    def memory(self):
        """The resident memory of its first process, in KiB."""
        status = Path(f"/proc/{self.process.pid}/status").read_text()
        return int(re.search(r"VmRSS:\s+(\d+)", status)[1])

    def processes(self):
        """Its first process, and the children of that process (nginx's workers)."""
        pid = self.process.pid
        children = Path(f"/proc/{pid}/task/{pid}/children").read_text().split()
        return [pid, *map(int, children)]

    def used(self):
        """What all its processes and threads have used so far."""
        user = system = waits = 0
        tick = os.sysconf("SC_CLK_TCK")
        for pid in self.processes():
            fields = Path(f"/proc/{pid}/stat").read_text().rsplit(")", 1)[1].split()
            user, system = user + int(fields[11]) / tick, system + int(fields[12]) / tick
            for task in Path(f"/proc/{pid}/task").iterdir():
                status = (task / "status").read_text()
                waits += int(re.search(r"^voluntary_ctxt_switches:\s+(\d+)", status, re.M)[1])
        return Used(user, system, waits)
