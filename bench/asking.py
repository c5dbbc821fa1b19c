"""Starts a server and sends it requests by plain sockets over loopback, for the scripts of
bench/."""
import re
import socket
import struct
import subprocess
import tempfile
import time
from pathlib import Path

ROOT = Path(__file__).resolve().parent.parent
ROLLOUT = ROOT / "crates" / "rollout" / "out" / "rlib" / "rollout"
TOOLS = {
    "check", "diff", "simulate", "ask", "report", "why", "stage", "trace", "explain", "order", "completion"
}
HASH = "ba7816bf8f01cfea414140de5dae2223b00361a396177a9cb410ff61f20015ad"
HEAD = "POST /service/update2/json HTTP/1.1\r\nHost: h\r\n"
DAYSTART = re.compile(r'"elapsed_days":\d+,"elapsed_seconds":\d+')


def program_of(command, rollout=ROLLOUT):
    """The program that has a command: `rollout`, or `rollout-tools` next to it."""
    return rollout.with_name("rollout-tools") if command in TOOLS else rollout


# ---- manifests


def array(name, width, length, quota=None):
    more = "" if quota is None else f"quota = {quota}\n"
    return f'[[array]]\nname = "{name}"\nwidth = {width}\nlength = {length}\n{more}'


def app(appid, rule, version):
    """An app with one release of one package."""
    return (
        f'[[app]]\nappid = "{appid}"\nrule = "{rule}"\n'
        f'[[app.release]]\nversion = "{version}"\ncodebase = "http://dl.example/"\n'
        f'[[app.release.package]]\nname = "x.bin"\nhash_sha256 = "{HASH}"\n'
        "size = 3\nrequired = true\n"
    )


def manifest(server, *tables):
    return f'server = "{server}"\n' + "".join(tables)


# ---- a server


def free_ports():
    """Two ports of loopback on which nothing listens."""
    with socket.socket() as one, socket.socket() as other:
        for it in (one, other):
            it.bind(("127.0.0.1", 0))
        return one.getsockname()[1], other.getsockname()[1]


class Server:
    """`rollout serve` on a manifest, with its own ports, until the end of a `with`."""

    # Seconds that a client or an operator waits for a piece of a reply.
    patience = 30

    def __init__(self, program, path, workers, *options, **how):
        self.port, self.operator = free_ports()
        ports = ["--port", str(self.port), "--operator", str(self.operator)]
        self.words = [str(program), "serve", str(path), *ports, "--workers", str(workers)]
        self.words += options
        self.how = how

    def __enter__(self):
        self.errors = tempfile.TemporaryFile()
        how = {"stdout": subprocess.PIPE, "stderr": self.errors, "text": True}
        self.process = subprocess.Popen(self.words, **(how | self.how))
        self.first = self.process.stdout.readline()
        return self

    def __exit__(self, *_):
        if self.process.poll() is None:
            self.process.kill()
        self.process.wait()
        self.process.stdout.close()
        self.errors.close()

    def printed(self):
        """What it has written to standard error so far."""
        self.errors.seek(0)
        return self.errors.read().decode()

    def connect(self):
        return socket.create_connection(("127.0.0.1", self.port), timeout=self.patience)

    def exchange(self, data):
        """The reply to these bytes."""
        with self.connect() as stream:
            stream.sendall(data)
            return rest(stream)

    def connect_operator(self):
        return socket.create_connection(("127.0.0.1", self.operator), timeout=self.patience)

    def ask(self, line):
        """The reply of the operator's port to a line."""
        with self.connect_operator() as stream:
            stream.sendall(line.encode() + b"\n")
            return rest(stream).decode()

    def of_status(self, name):
        """A number in the process's status, such as VmRSS (in KiB) or Threads."""
        text = Path(f"/proc/{self.process.pid}/status").read_text()
        return int(re.search(rf"^{name}:\s+(\d+)", text, re.M)[1])

    def descriptors(self):
        return len(list(Path(f"/proc/{self.process.pid}/fd").iterdir()))

    def ends(self):
        """Its exit status after `stop`."""
        return self.process.wait(self.patience)


# ---- what clients send and receive


def request(*appids, more=""):
    apps = ",".join(f'{{"appid":"{it}","version":"1.0","updatecheck":{{}}}}' for it in appids)
    return f'{{"request":{{"protocol":"3.1",{more}"app":[{apps}]}}}}'


def post(body):
    data = body.encode()
    return f"{HEAD}Content-Length: {len(data)}\r\n\r\n".encode() + data


def rest(stream):
    """All bytes until the other side closes."""
    pieces = []
    while piece := stream.recv(65536):
        pieces.append(piece)
    return b"".join(pieces)


def reset(stream):
    """Resets the connection: the other side's next call on it fails."""
    stream.setsockopt(socket.SOL_SOCKET, socket.SO_LINGER, struct.pack("ii", 1, 0))
    stream.close()


def whole(reply):
    """The status and the text of a reply whose length is as it says, or None."""
    head, blank, text = reply.partition(b"\r\n\r\n")
    found = re.match(rb"HTTP/1\.1 (\d{3}) .*\r\nContent-Length: (\d+)\r\n", head + b"\r\n", re.S)
    if not blank or found is None or int(found[2]) != len(text):
        return None
    return int(found[1]), text.decode()


def without_moment(text):
    return DAYSTART.sub('"elapsed_days":D,"elapsed_seconds":S', text)


def until(moment):
    """Sleeps until this moment of the monotonic clock."""
    time.sleep(max(0, moment - time.monotonic()))
