"""A folder that stands in for a host: an install, a manifest, and the files of examples/deploy with
only paths and ports changed. A server is started in it by its unit's commands. Helpers shared by
the other checks are also here.
"""
import contextlib
import os
import re
import shlex
import shutil
import signal
import socket
import subprocess
import sys
import time
from pathlib import Path

ROOT = Path(__file__).resolve().parent.parent
DEPLOY = ROOT / "examples" / "deploy"
STAGED = ROOT / "examples" / "staged"
PORTS = {"8080": "18094", "8081": "18095", "8090": "18104", "8091": "18105"}
FOLDERS = ["etc/rollout", "etc/ssl/private", "etc/nginx/conf.d", "var/log/rollout",
           "var/lib/rollout", "run"]
PATIENCE = 30
ASK = '{"request":{"protocol":"3.1","app":[{"appid":"editor","version":"1.9","updatecheck":{}}]}}'
HEAD = f"POST /service/update2/json HTTP/1.1\r\nContent-Length: {len(ASK)}\r\n\r\n"
OFFERED, NOTHING = '"version":"2.0.4"', '"status":"noupdate"'


class Skipped(Exception):
    """Why a check can't be made here."""


class Wrong(Exception):
    """A failed check, with the reason."""


def needs(*commands):
    for command in commands:
        if not shutil.which(command):
            raise Skipped(f"no {command}")


def needs_root():
    if os.geteuid() != 0:
        raise Skipped("not root")


def called(*words, **how):
    """The status and all output of a command."""
    done = subprocess.run(words, capture_output=True, text=True, timeout=PATIENCE, **how)
    return done.returncode, done.stdout + done.stderr


def child_of(process):
    """The child process of a wrapper such as `unshare`; None if the wrapper has ended."""
    children = ["pgrep", "-P", str(process.pid)]
    awaited(lambda: called(*children)[0] == 0 or process.poll() is not None)
    return int((called(*children)[1].split() or [0])[0]) or None


def awaited(call, seconds=PATIENCE):
    """Whether the call is true within this time."""
    until = time.monotonic() + seconds
    while not call():
        if time.monotonic() > until:
            return False
        time.sleep(0.05)
    return True


def section(page, title):
    """The code blocks of a section of a page."""
    text = (ROOT / "docs" / page).read_text()
    part = re.search(rf"^## {title}\n(.*?)(?=^## |\Z)", text, re.M | re.S)[1]
    return re.findall(r"^```\w*\n(.*?)^```", part, re.M | re.S)


def placed(text, top):
    """A text of deploy or of the pages, with this host's paths and ports."""
    text = re.sub(r"(?<![\w/.])/(etc|var|opt|run)/", rf"{top}/\1/", text)
    return re.sub(rf"\b({'|'.join(PORTS)})\b", lambda found: PORTS[found[0]], text)


class Host:
    """A folder that stands in for a host's root, with an install, a manifest and files of
    deploy."""

    def __init__(self, top):
        self.top = top
        for name in FOLDERS:
            (top / name).mkdir(parents=True)
        install = [sys.executable, str(ROOT / "build"), "--install", str(top / "opt" / "rollout")]
        if wrong := subprocess.run(install, capture_output=True, text=True).stderr.splitlines():
            if "installed" not in wrong[-1]:
                raise OSError(wrong[-1])
        for file in STAGED.iterdir():
            shutil.copy(file, top / "etc" / "rollout")
        self.serve_from("manifest.toml")

    def serve_from(self, name):
        """Makes this manifest the served one, in the way of OPERATING."""
        folder = self.top / "etc" / "rollout"
        shutil.copy(folder / name, folder / "current.toml.new")
        (folder / "current.toml.new").rename(folder / "current.toml")

    def file(self, name, instance=""):
        """Writes a file of deploy with this host's paths and ports, and returns its path. A
        template unit gets this instance."""
        text = (DEPLOY / name).read_text().replace("%i", instance)
        path = self.top / "etc" / name.replace("@", f"@{instance}")
        path.write_text(placed(text, self.top))
        return path

    def command(self, unit, name, **environment):
        """The status and all output of a unit's command, called as systemd does."""
        how = {"cwd": self.top / "etc" / "rollout", "env": {"PATH": "/usr/bin:/bin", **environment}}
        return called(*words_of(unit, name), **how)

    @contextlib.contextmanager
    def started(self, unit, *before):
        """The server of a unit, once it is ready, until the end of a `with`. The words in `before`
        are a command that runs it."""
        words = [*before, *words_of(unit, "ExecStart")]
        with open(self.log(), "ab") as log:
            how = {"cwd": self.top / "etc" / "rollout", "stdout": subprocess.DEVNULL, "stderr": log}
            server = subprocess.Popen(words, start_new_session=True, **how)
        try:
            ready = self.command(unit, "ExecStartPost", MAINPID=str(server.pid))
            if ready != (0, ""):
                raise OSError(f"the server isn't ready: {ready}")
            yield server
        finally:
            with contextlib.suppress(ProcessLookupError):
                os.killpg(server.pid, signal.SIGKILL)
            server.wait()

    def log(self):
        return self.top / "var" / "log" / "rollout" / "log"

    def counters(self):
        """The text of the file of counters; empty if there is none."""
        file = self.top / "var" / "lib" / "rollout" / "counters"
        return file.read_text() if file.exists() else ""


def line_of(unit, name):
    """A command of a unit, unchanged except for the `-` before it."""
    text = unit.read_text().replace("\\\n", " ")
    [line] = re.findall(rf"^{name}=-?(.*)$", text, re.M)
    return line.replace("$$", "$")


def words_of(unit, name):
    """The words of a unit's command, split as systemd does."""
    return shlex.split(line_of(unit, name))


def connect():
    return socket.create_connection(("127.0.0.1", int(PORTS["8080"])), timeout=PATIENCE)


def rest(stream):
    reply = b""
    while piece := stream.recv(65536):
        reply += piece
    return reply.decode()


def reply():
    with connect() as stream:
        stream.sendall((HEAD + ASK).encode())
        return rest(stream)
