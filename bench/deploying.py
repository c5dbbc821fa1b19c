"""Checks the units of examples/deploy and the rotation of their log. Only paths and ports are
changed. The server is installed and run by the unit's commands.

Each check returns nothing, or what was wrong. If a command isn't installed, the check is skipped
with that name.
"""
import os
import re
import signal
import socket
import subprocess
import sys
import time

from booting import BOOTED
from confining import CONFINED
from hosts import ASK, DEPLOY, HEAD, NOTHING, OFFERED, PATIENCE, PORTS, Host
from hosts import Skipped, awaited, called, connect, needs, reply, rest, words_of
from proxying import PROXIED

# The highest exposure level, in systemd's scale to 100.
MOST_EXPOSED = 12
UNITS = [("rollout.service", ""), ("rollout@.service", "8"), ("rollout@.service", "9")]


def verified_units(folder):
    """What systemd reports about the units."""
    needs("systemd-analyze")
    host = Host(folder / "verified")
    for name, instance in UNITS:
        unit = host.file(name, instance)
        found = called("systemd-analyze", "verify", "--man=no", str(unit))
        if found != (0, ""):
            return f"{found}"
        words = ["security", "--offline=yes", f"--threshold={MOST_EXPOSED}", "--no-pager"]
        status, text = called("systemd-analyze", *words, str(unit))
        if status != 0:
            return text.splitlines()[-1]


def page_units(folder):
    """What systemd reports about the unit of the page and about its timer, and what the unit's
    command writes."""
    needs("systemd-analyze")
    host = Host(folder / "page")
    service, timer = (host.file(f"rollout-report.{it}") for it in ("service", "timer"))
    found = called("systemd-analyze", "verify", "--man=no", str(service), str(timer))
    if found != (0, ""):
        return f"{found}"
    words = ["security", "--offline=yes", f"--threshold={MOST_EXPOSED}", "--no-pager"]
    status, text = called("systemd-analyze", *words, str(service))
    if status != 0:
        return text.splitlines()[-1]
    page = host.top / "run" / "rollout-report" / "index.html"
    page.parent.mkdir()
    host.log().write_text('{"time":"2026-11-30T12:00:00.000Z","kind":"start"}\n')
    found = host.command(service, "ExecStart")
    if found[0] != 0 or "<h1>" not in page.read_text():
        return f"{found}"


def settings(text):
    """The lines of a unit that aren't comments."""
    return [it for it in text.splitlines() if it and it[0] != "#"]


def template(_folder):
    """The template equals the unit, except for its ports and its name."""
    alone = (DEPLOY / "rollout.service").read_text()
    both = "SocketBindAllow=ipv4:tcp:8080-8081\nSocketBindAllow=ipv4:tcp:8090-8091"
    alone = alone.replace(both.splitlines()[0], "PORTS")
    alone = alone.replace("8080", "80%i0").replace("8081", "80%i1").replace("PORTS", both)
    alone = alone.replace("an update server", "an update server at the ports 80%i0 and 80%i1")
    found = settings((DEPLOY / "rollout@.service").read_text())
    if found != settings(alone):
        return f"{[it for it in found if it not in settings(alone)]}"


def calls_of(host, unit, folder):
    """The lines of `strace` for all processes of a unit's commands: a start, a load and a stop."""
    before = ["strace", "-ff", "-qq", "-o", str(folder / "calls")]

    def traced(name, **environment):
        how = {"cwd": host.top / "etc" / "rollout", "env": {**os.environ, **environment}}
        return called(*before, *words_of(unit, name), **how)

    folder.mkdir()
    found = [traced("ExecStartPre")[0]]
    with host.started(unit, *before) as server:
        reply()
        found += [traced("ExecReload")[0], traced("ExecStartPost", MAINPID=str(os.getpid()))[0]]
        found += [traced("ExecStop", MAINPID=str(server.pid))[0], server.wait(PATIENCE)]
    if any(found):
        raise OSError(f"a command has ended with another status than 0: {found}")
    return [line for it in folder.iterdir() for line in it.read_text().splitlines()]


def allowed_by(lines):
    """The system calls that these lines of SystemCallFilter= allow, by systemd's groups."""
    sets, name = {}, None
    for line in called("systemd-analyze", "syscall-filter", "--no-pager")[1].splitlines():
        if line.startswith("@"):
            name = line.strip()
        elif line[:1] != " ":
            name = None
        elif name and not line.strip().startswith("#"):
            sets.setdefault(name, set()).add(line.strip())

    def members(word):
        return set().union(*map(members, sets[word])) if word.startswith("@") else {word}

    allowed = members("@default")
    for line in lines:
        for word in line.removeprefix("~").split():
            allowed = allowed - members(word) if line.startswith("~") else allowed | members(word)
    return allowed


# The calls that MemoryDenyWriteExecute= refuses.
WRITE_AND_EXECUTE = re.compile(r"mmap\(.*PROT_WRITE\|PROT_EXEC|(mprotect|shmat)\(.*_EXEC")


def system_calls(folder):
    """The unit allows the system calls that its commands make."""
    needs("strace", "systemd-analyze")
    if called("strace", "-o", str(folder / "tried"), "true")[0] != 0:
        raise Skipped("strace may not trace here")
    host = Host(folder / "strace")
    unit = host.file("rollout.service")
    lines = calls_of(host, unit, folder / "traces")
    names = {found[1] for line in lines if (found := re.match(r"(\w+)\(", line))}
    allowed = allowed_by(re.findall(r"^SystemCallFilter=(.*)$", unit.read_text(), re.M))
    if not {"accept4", "execve", "openat", "sendto"} <= names & allowed:
        return f"another list of names: {sorted(names)} {sorted(allowed)}"
    if names - allowed:
        return f"the filter of the unit hasn't {names - allowed}"
    if wrong := [line for line in lines if WRITE_AND_EXECUTE.match(line)]:
        return f"memory that may be written and run: {wrong[0]}"
    families = {found[1] for line in lines if (found := re.match(r"socket\((\w+)", line))}
    if families != {"AF_INET"}:
        return f"sockets of {families}"
    print(f"    {len(names)} system calls, of {len(allowed)} that the unit lets through")


def unit_commands(folder):
    """The unit's commands: a start is ready, a reload works, and a start after a kill serves the
    halted file, and has the app that was halted at the server. A stop keeps the counters."""
    host = Host(folder / "unit")
    unit = host.file("rollout.service")
    if host.command(unit, "ExecStartPre")[0] != 0:
        return f"{host.command(unit, 'ExecStartPre')}"
    with host.started(unit) as server:
        if OFFERED not in reply():
            return "no offer"
        (host.top / "etc" / "rollout" / "editor.rule").write_text("otherwise none;\n")
        host.serve_from("manifest.toml")
        if host.command(unit, "ExecReload") != (0, "generation 2\n"):
            return "no generation 2"
        if wrong := wrong_second(host, unit):
            return wrong
        if operated("halt agent") != "generation 3\n":
            return "no halt"
        if not awaited(lambda: "halted agent\n" in host.counters(), 5):
            return f"the file has no halt: {host.counters()}"
        server.send_signal(signal.SIGKILL)
        server.wait()
    with host.started(unit) as server:
        if NOTHING not in reply() or "halted agent\n" not in operated("state"):
            return "a halt is undone by a start"
        if wrong := wrong_stop(host, unit, server):
            return wrong
    if not re.match(r"rollout counters 1\nstopped\nhalted agent\n", host.counters()):
        return f"a stop leaves {host.counters()}"
    found = host.command(unit, "ExecStop", MAINPID="1")
    if found[0] != 1 or not found[1].startswith("refused B5 Connect\noperator port "):
        return "a stop of what has ended meanwhile"


def operated(line):
    """The reply of the operator's port to a line."""
    with socket.create_connection(("127.0.0.1", int(PORTS["8081"])), timeout=PATIENCE) as stream:
        stream.sendall(line.encode() + b"\n")
        return rest(stream)


def wrong_second(host, unit):
    """A second start on the first server's ports fails, and stops nothing."""
    how = {"stdout": subprocess.DEVNULL, "stderr": subprocess.DEVNULL}
    words = words_of(unit, "ExecStart")
    second = subprocess.Popen(words, cwd=host.top / "etc" / "rollout", **how)
    if second.wait(PATIENCE) != 1:
        return "a second server has other ports"
    if host.command(unit, "ExecStartPost", MAINPID=str(second.pid)) != (1, ""):
        return "a server that has ended is ready"
    if host.command(unit, "ExecStop") != (0, "") or NOTHING not in reply():
        return "who has ended by himself stops another server"


def wrong_stop(host, unit, server):
    """A stop waits until the request in progress is answered."""
    with connect() as slow:
        slow.sendall(HEAD.encode())
        time.sleep(0.5)
        words = [sys.executable, "-c", "import time; time.sleep(1.5)"]
        with subprocess.Popen(words) as later:
            begun = time.monotonic()
            lives = {**os.environ, "MAINPID": str(server.pid)}
            stop = words_of(unit, "ExecStop")
            stopping = subprocess.Popen(stop, stdout=subprocess.DEVNULL, env=lives)
            later.wait()
            if stopping.poll() is not None:
                return f"the stop has ended after {time.monotonic() - begun:.1f} s"
            slow.sendall(ASK.encode())
            if NOTHING not in rest(slow):
                return "who was being answered isn't"
    if stopping.wait(PATIENCE) != 0 or server.wait(1) != 0:
        return f"{server.returncode} {stopping.returncode}"


def rotated_log(folder):
    """The log continues in the emptied file."""
    needs("logrotate")
    host = Host(folder / "rotated")
    rotation = host.file("rollout.logrotate")
    # logrotate refuses a file in a folder that others could write to.
    rotation.chmod(0o644)
    for place in (host.log().parent, host.top):
        place.chmod(0o755)
    with host.started(host.file("rollout.service")):
        reply()
        if not awaited(lambda: '"status":200,' in host.log().read_text(), 5):
            return "no line"
        words = ["--state", str(host.top / "state"), "--force", str(rotation)]
        found = called("logrotate", *words)
        if found != (0, "") or host.log().read_bytes() != b"":
            return f"{found} {host.log().read_bytes()[:80]}"
        reply()
        if not awaited(lambda: '"status":200,' in host.log().read_text(), 5):
            return "no line after the rotation"
        if host.log().read_bytes()[:1] == b"\0":
            return "the line is at the old place"
        if '"status":200,' not in (host.log().parent / "log.1").read_text():
            return "the earlier line is lost"


DEPLOYS = {
    "examples/deploy: the units, by systemd": verified_units,
    "examples/deploy: the page's unit, by systemd": page_units,
    "examples/deploy: the template is the unit": template,
    "examples/deploy: the unit's commands": unit_commands,
    "examples/deploy: the unit's system calls": system_calls,
    "examples/deploy: the log is rotated": rotated_log,
    **BOOTED,
    **CONFINED,
    **PROXIED,
}
