"""Checks what confines a server: the rules of nftables, in a separate network, and the entry script
of the image, as the first process of a namespace.

Each check returns nothing, or what was wrong. If a command isn't installed, the check is skipped
with that name.
"""
import contextlib
import json
import os
import pwd
import re
import shutil
import signal
import subprocess
import time

from hosts import ASK, HEAD, OFFERED, PATIENCE, PORTS, Host
from hosts import Skipped, awaited, called, child_of, connect, needs, needs_root, rest
from hosts import words_of

UP = "ip link set lo up && echo up && exec sleep 600"
# Stand-ins for the server's user, and for another user of the host.
SERVER, OTHER = "daemon", "nobody"
REFUSED = "refused B5 Connect\n"


class Network:
    """A network namespace in which users run commands."""

    def __init__(self, process):
        self.enter = ["nsenter", f"--net=/proc/{process.pid}/ns/net"]

    def words(self, user, *words):
        group = pwd.getpwnam(user).pw_gid
        its = ["setpriv", f"--reuid={user}", f"--regid={group}", "--clear-groups"]
        return [*self.enter, *its, *words]

    def call(self, user, *words, **environment):
        return called(*self.words(user, *words), env={**os.environ, **environment})

    @contextlib.contextmanager
    def serving(self, host, unit, user):
        """The unit's server, run by a user, once it is ready. The folder of its counters is that
        user's, as systemd makes it."""
        state = host.top / "var" / "lib" / "rollout"
        for it in (state, *state.iterdir()):
            shutil.chown(it, user, pwd.getpwnam(user).pw_gid)
        words = self.words(user, *words_of(unit, "ExecStart"))
        how = {"cwd": host.top / "etc" / "rollout", "stdout": subprocess.DEVNULL}
        server = subprocess.Popen(words, stderr=subprocess.DEVNULL, **how)
        try:
            post = words_of(unit, "ExecStartPost")
            ready = self.call(user, *post, MAINPID=str(server.pid))
            if ready != (0, ""):
                raise OSError(f"{user}'s server isn't ready: {ready}")
            yield server
        finally:
            server.kill()
            server.wait()


@contextlib.contextmanager
def network():
    words = ["unshare", "--net", "sh", "-c", UP]
    with subprocess.Popen(words, stdout=subprocess.PIPE, stderr=subprocess.PIPE, text=True) as it:
        try:
            if it.stdout.readline() != "up\n":
                raise Skipped(f"no network of its own: {it.stderr.read().strip()}")
            yield Network(it)
        finally:
            it.kill()


def polled(net, user):
    target = f"http://127.0.0.1:{PORTS['8080']}/service/update2/json"
    return net.call(user, "curl", "-s", "-m", "3", target, "--data-binary", ASK)


def wrong_rules(net, host, unit, rules):
    """A server of its user, with the rules."""
    program, at = program_of(host), ["--operator", PORTS["8081"]]
    manifest = str(host.top / "etc" / "rollout" / "current.toml")
    with net.serving(host, unit, SERVER) as server:
        if (found := net.call(OTHER, program, "show", *at))[0] != 0:
            return f"{OTHER} without rules: {found}"
        for _ in range(2):
            if (found := called(*net.enter, "nft", "-f", str(rules))) != (0, ""):
                return f"{found}"
        for words in (["show"], ["cells"], ["load", manifest], ["stop"]):
            found = net.call(OTHER, program, *words, *at)
            if found[0] != 1 or not found[1].startswith(REFUSED):
                return f"{OTHER}: {words}: {found}"
        for user in ("root", SERVER):
            if (found := net.call(user, program, "load", manifest, *at))[0] != 0:
                return f"{user}: {found}"
        if OFFERED not in (found := polled(net, OTHER))[1]:
            return f"a client: {found}"
        stop = net.call(SERVER, program, "stop", *at, "--wait")
        if stop != (0, "stopping\n") or server.wait(PATIENCE) != 0:
            return f"{stop}: the server ends with {server.returncode}"


def operators_port(folder):
    """Another user is refused at the operator's port, and a server of theirs is reachable on
    neither port."""
    needs("nft", "unshare", "nsenter", "ip", "setpriv", "curl")
    needs_root()
    host = Host(folder / "nft")
    folder.chmod(0o755)
    unit, rules = host.file("rollout.service"), host.file("rollout.nft")
    rules.write_text(rules.read_text().replace('"rollout"', f'"{SERVER}"'))
    with network() as net:
        if wrong := wrong_rules(net, host, unit, rules):
            return wrong
        called(*net.enter, "nft", "flush", "ruleset")
        with net.serving(host, unit, OTHER):
            if OFFERED not in (found := polled(net, "root"))[1]:
                return f"{OTHER}'s server without rules: {found}"
            called(*net.enter, "nft", "-f", str(rules))
            if (found := polled(net, "root"))[1] != "":
                return f"{OTHER}'s server replies: {found}"


def heed_signals():
    """A shell can't trap signals that were ignored at its start, as SIGINT is after `&`."""
    signal.signal(signal.SIGINT, signal.SIG_DFL)


@contextlib.contextmanager
def first(host, words, **environment):
    """A command as the first process of a namespace, and its process number outside."""
    own = ["unshare", "--pid", "--fork", "--kill-child", "--mount-proc", *words]
    path = f"{host.top / 'opt' / 'rollout' / 'bin'}:{os.environ['PATH']}"
    how = {"cwd": host.top / "etc" / "rollout", "env": {**os.environ, "PATH": path, **environment}}
    with open(host.log(), "ab") as log:
        how |= {"stdout": log, "stderr": log, "preexec_fn": heed_signals}
        process = subprocess.Popen(own, **how)
    try:
        yield process, child_of(process)
    finally:
        process.kill()
        process.wait()


def program_of(host):
    return str(host.top / "opt" / "rollout" / "bin" / "rollout")


def image(host):
    """The words of the image's first process, and those of its health check."""
    text = host.file("Dockerfile").read_text().replace("\\\n", "")

    def words(name):
        return json.loads(re.search(rf"^{name}\b.*?(\[.*\])$", text, re.M)[1])

    [name] = words("ENTRYPOINT")
    entry = host.top / "opt" / "rollout" / "bin" / name
    host.file(name).rename(entry)
    entry.chmod(0o755)
    return [str(entry), *words("CMD")], words("HEALTHCHECK")


def is_healthy(host, health, number):
    """Whether the image's health check succeeds, within the namespaces of the first process."""
    path = f"PATH={host.top / 'opt' / 'rollout' / 'bin'}:{os.environ['PATH']}"
    return called("nsenter", "-t", str(number), "-p", "-m", "env", path, *health)[0] == 0


def wrong_alone(host, words, health):
    """As the first process the program ignores SIGTERM and SIGINT, as the page says."""
    with first(host, ["rollout", "serve", *words]) as (process, number):
        if not awaited(lambda: is_healthy(host, health, number)):
            return "the program alone doesn't serve"
        for it in (signal.SIGTERM, signal.SIGINT):
            os.kill(number, it)
        time.sleep(1)
        if process.poll() is not None:
            return "the program alone ends by SIGTERM, as the first process"
        stop = called(program_of(host), "stop", "--operator", PORTS["8081"], "--wait")
        if stop != (0, "stopping\n") or process.wait(PATIENCE) != 0:
            return f"{stop}: the program alone ends with {process.returncode}"


def wrong_entry(host, entry, health):
    """The script finishes the request in progress, and ends with the server's status."""
    # With another operator's port than that of the image.
    entry = [PORTS["8091"] if it == PORTS["8081"] else it for it in entry]
    for it in (signal.SIGTERM, signal.SIGINT):
        with first(host, entry) as (process, number), contextlib.ExitStack() as rest_of:
            if not awaited(lambda: is_healthy(host, health, number)):
                return "by the entry script it doesn't serve"
            slow = rest_of.enter_context(connect())
            slow.sendall(HEAD.encode())
            time.sleep(0.5)
            os.kill(number, it)
            time.sleep(1)
            if process.poll() is not None:
                return f"{it.name}: a request in progress is cut off"
            slow.sendall(ASK.encode())
            if OFFERED not in (reply := rest(slow)) or process.wait(PATIENCE) != 0:
                return f"{it.name}: {reply!r}, status {process.returncode}"


def wrong_early(host, entry):
    """Before the server listens, SIGTERM ends it; the script has the status of the server."""
    stub = host.top / "stub"
    stub.mkdir()
    (stub / "rollout").write_text('#!/bin/sh\n[ "$1" = stop ] && exit 1\nexec sleep "$STUB"\n')
    (stub / "rollout").chmod(0o755)
    path = {"PATH": f"{stub}:{os.environ['PATH']}"}
    with first(host, entry, STUB="60", **path) as (process, number):
        awaited(lambda: called("pgrep", "-P", str(number))[0] == 0)
        os.kill(number, signal.SIGTERM)
        if process.wait(PATIENCE) != 128 + signal.SIGTERM:
            return f"early: status {process.returncode}"
    with first(host, entry, STUB="wrong", **path) as (process, _):
        if process.wait(PATIENCE) != 1:
            return f"a server that is refused: status {process.returncode}"


def entry_script(folder):
    """entry.sh with the image's words, as the first process of a container."""
    needs("unshare", "nsenter", "pgrep")
    if called("unshare", "--pid", "--fork", "--mount-proc", "true")[0] != 0:
        raise Skipped("no processes of their own for this user")
    host = Host(folder / "image")
    entry, health = image(host)
    return (
        wrong_alone(host, entry[1:], health)
        or wrong_entry(host, entry, health)
        or wrong_early(host, entry)
    )


CONFINED = {
    "examples/deploy: the rules of nftables": operators_port,
    "examples/deploy: the first process of a container": entry_script,
}
