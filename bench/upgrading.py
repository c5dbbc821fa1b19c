"""Checks docs/INSTALL.md: the upgrade that loses no request. It runs the page's commands and the
template unit, with only paths and ports changed, while clients send requests through nginx without
a pause. The next server goes on with the counters of the one before it. A client that sends slowly
and more clients than may wait are tried, too.

systemctl is replaced by a script that runs the unit's commands as systemd does. If a command isn't
installed, the check is skipped with that name.
"""
import contextlib
import os
import re
import shutil
import signal
import socket
import ssl
import stat
import subprocess
import threading
import time
from functools import partial

from hosts import ASK, HEAD, OFFERED, PATIENCE, PORTS, ROOT, Host
from hosts import awaited, line_of, needs, placed, rest, section
from proxying import TLS, nginx_words, proxied_by

TITLE = "An upgrade that loses no request"
CLIENTS = 6
# The site allows six polls a minute for each address.
QUICK = [("rate=6r/m", "rate=9999r/s"), ("burst=20", "burst=9999")]
LEAST = 3000
# The page's line for nginx.conf, with how long old workers of nginx may live.
SHUTDOWN = re.compile(r"`(worker_shutdown_timeout (\d+)s;)`")
# The connections that wait for the next server, and how many are tried.
QUEUE, MANY = 128, 200

STARTS = """"enable --now rollout@{it}")
    {pre} >/dev/null || exit 1
    {start} >/dev/null 2>>{log} &
    echo $! > {pid}
    MAINPID=$! {post} ;;
"""
STOPS = """"disable --now rollout@{it}")
    MAINPID=$(cat {pid}) {stop} >/dev/null ;;
"""
NAMES = {"pre": "ExecStartPre", "start": "ExecStart", "post": "ExecStartPost", "stop": "ExecStop"}


class Site:
    """A host with nginx before its servers, and commands that replace those of the host."""

    def __init__(self, top):
        self.host = host = Host(top)
        self.nginx = nginx_words(host, QUICK)
        line, seconds = SHUTDOWN.search((ROOT / "docs" / "INSTALL.md").read_text()).groups()
        self.longest, configuration = int(seconds), top / "nginx.conf"
        text = configuration.read_text().replace("connections 256", "connections 1024")
        configuration.write_text(f"{line}\n{text}")
        cases = [self.cases(it, host.file("rollout@.service", it)) for it in ("8", "9")]
        cases = "".join([*cases, '"reload nginx") nginx -s reload ;;\n', "*) exit 1 ;;\n"])
        (top / "bin").mkdir()
        self.put("systemctl", f'cd {top}/etc/rollout\ncase "$*" in\n{cases}esac\n')
        words = [shutil.which("nginx"), *self.nginx[1:]]
        self.put("nginx", f'exec {" ".join(words)} "$@"\n')
        path = f"{top / 'bin'}:{top / 'opt' / 'rollout' / 'bin'}:{os.environ['PATH']}"
        self.how = {"cwd": top, "env": {**os.environ, "PATH": path}, "capture_output": True}

    def cases(self, instance, unit):
        """The script's cases for an instance."""
        lines = {it: line_of(unit, name) for it, name in NAMES.items()}
        at = {"it": instance, "log": self.host.log(), "pid": self.pid(instance)}
        return (STARTS + STOPS).format(**lines, **at)

    def pid(self, instance):
        return self.host.top / "run" / f"rollout@{instance}.pid"

    def put(self, name, text):
        path = self.host.top / "bin" / name
        path.write_text(f"#!/bin/sh\n{text}")
        path.chmod(path.stat().st_mode | stat.S_IXUSR)

    def run(self, text):
        """Status and all output."""
        words = ["sh", "-c", placed(text, self.host.top)]
        done = subprocess.run(words, text=True, timeout=4 * PATIENCE, **self.how)
        return done.returncode, done.stdout + done.stderr

    def end(self):
        """Kills the remaining servers after a failed check."""
        for it in ("8", "9"):
            if self.pid(it).exists() and listens(PORTS[f"80{it}1"]):
                os.kill(int(self.pid(it).read_text()), signal.SIGKILL)


def listens(port):
    try:
        socket.create_connection(("127.0.0.1", int(port)), timeout=PATIENCE).close()
        return True
    except OSError:
        return False


class Load:
    """Clients that send requests through nginx, one for each connection, until the end of a
    `with`."""

    def __init__(self, host):
        self.context = ssl.create_default_context(cafile=host.top / "etc" / "ssl" / "rollout.pem")
        self.over, self.whole, self.lost = threading.Event(), [0] * CLIENTS, []

    @contextlib.contextmanager
    def sent(self, body):
        """A connection on which a head and this much of the body are sent."""
        with socket.create_connection(("127.0.0.1", TLS), timeout=PATIENCE) as plain:
            with self.context.wrap_socket(plain, server_hostname="127.0.0.1") as stream:
                head = HEAD.replace("\r\n\r\n", "\r\nHost: 127.0.0.1\r\nConnection: close\r\n\r\n")
                stream.sendall((head + body).encode())
                yield stream

    def ask(self):
        with self.sent(ASK) as stream:
            return rest(stream)

    def client(self, place):
        while not self.over.is_set():
            try:
                reply = self.ask()
            except OSError as error:
                reply = repr(error)
            if reply.startswith("HTTP/1.1 200 ") and OFFERED in reply and reply.endswith("}}"):
                self.whole[place] += 1
            else:
                self.lost.append(reply[:200])

    def __enter__(self):
        self.threads = [threading.Thread(target=self.client, args=(n,)) for n in range(CLIENTS)]
        for it in self.threads:
            it.start()
        return self

    def __exit__(self, *_):
        self.over.set()
        for it in self.threads:
            it.join()


def counted(host):
    """The counter of all requests, as the file has it when a server ends."""
    [number] = re.findall(r"^asked 0 (\d+)$", host.counters(), re.M)
    return int(number)


def wrong_upgrade(site):
    """Upgrades from the old server to the new one under load; their counter says what both
    answered."""
    host, commands = site.host, section("INSTALL.md", TITLE)[0]
    with Load(host) as load:
        awaited(lambda: sum(load.whole) > LEAST / 2)
        begun, before = time.monotonic(), sum(load.whole)
        if (found := site.run(commands))[0] != 0:
            return f"{found}"
        took, during = time.monotonic() - begun, sum(load.whole) - before
        if listens(PORTS["8081"]) or not listens(PORTS["8091"]):
            return "the old one goes on, or the new one doesn't"
        first = counted(host)
        awaited(lambda: sum(load.whole) > LEAST and sum(load.whole) - before > 2 * during)
    if load.lost:
        return f"{len(load.lost)} lost of {sum(load.whole)}: {load.lost[0]}"
    if (found := site.run("systemctl disable --now rollout@9"))[0] != 0:
        return f"{found}"
    if not 0 < first < counted(host) == sum(load.whole):
        return f"{first} and {counted(host)} are counted, and {sum(load.whole)} were answered"
    print(f"    0 lost of {sum(load.whole)}, of them {during} in the {took:.1f} s of the commands")


def wrong_slow(site):
    """A client that has sent half of its request keeps nginx's old worker as long as the page says,
    and no request of others is lost."""
    with Load(site.host) as load:
        awaited(lambda: sum(load.whole) > 0)
        with load.sent(ASK[:20]):
            begun = time.monotonic()
            if (found := site.run(section("INSTALL.md", TITLE)[0]))[0] != 0:
                return f"{found}"
            took, whole = time.monotonic() - begun, sum(load.whole)
        awaited(lambda: sum(load.whole) > whole + CLIENTS)
    if load.lost:
        return f"{len(load.lost)} lost of {sum(load.whole)}: {load.lost[0]}"
    if not site.longest - 1 < took < site.longest + 10:
        return f"the commands took {took:.1f} s"
    print(f"    0 lost of {sum(load.whole)}, though the commands took {took:.1f} s")


def wrong_many(site):
    """While a client keeps nginx's old worker, many others at once: as many as the next server's
    queue holds are answered, and the rest get a 504."""
    load, found, replies = Load(site.host), [], []
    site_of_nginx = site.host.top / "etc" / "nginx" / "conf.d" / "rollout.conf"
    upgrade = threading.Thread(target=lambda: found.append(
        site.run(section("INSTALL.md", TITLE)[0])))
    many = [threading.Thread(target=lambda: replies.append(load.ask()[9:12])) for _ in range(MANY)]
    with load.sent(ASK[:20]):
        upgrade.start()
        awaited(lambda: PORTS["8090"] in site_of_nginx.read_text())
        time.sleep(1)
        for it in many:
            it.start()
        for it in (*many, upgrade):
            it.join()
    if found[0][0] != 0:
        return f"{found}"
    counts = {it: replies.count(it) for it in sorted({*replies})}
    if counts.get("200", 0) < QUEUE or counts.get("200", 0) + counts.get("504", 0) != MANY:
        return f"{counts} of {MANY}"
    print(f"    {counts} of {MANY} at once")


def upgraded(wrong, folder):
    """The page's commands, with nginx before the servers."""
    needs("nginx", "openssl", "pgrep")
    site = Site(folder / wrong.__name__)
    with proxied_by(site.host, site.nginx):
        try:
            if (found := site.run("systemctl enable --now rollout@8"))[0] != 0:
                return f"{found}"
            return wrong(site)
        finally:
            site.end()


UPGRADES = {
    "the upgrade of docs/INSTALL.md": partial(upgraded, wrong_upgrade),
    "the upgrade, with a client that sends slowly": partial(upgraded, wrong_slow),
    "the upgrade, with more clients than may wait": partial(upgraded, wrong_many),
}
