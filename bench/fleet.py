"""Checks docs/INSTALL.md, "Several servers": two hosts with a share of a quota each, and nginx as
their balancer. It runs the page's commands, with only paths and ports changed; `ssh` is replaced by
a script.

Returns nothing, or what was wrong. If a command isn't installed, the check is skipped with that
name.
"""
import contextlib
import os
import re
import subprocess

from hosts import PATIENCE, PORTS, Host, awaited, called, needs, section
from measured import time_so_far
from proxying import POST, nginx_words, proxied, proxied_by
from upgrading import QUICK, Load

TITLE = "Several servers"
RULE = "count asked[0];\nwhen version < 2.0 and take(early, 0) offer 1;\notherwise none;\n"
# The instance of the template unit that has each host's ports, and the host's share.
HOSTS = {"a": ("8", 600), "b": ("9", 400)}
ASKS = 1500
BALANCED = [(f"127.0.0.1:{PORTS['8080']};", f"127.0.0.1:{PORTS['8080']};\n"
             f"    server 127.0.0.1:{PORTS['8090']};")]
SSH = """#!/bin/sh
host=${1#root@} && shift
case $host in a) port=%s ;; b) port=%s ;; esac
words=$(echo "$*" | sed "s|/opt/|%s/$host/opt/|; s|/etc/|%s/$host/etc/|; s|8081|$port|")
exec sh -c "$words"
"""


class Fleet:
    """Two hosts, each with its share in its manifest."""

    def __init__(self, top):
        self.hosts = {name: Host(top / name) for name in HOSTS}
        (top / "bin").mkdir()
        ssh = top / "bin" / "ssh"
        ssh.write_text(SSH % (PORTS["8081"], PORTS["8091"], top, top))
        ssh.chmod(0o755)
        self.path = f"{top / 'bin'}:{os.environ['PATH']}"
        self.sharing, self.loading = section("INSTALL.md", TITLE)[:2]

    def run(self, name, block):
        """The output of a block in the folder of a host's manifests."""
        how = {"cwd": self.hosts[name].top / "etc" / "rollout", "text": True, "timeout": PATIENCE}
        how |= {"env": {**os.environ, "PATH": self.path}, "capture_output": True}
        done = subprocess.run(["sh", "-ec", block], **how)
        return done.stdout + (done.stderr if done.returncode else "")

    def program(self, *words):
        return called(str(self.hosts["a"].top / "opt" / "rollout" / "bin" / "rollout"), *words)[1]

    @contextlib.contextmanager
    def serving(self):
        """The servers' processes, until the end of a `with`."""
        with contextlib.ExitStack() as ends:
            servers = []
            for name, host in self.hosts.items():
                (host.top / "etc" / "rollout" / "editor.rule").write_text(RULE)
                self.run(name, self.sharing)
                host.serve_from(f"editor-{name}.toml")
                unit = host.file("rollout@.service", HOSTS[name][0])
                servers.append(ends.enter_context(host.started(unit)))
            yield servers


def cells(fleet, port):
    """A server's counters."""
    text = fleet.program("cells", "--operator", port)
    return {name: int(value) for name, value in re.findall(r"(\w+)\[0\] (\d+)", text)}


def machine(number):
    """The first request of a machine, which takes nothing from the quota."""
    app = '{"appid":"agent","version":"1.3","updatecheck":{}}'
    return f'{{"request":{{"protocol":"3.1","requestid":"machine {number}","app":[{app}]}}}}'


def bucket(reply):
    return "".join(re.findall(r'"cohort":"b:\d{4}"', reply))


def wrong_shares(fleet, servers):
    """All shares are granted, and no more; each request is counted by one server."""
    host = fleet.hosts["a"]
    [nginx] = called("pgrep", "-P", (host.top / "run" / "nginx.pid").read_text().strip())[1].split()
    with Load(host) as load:
        awaited(lambda: sum(load.whole) + len(load.lost) > ASKS, 4 * PATIENCE)
    offers, asks = sum(load.whole), sum(load.whole) + len(load.lost)
    if lost := [it for it in load.lost if not it.startswith("HTTP/1.1 200 ")]:
        return f"{len(lost)} lost of {asks}: {lost[0]}"
    counted = [cells(fleet, PORTS[port]) for port in ("8081", "8091")]
    shares = [share for _, share in HOSTS.values()]
    dry = all(it["early"] >= share for it, share in zip(counted, shares))
    if not dry or offers != sum(shares) or sum(it["asked"] for it in counted) != asks:
        return f"{offers} offers of {asks} requests, and {counted}"
    logs = [str(it.log()) for it in fleet.hosts.values()]
    row = f"\n{offers}\teditor\t2.0.4\n"
    if not awaited(lambda: row in fleet.program("report", *logs), 5):
        return f"report: {fleet.program('report', *logs)}"
    took = [1000 * time_so_far(it) / asks for it in (nginx, *(it.pid for it in servers))]
    print(f"    {offers} offers of {asks} requests; processor time of a request: {took[0]:.2f} ms "
          f"in nginx, {took[1] + took[2]:.2f} ms in the servers")


def wrong_buckets(fleet, servers):
    """Each machine has the same bucket on both servers, and after the loss of one."""
    found = []
    for port in (PORTS["8080"], PORTS["8090"]):
        words = ["curl", "-s", f"http://127.0.0.1:{port}{POST}", "--data-binary"]
        found.append([bucket(called(*words, machine(it))[1]) for it in range(40)])
    if found[0] != found[1] or len({*found[0]}) < 35:
        return f"buckets: {found}"
    servers[1].kill()
    servers[1].wait()
    words = ["--data-binary", "@-"]
    left = [proxied(fleet.hosts["a"], POST, words, machine(it)) for it in range(40)]
    wrong = [it for it, one in zip(left, found[0]) if it[0] != "502" and bucket(it[1]) != one]
    if wrong or [status for status, _ in left].count("502") > 3:
        return f"without the second server: {left}"


def wrong_loads(fleet, printed):
    """A load on each host by the page's loop."""
    if (found := fleet.run("a", fleet.loading)) != printed:
        return f"the loop: {found}"


def fleet_of_the_page(folder):
    """Two servers behind one nginx: shares, buckets, loads, and the loss of one server."""
    needs("nginx", "openssl", "curl", "pgrep")
    fleet = Fleet(folder / "fleet")
    host = fleet.hosts["a"]
    with fleet.serving() as servers, proxied_by(host, nginx_words(host, [*QUICK, *BALANCED])):
        return (
            wrong_shares(fleet, servers)
            or wrong_loads(fleet, "generation 2\ngeneration 2\n")
            or wrong_buckets(fleet, servers)
            or wrong_loads(fleet, "generation 3\nb: not loaded\n")
        )


FLEET = {"several servers of docs/INSTALL.md": fleet_of_the_page}
