"""Checks the unit of examples/deploy, unchanged, in a systemd of its own. This is the first process
of its namespaces, over copy-on-write files, and knows no other units of this host. So everything
that confines the server is tested, except the memory limit.

Returns nothing, or what was wrong. Skipped if this can't be set up, for example without root.
"""
import contextlib
import os
import re
import shutil
import subprocess
from pathlib import Path

from hosts import ASK, DEPLOY, OFFERED, STAGED
from hosts import Host, Skipped, awaited, called, child_of, needs, needs_root, section

AS_ANOTHER = ["setpriv", "--reuid=65534", "--regid=65534", "--clear-groups"]
PROGRAM, AT = "/opt/rollout/bin/rollout", ["--operator", "8081"]
POST = "http://127.0.0.1:8080/service/update2/json"
NEXT, COUNTERS = POST.replace("8080", "8090"), "/var/lib/rollout/counters"
CONFINED = ["CapBnd:\t0000000000000000", "NoNewPrivs:\t1", "Seccomp:\t2"]
FIRST = "/usr/lib/systemd/systemd"
# $1 is an empty folder, and $2 has a replacement for each host folder that is to differ.
BOOT = """
mount -t tmpfs tmpfs "$1" && mkdir "$1/up" "$1/work" "$1/new"
mount -t overlay -o lowerdir=/,upperdir="$1/up",workdir="$1/work" overlay "$1/new"
cd "$1/new"
for it in etc usr/lib usr/local/lib; do
    for its in $it/systemd/system $it/systemd/system-generators; do
        [ ! -d $its ] || mount -t tmpfs tmpfs $its
    done
done
cp -a "$2/." .
mount -t proc proc proc
mount --bind proc/sys proc/sys && mount -o remount,ro,bind proc/sys
mount -t sysfs -o ro sysfs sys && mount -t cgroup2 cgroup2 sys/fs/cgroup
mount -t tmpfs -o mode=755 tmpfs run && mkdir -m 1777 run/lock
mount -t tmpfs -o mode=1777 tmpfs tmp
mount -t tmpfs -o mode=755 tmpfs dev && mkdir dev/pts dev/mqueue && mkdir -m 1777 dev/shm
mount -t devpts -o newinstance,ptmxmode=0666 devpts dev/pts
for it in null:3 zero:5 full:7 random:8 urandom:9; do mknod -m 666 dev/${it%:*} c 1 ${it#*:}; done
mknod -m 666 dev/tty c 5 0 && ln -s pts/ptmx dev/ptmx
mkdir -p old && pivot_root . old && umount -l /old
ip link set lo up
exec env -i container=bench PATH=/usr/sbin:/usr/bin:/sbin:/bin "$3" --system --unit=basic.target
"""
TARGETS = ["basic", "sysinit", "shutdown", "multi-user"]
# Folders of this host that others may write to, or that may hold a folder of theirs.
PLACES = ["/dev/shm", "/dev/mqueue", "/run/lock", "/tmp", "/var/tmp", "/var/lib", "/srv", "/home"]

def prepared(folder):
    """The files that the booted system has in addition to this host's."""
    host, root = Host(folder / "host"), folder / "its"
    for name in ("etc/systemd/system", "etc/sysusers.d", "etc/rollout", "opt", "var/log/rollout"):
        (root / name).mkdir(parents=True)
    shutil.copytree(host.top / "opt" / "rollout", root / "opt" / "rollout")
    shutil.copytree(STAGED, root / "etc" / "rollout", dirs_exist_ok=True)
    shutil.copy(STAGED / "manifest.toml", root / "etc" / "rollout" / "current.toml")
    for it in DEPLOY.glob("*.service"):
        shutil.copy(it, root / "etc" / "systemd" / "system")
    shutil.copy(DEPLOY / "rollout.sysusers", root / "etc" / "sysusers.d" / "rollout.conf")
    for it in TARGETS:
        (root / "etc" / "systemd" / "system" / f"{it}.target").write_text("[Unit]\n")
    return root


@contextlib.contextmanager
def own_group():
    """A control group of its own for new processes."""
    mounts = re.findall(r"^\S+ (\S+) cgroup2 ", Path("/proc/self/mounts").read_text(), re.M)
    within = re.search(r"^0::/(.*)$", Path("/proc/self/cgroup").read_text(), re.M)
    if not mounts or not within:
        raise Skipped("no control groups of the second version")
    group = Path(mounts[0]) / within[1] / f"rollout-bench-{os.getpid()}"
    try:
        group.mkdir()
    except OSError as error:
        raise Skipped(f"no control group of its own: {error}") from None
    try:
        yield group
    finally:
        within = sorted((it for it in group.rglob("*") if it.is_dir()), reverse=True)
        for it in [*within, group]:
            awaited(lambda: not it.exists() or removed(it), 10)


def removed(group):
    with contextlib.suppress(OSError):
        group.rmdir()
        return True


@contextlib.contextmanager
def booted(folder):
    """The words that run a command in the booted system."""
    root = prepared(folder)
    (folder / "top").mkdir()
    apart = ["unshare", "--mount", "--pid", "--fork", "--kill-child", "--net", "--uts", "--ipc"]
    boot = ["sh", "-ec", BOOT, "boot", str(folder / "top"), str(root), FIRST]
    with own_group() as group, open(folder / "boot", "wb") as output:

        def enter():
            (group / "cgroup.procs").write_text(str(os.getpid()))

        how = {"stdin": subprocess.DEVNULL, "stdout": output, "stderr": output, "preexec_fn": enter}
        process = subprocess.Popen([*apart, "--cgroup", *boot], **how)
        try:
            into = ["nsenter", "-t", str(child_of(process)), *"-m -p -n -u -i -C -r -w".split()]
            into += ["env", "-i", "PATH=/usr/sbin:/usr/bin:/sbin:/bin"]
            ready = [*into, "systemctl", "is-active", "basic.target"]
            awaited(lambda: process.poll() is not None or called(*ready) == (0, "active\n"), 20)
            if called(*ready) != (0, "active\n"):
                raise Skipped(f"no systemd boots: {(folder / 'boot').read_text()[-200:]}")
            yield into
        finally:
            process.kill()
            process.wait()


class Booted:
    """Commands in the booted system."""

    def __init__(self, into):
        self.into = into

    def call(self, *words):
        return called(*self.into, *words)

    def property_of(self, name, unit="rollout"):
        """A property of a unit."""
        return self.call("systemctl", "show", "--value", "-p", name, unit)[1].strip()

    def answers(self):
        return OFFERED in self.call("curl", "-s", POST, "-d", ASK)[1]

    def started(self):
        """What is wrong with a start, which must return only once clients get answers."""
        words = 'systemctl start rollout && curl -s "$0" -d "$1"'
        found = self.call("sh", "-c", words, POST, ASK)
        if found[0] != 0 or OFFERED not in found[1]:
            status = self.call("systemctl", "status", "--no-pager", "rollout")[1]
            return f"no start: {found} {status} {self.call('cat', '/var/log/rollout/log')[1]}"


def wrong_start(it):
    if (found := it.call("systemd-sysusers"))[0] != 0:
        return f"{found}"
    if wrong := it.started():
        return wrong
    status = it.call("cat", f"/proc/{it.property_of('MainPID')}/status")[1]
    if lacking := [line for line in CONFINED if line not in status]:
        return f"not confined: {lacking}"


def wrong_places(it):
    """A manifest loads only from the right folder, not from one that others may write to."""
    copies = 'mkdir -p "$0" && cp /etc/rollout/* "$0" && chmod -R a+rX "$0"'
    load = [*AS_ANOTHER, PROGRAM, "load"]
    for place in PLACES:
        folder = f"{place}/of_another"
        if (found := it.call("sh", "-c", copies, folder))[0] != 0:
            return f"{found}"
        found = it.call(*load, f"{folder}/manifest.toml", *AT)
        if found[0] != 1 or not found[1].startswith("refused B3 File\n"):
            return f"from {place}: {found}"
    if it.call(*AS_ANOTHER, "touch", "/var/lib/rollout/of_another")[0] == 0:
        return "another user may write into the folder of the counters"
    if (found := it.call(*load, "/etc/rollout/manifest.toml", *AT)) != (0, "generation 2\n"):
        return f"from /etc/rollout: {found}"
    if (found := it.call("systemctl", "reload", "rollout"))[0] != 0:
        return f"no reload: {found}"


def wrong_ends(it):
    """A second server on the same ports, a crash, a signal, two stops; a halt and a counter outlive
    them."""
    if it.call("systemctl", "start", "rollout@8")[0] == 0 or not it.answers():
        return "a second server of the same ports is started, or ends the first"
    it.call("systemctl", "stop", "rollout@8")
    it.call(PROGRAM, "halt", "agent", *AT)
    if not awaited(lambda: "\nhalted agent\n" in it.call("cat", COUNTERS)[1], 5):
        return f"the file of counters has no halt: {it.call('cat', COUNTERS)}"
    it.call("kill", "-s", "KILL", it.property_of("MainPID"))
    again = ["running", "1"]
    properties = ("SubState", "NRestarts")
    if not awaited(lambda: [*map(it.property_of, properties)] == again and it.answers()):
        return "it isn't started anew after a crash"
    it.call("kill", it.property_of("MainPID"))
    if not awaited(lambda: it.property_of("ActiveState") == "inactive"):
        return f"after SIGTERM it is {it.property_of('ActiveState')}"
    for words in ([PROGRAM, "stop", *AT, "--wait"], ["systemctl", "stop", "rollout"]):
        if wrong := it.started():
            return wrong
        if "\nhalted agent\n" not in it.call(PROGRAM, "state", *AT)[1]:
            return "a halt is undone by a start"
        cells = it.call(PROGRAM, "cells", *AT)[1]
        found = it.call(*words)[0], it.property_of("Result")
        has_stopped = awaited(lambda: it.property_of("ActiveState") == "inactive")
        if found != (0, "success") or not has_stopped:
            return f"{words}: {found}"
        rows = re.findall(r"^(\w+) (\d+) (\d+)$", it.call("cat", COUNTERS)[1], re.M)
        if not rows or "".join(f"{name}[{at}] {value}\n" for name, at, value in rows) != cells:
            return f"after {words} the file has {rows}, of {cells}"


def wrong_next(it):
    """The next server waits for the file of the present one, and serves once that is stopped."""
    if wrong := it.started():
        return wrong
    if (found := it.call("systemctl", "start", "rollout@9"))[0] != 0:
        return f"no next server: {found}"
    if it.property_of("ActiveState", "rollout@9") != "active" or not it.answers():
        return "a server that waits isn't started, or the present one serves no longer"
    if (found := it.call("systemctl", "stop", "rollout"))[0] != 0:
        return f"no stop: {found}"
    if not awaited(lambda: OFFERED in it.call("curl", "-s", NEXT, "-d", ASK)[1]):
        return "the next server doesn't serve"
    if "\nhalted agent\n" not in it.call(PROGRAM, "state", "--operator", "8091")[1]:
        return "the next server has lifted the halt"
    it.call("systemctl", "stop", "rollout@9")


def wrong_edit(it):
    """The page's commands set a counter while the server is stopped."""
    if wrong := it.started():
        return wrong
    block = section("OPERATING.md", "The file of counters")[0].replace("first", "asked")
    found = it.call("sh", "-ec", f"PATH=/opt/rollout/bin:$PATH\n{block}")
    if found != (0, "asked[0] 500\n"):
        return f"an edited file: {found}"
    it.call("systemctl", "stop", "rollout")


def wrong_guard(it):
    """With rollout-nft a server starts only if the rules are loaded, and a restart of rollout-nft
    doesn't restart the server."""
    stub = 'printf "#!/bin/sh\\nexec $0\\n" > /usr/sbin/nft && chmod 755 /usr/sbin/nft'
    it.call("sh", "-c", stub, "false")
    it.call("systemctl", "enable", "rollout-nft")
    it.call("systemctl", "reset-failed")
    found = it.call("systemctl", "start", "rollout")
    if found[0] == 0 or it.property_of("ActiveState") != "inactive" or it.answers():
        return f"without its rules it starts: {found}"
    it.call("sh", "-c", stub, "true")
    if wrong := it.started():
        return f"with its rules: {wrong}"
    process = it.property_of("MainPID")
    if (found := it.call("systemctl", "restart", "rollout-nft"))[0] != 0:
        return f"no restart of rollout-nft: {found}"
    if it.property_of("MainPID") != process or not it.answers():
        return "a restart of rollout-nft restarts the server"
    it.call("systemctl", "stop", "rollout")


def booted_unit(folder):
    """The unchanged unit, run by systemd."""
    needs("unshare", "nsenter", "ip", "setpriv", "curl", "systemctl", "systemd-sysusers", FIRST)
    needs_root()
    with booted(folder) as into:
        it = Booted(into)
        wrong = wrong_start(it) or wrong_places(it) or wrong_ends(it) or wrong_next(it)
        return wrong or wrong_edit(it) or wrong_guard(it)


BOOTED = {"examples/deploy: the unit, run by a systemd of its own": booted_unit}
