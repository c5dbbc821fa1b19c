"""Checks of `bench/counters`: what is at the path of a file of counters, who owns it, who has it,
and which arrays it has.

Each check is given the program and an empty folder, and returns what it counted.
"""
import os
import socket
import subprocess

from asking import app, array, manifest
from counters_servers import Rig, opened
from counters_text import CELLS, read
from hosts import Skipped, Wrong, called, needs_root

BASE = """rollout counters 1
stopped
halted com.example.app
halted %C3%A9%20x
array q 64 1 500
array hits 32 8
array wide 64 3
q 0 283
hits 3 12
hits 7 4294967295
wide 0 7
wide 2 18446744073709551615
wide 1 90210
end
"""
ARRAYS = [array("q", 64, 1, 500), array("hits", 32, 8), array("wide", 64, 3)]
DECLARED = {"q": (64, 1, 500), "hits": (32, 8, None), "wide": (64, 3, None)}
MOST_BYTES = 1 << 20
AS_ANOTHER = ["setpriv", "--reuid=65534", "--regid=65534", "--clear-groups"]


# ---- what isn't a file of counters


def linked(file):
    file.with_name("another").write_text(BASE)
    file.symlink_to("another")


def listening(file):
    with socket.socket(socket.AF_UNIX) as it:
        it.bind(str(file))


def padded(size):
    """A file of counters with this many bytes, by lines of halted apps."""
    lines, left = "", size - len(BASE)
    while left > 0:
        # Another line has at least nine bytes.
        width = left if left <= 1000 else min(1000, left - 9)
        lines += f"halted {'a' * (width - 8)}\n"
        left -= width
    return BASE.replace("halted com", f"{lines}halted com", 1)


KINDS = {
    "a link": linked,
    "a link to nothing": lambda file: file.symlink_to("nothing"),
    "a FIFO": os.mkfifo,
    "a folder": os.mkdir,
    "a socket": listening,
    "a device": lambda file: os.mknod(file, 0o020666, os.makedev(1, 5)),
    "over 1 MiB": lambda file: file.write_text(padded(MOST_BYTES + 1)),
}


def kinds(program, folder):
    """Each is refused at once by K2, and stays as it was."""
    made = {it: KINDS[it] for it in KINDS if it != "a device" or os.geteuid() == 0}
    slowest = 0
    for name, make in made.items():
        place = folder / name.replace(" ", "-")
        place.mkdir()
        rig = Rig(program, place, 500)
        make(rig.file)
        before = os.lstat(rig.file)
        slowest = max(slowest, rig.refused("K2 File", 20))
        if os.lstat(rig.file)[:7] != before[:7]:
            raise Wrong(f"{name} is changed")
    if (folder / "a-link" / "another").read_text() != BASE:
        raise Wrong("the file behind a link is changed")
    return f"{len(made)} kinds, by K2 within {slowest:.1f} s"


def longest(program, folder):
    """A file of 1 MiB is opened, and written at a stop."""
    rig = Rig(program, folder, 500)
    rig.path = rig.manifest("m.toml", *ARRAYS)
    rig.file.write_text(padded(MOST_BYTES))
    kept = read(rig.file.read_bytes())
    with opened(rig.server()) as server:
        rig.stopped(server)
    if read(rig.file.read_bytes()) != kept:
        raise Wrong("another file is left")
    return f"{rig.file.stat().st_size} bytes, {len(kept.halted)} halted apps"


# ---- whose it is

# What root's files in the folder of the server's user are: the name's end, the mode, the refusal.
FOREIGN = [("", 0o600, "K2 File"), ("", 0o644, "K4 Store"), (".lock", 0o600, "K4 Store")]


def of_another(program, folder):
    """A file of root is refused, and stays as it was."""
    needs_root()
    folder.chmod(0o755)
    for number, (end, mode, code) in enumerate(FOREIGN):
        place = folder / str(number)
        place.mkdir()
        rig = Rig(program, place, 500)
        file = rig.file.with_name(rig.file.name + end)
        file.write_text("" if end else "rollout counters 1\nserving\narray q 64 1 500\nend\n")
        file.chmod(mode)
        os.chown(place, 65534, 65534)
        before = file.read_text(), os.lstat(file)[:7]
        words = [*AS_ANOTHER, *rig.server().words]
        done = subprocess.run(words, capture_output=True, text=True, timeout=60)
        if done.returncode > 1:
            raise Skipped(f"no other user can run it: {done.stderr.strip()}")
        now = file.read_text(), os.lstat(file)[:7]
        if f"refused {code}\n" not in done.stderr or now != before:
            raise Wrong(f"{file.name} of mode {mode:o}: {done.stdout}{done.stderr}")
    return ", ".join(f"{code} of mode {mode:o}{end}" for end, mode, code in FOREIGN)


def in_use(program, folder):
    """One server at a time has a file; the others are refused by K1, at once or after a second. One
    that waits prints which process has it, if its lock says so."""
    rig = Rig(program, folder, 500)
    with opened(rig.server()) as server:
        for _ in range(10):
            rig.refused("K1 InUse")
        rig.options = ["--wait-counters", "1"]
        if rig.refused("K1 InUse") < 1:
            raise Wrong("a server that waits a second doesn't")
        lock = rig.file.with_name("counters.lock")
        if int(lock.read_text()) != server.process.pid:
            raise Wrong("the lock names another process")
        lock.write_text("")
        done = subprocess.run(rig.server().words, capture_output=True, text=True, timeout=60)
        if "waiting for counters: another process has them\n" not in done.stderr:
            raise Wrong(f"a lock without a number: {done.stderr}")
        rig.take(server)
        rig.stopped(server)
    rig.exact()
    return "12 others, by K1"


def leftovers(program, folder):
    """New files that crashes left are removed at the next start."""
    rig = Rig(program, folder, 500)
    names = [rig.file.with_name(f"counters.{it}.new") for it in range(100)]
    for it in names:
        it.write_text("rollout")
    with opened(rig.server()) as server:
        rig.take(server)
        rig.stopped(server)
    rig.exact()
    if left := [it.name for it in names if it.exists()]:
        raise Wrong(f"left: {left}")
    return f"{len(names)} files"


# ---- which arrays it has


def arrays(program, folder):
    """A manifest drops an array, and another brings it back: its counter is as it was."""
    rig = Rig(program, folder, 500)
    with_it, without = rig.path, folder / "without.toml"
    without.write_text(manifest("s", array("other", 32, 2), app("plain", "offers.rule", "2.0")))
    with opened(rig.server()) as server:
        rig.take(server)
        for it in (without, with_it):
            if not server.ask(f"load {it}").startswith("generation "):
                raise Wrong(f"no load of {it.name}")
        rig.take(server)
        rig.stopped(server)
    rig.exact()
    for path, ends in ((without, rig.stopped), (without, rig.killed), (with_it, rig.stopped)):
        rig.path = path
        with opened(rig.server()) as server:
            if path == with_it:
                rig.take(server)
            ends(server)
        rig.exact()
    rig.path = rig.manifest("m.toml", array("q", 64, 1, 501))
    rig.refused("M7 Cells N2 Redefined in array 1")
    rig.exact()
    return f"{rig.tally.offers} offers of one quota over 2 loads and 4 starts"


def full(program, folder):
    """All 8192 cells are in use."""
    rig = Rig(program, folder, 500)
    quotas = ["q", *(f"quota_{it}".ljust(32, "_") for it in range(15))]
    tables = [array(it, 64, CELLS // 16, 10**18) for it in quotas] + [array("narrow", 32, CELLS)]
    rig.path = rig.manifest("m.toml", *tables)
    lines = [f"array {it} 64 {CELLS // 16} {10**18}" for it in quotas]
    lines += [f"array narrow 32 {CELLS}"]
    lines += [f"{it} {at} {10**17}" for it in quotas for at in range(CELLS // 16)]
    lines += [f"narrow {at} {2**32 - 1}" for at in range(CELLS)]
    rig.file.write_text("\n".join(["rollout counters 1", "stopped", *lines, "end", ""]))
    cells = read(rig.file.read_bytes()).cells()
    rig.tally.none = 10**17
    with opened(rig.server()) as server:
        if server.ask("cells") != cells:
            raise Wrong("other cells")
        is_offer, seconds = rig.take(server)
        if not is_offer:
            raise Wrong("no offer")
        rig.stopped(server)
    rig.exact()
    rig.path = rig.manifest("m.toml", *tables, array("more", 32, 1))
    rig.refused("M7 Cells N1 CellsFull in array 18")
    size = rig.file.stat().st_size
    return f"{2 * CELLS} counters, {size} bytes, the first offer after {seconds:.2f} s"


FILES = {
    "what isn't a regular file": kinds,
    "a file of 1 MiB": longest,
    "a file of another user": of_another,
    "a file that another server has": in_use,
    "new files that crashes left": leftovers,
    "an array that is dropped and comes back": arrays,
    "all cells in use": full,
}
