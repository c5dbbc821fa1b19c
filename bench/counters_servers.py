"""A server over a file of counters, with one app that takes from a quota and one that doesn't, for
`bench/counters`; and folders of their own devices.
"""
import contextlib
import subprocess
import threading
import time

from asking import Server, app, array, manifest, post, request, whole
from hosts import Skipped, Wrong, called, needs, needs_root

TAKES = "when take(q, 0) offer 1;\notherwise none;\n"
OFFERS = "when version < 2.0 offer 1;\notherwise none;\n"
OFFERED = '"status":"ok","urls"'
# Seconds in which a reply that needs no disk is sent, also by a busy machine.
PROMPT = 1.0
PATIENCE = 30


class Tally:
    """The replies to requests that take: offers, withheld ones, and those without an offer."""

    def __init__(self):
        self.offers = self.withheld = self.none = 0

    def takes(self):
        return self.offers + self.withheld + self.none


class Rig:
    """A folder with a manifest and a file of counters, whose folder may be on another device."""

    def __init__(self, program, folder, quota, place=None):
        self.program, self.folder, self.quota = program, folder, quota
        self.place = place or folder
        self.file = self.place / "counters"
        self.tally, self.options = Tally(), []
        for name, text in (("takes.rule", TAKES), ("offers.rule", OFFERS)):
            (folder / name).write_text(text)
        self.path = self.manifest("m.toml", array("q", 64, 1, quota))

    def manifest(self, name, *arrays):
        path = self.folder / name
        apps = [app(it, "offers.rule", "2.0") for it in ("plain", "spare")]
        path.write_text(manifest("s", *arrays, app("takes", "takes.rule", "2.0"), *apps))
        return path

    def server(self, workers=2):
        return Server(self.program, self.path, workers, "--counters", str(self.file), *self.options)

    def refused(self, code, seconds=PATIENCE):
        """A start that is refused by this code, within these seconds."""
        begun = time.monotonic()
        try:
            words = self.server().words
            done = subprocess.run(words, capture_output=True, text=True, timeout=seconds)
        except subprocess.TimeoutExpired:
            raise Wrong(f"no refusal {code} within {seconds} s") from None
        if done.returncode != 1 or f"refused {code}\n" not in done.stderr:
            raise Wrong(f"no refusal {code}: {done.returncode} {done.stdout}{done.stderr}")
        return time.monotonic() - begun

    def take(self, server):
        """Requests a place; whether it was offered (None if withheld), and the seconds."""
        begun = time.monotonic()
        status, text = exchanged(server, "takes")
        seconds = time.monotonic() - begun
        if status == 503:
            self.tally.withheld += 1
            return None, seconds
        is_offer = OFFERED in text
        self.tally.offers += is_offer
        self.tally.none += not is_offer
        return is_offer, seconds

    def number(self):
        """The quota's number in the file."""
        rows = [it.split() for it in self.file.read_text().splitlines()]
        return next((int(it[2]) for it in rows if it[0] == "q"), 0)

    def stopped(self, server, status=0):
        server.ask("stop")
        if server.ends() != status:
            raise Wrong(f"a stop ends with {server.process.returncode}: {server.printed()}")

    def killed(self, server):
        server.process.kill()
        server.process.wait()

    def exact(self):
        """After a stop the file has each take, and no more than the quota was offered."""
        if self.number() != self.tally.takes() or self.tally.offers > self.quota:
            raise Wrong(f"{self.number()} in the file, {vars(self.tally)}, quota {self.quota}")


@contextlib.contextmanager
def opened(server):
    """A server that serves, until the end of a `with`."""
    with server as it:
        if it.first != "serving generation 1\n":
            it.process.wait(PATIENCE)
            raise Wrong(f"it doesn't serve: {it.printed()}")
        yield it


def exchanged(server, appid):
    reply = whole(server.exchange(post(request(appid))))
    if reply is None:
        raise Wrong(f"no whole reply to a request for {appid}")
    return reply


def plain(server):
    """The seconds in which a request that takes nothing gets its offer."""
    begun = time.monotonic()
    status, text = exchanged(server, "plain")
    if status != 200 or OFFERED not in text:
        raise Wrong(f"a request that takes nothing: {status} {text}")
    return time.monotonic() - begun


def halted(server):
    """Halts an app, which needs no file, and resumes it."""
    begun = time.monotonic()
    for word, is_offered in (("halt", False), ("resume", True)):
        reply = server.ask(f"{word} spare")
        status, text = exchanged(server, "spare")
        if not reply.startswith("generation ") or (status, OFFERED in text) != (200, is_offered):
            raise Wrong(f"{word}: {reply}, then {status} {text}")
    if time.monotonic() - begun > 2 * PROMPT:
        raise Wrong(f"a halt and a resume take {time.monotonic() - begun:.1f} s")


class Asking:
    """Requests that take nothing, one after another, until the end of a `with`."""

    def __init__(self, server):
        self.server, self.over = server, threading.Event()
        self.times, self.wrong = [], []

    def run(self):
        while not self.over.is_set():
            try:
                self.times.append(plain(self.server))
            except (OSError, Wrong) as error:
                self.wrong.append(error)
                return
            time.sleep(0.005)

    def __enter__(self):
        self.thread = threading.Thread(target=self.run)
        self.thread.start()
        return self

    def __exit__(self, *_):
        self.over.set()
        self.thread.join()

    def prompt(self):
        """The longest, which has to be prompt."""
        if self.wrong or not self.times or max(self.times) > PROMPT:
            raise Wrong(f"others wait: {self.wrong} {max(self.times, default=0):.1f} s")
        return max(self.times)


# ---- devices


@contextlib.contextmanager
def mounted(place, *words, exist_ok=False):
    """A device at a folder, until the end of a `with`."""
    needs("mount", "umount")
    needs_root()
    place.mkdir(exist_ok=exist_ok)
    if (found := called("mount", *words, str(place)))[0] != 0:
        raise Skipped(f"no mount: {found[1].strip()}")
    try:
        yield place
    finally:
        called("umount", "--lazy", str(place))


def tmpfs(place, size="64k"):
    return mounted(place, "-t", "tmpfs", "-o", f"size={size}", "tmpfs")


@contextlib.contextmanager
def disk(place):
    """A file system in a file, which `fsfreeze` can stop."""
    needs("mkfs.ext4", "fsfreeze", "losetup")
    image = place.with_name("image")
    with open(image, "wb") as file:
        file.truncate(8 << 20)
    if (made := called("mkfs.ext4", "-q", str(image)))[0] != 0:
        raise Skipped(f"no file system: {made[1].strip()}")
    with mounted(place, "-o", "loop", str(image)):
        yield place


def fill(place):
    """Takes all room that a folder's device has left."""
    with open(place / "filler", "wb", buffering=0) as file, contextlib.suppress(OSError):
        while True:
            file.write(bytes(512))
