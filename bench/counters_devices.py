"""Checks of `bench/counters`: a folder that is full, read-only or gone, and a device that hangs.

In each a request that takes nothing is answered at once, and an app can be halted. A request that
takes a place gets its offer only if the file covers it, or else 503, K4; afterwards offers again.
Each check is given the program and an empty folder, and returns what it counted.
"""
import contextlib
import random
import re
import shutil
import signal
import time

from counters_servers import PROMPT, Asking, Rig, disk, fill, halted, mounted, opened, tmpfs
from counters_text import read
from hosts import Wrong, called

QUOTA = 10_000
FEW = 100
# A reply that takes a place waits two seconds for the file.
WAITS = (1.5, 8.0)
# Takes until one is withheld: at most this many are covered ahead of use.
MOST_AHEAD = QUOTA // 64 + 1
RECOVERY = 10
CUTS = 40


def until_withheld(rig, server):
    """Takes until a reply is withheld; the seconds that this one took."""
    for _ in range(2 * MOST_AHEAD):
        is_offer, seconds = rig.take(server)
        if is_offer is None:
            return seconds
    raise Wrong(f"no reply is withheld of {vars(rig.tally)}")


def until_offered(rig, server):
    """Takes until there is an offer again."""
    until = time.monotonic() + RECOVERY
    while time.monotonic() < until:
        if rig.take(server)[0]:
            return
        time.sleep(0.1)
    raise Wrong(f"no offers for {RECOVERY} s after it: {vars(rig.tally)}")


def withheld_while(rig, server, broken):
    """While the folder is broken: offers that are covered, then 503 at once; others are answered.
    Then offers again. Returns the longest time of another request."""
    rig.take(server)
    with broken, Asking(server) as others:
        until_withheld(rig, server)
        for _ in range(20):
            is_offer, seconds = rig.take(server)
            if is_offer is not None or seconds > PROMPT:
                raise Wrong(f"after a reply that was withheld: {is_offer} after {seconds:.1f} s")
        halted(server)
    until_offered(rig, server)
    return others.prompt()


@contextlib.contextmanager
def filled(place):
    fill(place)
    yield
    (place / "filler").unlink()


@contextlib.contextmanager
def read_only(place):
    """The folder itself, mounted over it once more."""
    with mounted(place, "--bind", str(place), exist_ok=True):
        if (found := called("mount", "-o", "remount,bind,ro", str(place)))[0] != 0:
            raise OSError(found[1])
        yield


@contextlib.contextmanager
def gone(place):
    shutil.rmtree(place)
    yield
    place.mkdir()


def broken_and_mended(rig, breaks):
    """A server whose folder breaks, twice. The log has a line for each change."""
    rig.options = ["--log"]
    with opened(rig.server()) as server:
        longest = max(withheld_while(rig, server, breaks(rig.place)) for _ in range(2))
        rig.stopped(server)
        lines = re.findall(r'"kind":"counters"(.*)', server.printed())
    if ['"refusal":"K4 Store"' in it for it in lines] != [True, False] * 2:
        raise Wrong(f"the log has {lines}")
    rig.exact()
    summary = f"{rig.tally.offers} offers, {rig.tally.withheld} replies by 503, others within "
    return f"{summary}{longest:.2f} s"


def ends_broken(rig, breaks):
    """A stop while the folder is broken ends with status 1; the file then covers each offer. A
    start is refused by K4."""
    with opened(rig.server()) as server:
        rig.take(server)
        with breaks(rig.place):
            before = rig.file.read_bytes()
            rig.stopped(server, 1)
            if "refused K4 Store" not in server.printed():
                raise Wrong(f"a stop: {server.printed()}")
            rig.refused("K4 Store")
            if rig.file.read_bytes() != before or rig.number() < rig.tally.offers:
                raise Wrong(f"a stop leaves {rig.number()}, after {rig.tally.offers} offers")


def full_disk(program, folder):
    with tmpfs(folder / "disk") as place:
        rig = Rig(program, folder, QUOTA, place)
        summary = broken_and_mended(rig, filled)
        ends_broken(rig, filled)
        return summary


def used_up(program, folder):
    """A quota's places that the file doesn't cover get 503 while the disk is full; each request after
    its last place is answered, without an offer."""
    with tmpfs(folder / "disk") as place:
        rig = Rig(program, folder, FEW, place)
        with opened(rig.server()) as server:
            rig.take(server)
            with filled(place):
                while rig.tally.takes() < FEW:
                    rig.take(server)
                withheld = rig.tally.withheld
                for _ in range(20):
                    is_offer, seconds = rig.take(server)
                    if is_offer is not False or seconds > PROMPT:
                        raise Wrong(f"after the last place: {is_offer} after {seconds:.1f} s")
            rig.stopped(server)
        rig.exact()
    if not withheld or rig.tally.offers + withheld != FEW:
        raise Wrong(f"of a quota of {FEW}: {vars(rig.tally)}")
    return f"{rig.tally.offers} offers, {withheld} replies by 503, then {rig.tally.none} answered"


def rig_in_folder(program, folder):
    """A rig whose file is in a folder of its own."""
    (folder / "place").mkdir()
    return Rig(program, folder, QUOTA, folder / "place")


def read_only_folder(program, folder):
    rig = rig_in_folder(program, folder)
    summary = broken_and_mended(rig, read_only)
    ends_broken(rig, read_only)
    return summary


def folder_gone(program, folder):
    rig = rig_in_folder(program, folder)
    summary = broken_and_mended(rig, gone)
    shutil.rmtree(folder / "place")
    rig.refused("K4 Store")
    return summary


@contextlib.contextmanager
def frozen(place):
    """Writes to the device wait. A process that waits so can't even be killed."""
    if (found := called("fsfreeze", "--freeze", str(place)))[0] != 0:
        raise OSError(found[1])
    try:
        yield
    finally:
        called("fsfreeze", "--unfreeze", str(place))


def stopped_while(rig, server, frozen):
    """A stop is answered at once, and the server ends when its file is written."""
    with frozen:
        begun = time.monotonic()
        server.ask("stop")
        if time.monotonic() - begun > PROMPT:
            raise Wrong("a stop isn't answered while the device hangs")
        time.sleep(1)
        if server.process.poll() is not None:
            raise Wrong("a server has ended without its file")
    if server.ends() != 0:
        raise Wrong(f"a stop ends with {server.process.returncode}: {server.printed()}")


def hangs(program, folder):
    """The first reply waits two seconds, and gets 503; all later ones get it at once."""
    waits = []
    with disk(folder / "disk") as place:
        rig = Rig(program, folder, QUOTA, place)
        with opened(rig.server()) as server:
            rig.take(server)
            longest = 0
            for _ in range(3):
                with frozen(place), Asking(server) as others:
                    waits.append(until_withheld(rig, server))
                    for _ in range(20):
                        is_offer, seconds = rig.take(server)
                        if is_offer is not None or seconds > PROMPT:
                            raise Wrong(f"a second reply: {is_offer} after {seconds:.1f} s")
                    halted(server)
                until_offered(rig, server)
                longest = max(longest, others.prompt())
            stopped_while(rig, server, frozen(place))
        rig.exact()
    if not all(WAITS[0] <= it <= WAITS[1] for it in waits):
        raise Wrong(f"replies waited {waits}")
    summary = f"{rig.tally.offers} offers, {rig.tally.withheld} replies by 503, the first of each"
    return f"{summary} time after {max(waits):.1f} s, others within {longest:.2f} s"


def hangs_briefly_limited(program, folder):
    """Of a server whose connections last a second, the first reply waits half of that."""
    with disk(folder / "disk") as place:
        rig = Rig(program, folder, QUOTA, place)
        rig.options = ["--timeout", "1"]
        with opened(rig.server()) as server:
            rig.take(server)
            with frozen(place):
                waited = until_withheld(rig, server)
            until_offered(rig, server)
            rig.stopped(server)
        rig.exact()
    if not 0.4 <= waited <= 1:
        raise Wrong(f"a reply waited {waited:.1f} s")
    return f"503 after {waited:.2f} s"


def power_cuts(program, folder):
    """The device's blocks as they are at random moments, and so after a loss of power. The server
    is stopped meanwhile, so that they are of one moment."""
    image, copy, spared = folder / "image", folder / "copy", []
    with disk(folder / "disk") as place:
        rig = Rig(program, folder, 100 * QUOTA, place)
        with opened(rig.server()) as server:
            for _ in range(CUTS):
                for _ in range(random.randrange(40)):
                    rig.take(server)
                server.process.send_signal(signal.SIGSTOP)
                shutil.copyfile(image, copy)
                server.process.send_signal(signal.SIGCONT)
                with mounted(folder / "found", "-o", "loop", str(copy), exist_ok=True) as found:
                    kept = read((found / "counters").read_bytes())
                spared.append(kept.values.get(("q", 0), 0) - rig.tally.offers)
            rig.stopped(server)
        rig.exact()
    if min(spared) < 0:
        raise Wrong(f"after a loss of power the file lacks {-min(spared)} offers")
    return f"{CUTS} moments, {rig.tally.offers} offers, {max(spared)} places ahead at most"


DEVICES = {
    "a full disk": full_disk,
    "a read-only folder": read_only_folder,
    "a folder that is removed": folder_gone,
    "a quota that is used up on a full disk": used_up,
    "a device that hangs": hangs,
    "a device that hangs, and a time limit of a second": hangs_briefly_limited,
    "a loss of power": power_cuts,
}
