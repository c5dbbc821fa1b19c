"""Calls of `stage` with something in their way: another call, a crash, a disk that refuses."""
import contextlib
import fcntl
import itertools
import os
import shutil
import subprocess
import threading

from nightly.draws import draw_call
from nightly.expectations import expect, halt_servers
from nightly.night import AT_WORK, KEPT, UNCHANGED
from nightly.plans import plan_of
from nightly.served import untrue_words

# Calls of the system at which a call of `stage` is killed or refused, and by which errors.
ERRORS = {
    "rename": ("ENOSPC", "EROFS", "EIO"), "write": ("ENOSPC", "EIO"), "fsync": ("EIO", "ENOSPC"),
    "openat": ("ENOSPC", "EROFS", "EACCES", "EMFILE"), "mkdir": ("EROFS", "ENOSPC"),
    "connect": ("ECONNREFUSED", "ETIMEDOUT"), "close": ("EIO",), "sendto": ("EPIPE",),
    "unlink": ("EROFS",),
}
# What a stop says if a step isn't undone by its record.
AGAIN = "call stage back again\n"
# At which of these calls, at most.
MOST = {"openat": 60, "write": 14, "close": 60, "rename": 4}


def settle(night, call, printed, is_killed):
    """What a call with something in its way may have left, and whether it says so. From here on the
    oracle knows what there is."""
    status, output, errors = printed
    plan, found = plan_of(night, call), night.found()
    for text in untrue_words(night, errors):
        night.wrong(text)
    leavings = [it for it in found if it.endswith(".new")]
    for it in leavings:
        if not is_killed:
            night.wrong(f"{it} is left over")
        (night.folder / it).unlink()
        found.pop(it)
    expected = {} if plan.stops else plan.files
    changed = [n for n in {*found, *night.files} if found.get(n) != night.files.get(n)]
    for name in changed:
        if name not in expected or found.get(name) != expected[name]:
            night.wrong(f"{name} is lost: {found.get(name)!r}, not {night.files.get(name)!r}")
    for line in output.splitlines():
        if line.startswith("replaced ") and line[9:] not in changed:
            night.wrong(f"untrue: {line}")
    prints_same = UNCHANGED in errors or KEPT in errors
    if prints_same and changed:
        night.wrong(f"untrue: nothing has changed, but {changed}")
    if status == 0 and not call.dry_run and len(changed) != len(expected):
        night.wrong(f"status 0, but {sorted(set(expected) - set(changed))} aren't replaced")
    if call.dry_run and changed:
        night.wrong(f"a dry run has changed {changed}")
    settle_steps(night, plan, changed, expected, errors)
    night.files = found
    if plan.step in night.steps or plan.undone or UNCHANGED not in errors:
        night.left += [plan.now, plan.then, night.load()]
    for it in night.servers:
        if it.is_up:
            is_whole = len(changed) == len(expected)
            settle_server(night, call, plan, it, UNCHANGED in errors, is_whole)


def settle_steps(night, plan, changed, expected, errors):
    """The records after a call with something in its way."""
    records = night.recorded()
    if plan.step:
        if plan.step.spelt() in records:
            night.steps.append(plan.step)
            if UNCHANGED in errors or f"{KEPT}\n" in errors:
                night.wrong("untrue: nothing has changed, but the step is recorded")
        elif "but the record of step" in errors:
            night.wrong("untrue: the step isn't recorded")
        elif changed:
            night.wrong(f"no record of {changed}: {records}, not {plan.step.spelt()}")
    if plan.undone:
        plan.undone.is_undone = True
        if plan.undone.spelt() not in records:
            plan.undone.is_undone = False
        elif len(changed) != len(expected):
            night.wrong(f"undone, but {sorted(set(expected) - set(changed))} aren't restored")
        elif UNCHANGED in errors or AGAIN in errors:
            night.wrong("untrue: the step is undone")
        if "the step is undone, but" in errors and not plan.undone.is_undone:
            night.wrong("untrue: the step isn't undone")


def settle_server(night, call, plan, server, prints_same, is_whole):
    """What a call with something in its way may have left at a server. `is_whole`: all files are as
    the call leaves them."""
    place = f"server at {server.operator}"
    generation, digest, path, halts = server.state()
    if generation < server.generation or prints_same and generation != server.generation:
        night.wrong(f"{place}: generation {generation} after {server.generation}")
    is_next = plan.then is not None and digest == plan.then.digest()
    if digest != server.load.digest() and not (is_next and is_whole):
        night.wrong(f"{place} has loaded {digest}")
    may_lift = {*plan.lifted, *plan.maybe_lifted} if is_next and not plan.stops else set()
    may_halt = {call.appid} if call.word == "halt" else set()
    if more := {*halts} - {*server.halts} - may_halt:
        night.wrong(f"{place} halts {more}")
    if less := {*server.halts} - {*halts} - may_lift:
        night.wrong(f"{place} lifts the halts {less}")
    server.load = plan.then if is_next else server.load
    server.generation, server.path, server.halts = generation, type(server.path)(path), halts


# ---- what is in the way


def acts_under_strace(night):
    """A call that is killed at a write, or of which one is refused."""
    if not shutil.which("strace"):
        return night.note("it takes strace")
    call = draw_call(night)
    name = night.chance.choice([*ERRORS])
    number = night.chance.randint(1, MOST.get(name, 5))
    is_killed = night.chance.random() < 0.6
    what = "signal=SIGKILL" if is_killed else f"error={night.chance.choice(ERRORS[name])}"
    ahead = ["strace", "-f", "--seccomp-bpf", "-qqq", "-o", "/dev/null",
             "-e", f"trace={name}", "-e", f"inject={name}:{what}:when={number}"]
    printed = night.call(call, ahead)
    return settle(night, call, printed, name == "unlink" or is_killed and printed[0] not in (0, 1))


def acts_killed_in_time(night):
    """A call that is killed after a moment."""
    call = draw_call(night)
    after = 2 * night.chance.random() ** 2
    printed = night.call(call, ["timeout", "-s", "KILL", f"{after:.3f}"])
    settle(night, call, printed, printed[0] not in (0, 1))


def acts_on_a_full_disk(night):
    """A call in a folder without free space."""
    if not night.is_mounted:
        return night.note("it takes root")
    call, filler = draw_call(night), night.folder / ".stage-filler"
    free = night.chance.choice((0, 0, 4096, 8192, 12288))
    room = os.statvfs(night.folder)
    with open(filler, "wb") as file, contextlib.suppress(OSError):
        file.write(bytes(max(0, room.f_bavail * room.f_frsize - free)))
    printed = night.call(call)
    filler.unlink()
    return settle(night, call, printed, False)


def acts_in_a_read_only_folder(night):
    """A call in a folder to which nothing can be written."""
    if not night.is_mounted:
        return night.note("it takes root")
    call = draw_call(night)
    mount = ["mount", "-o", "remount,ro", str(night.folder)]
    subprocess.run(mount, check=True)
    printed = night.call(call)
    mount[2] = "remount,rw"
    subprocess.run(mount, check=True)
    return settle(night, call, printed, False)


def orders(calls):
    """In which orders two calls may take place. A halt has two parts, of which the first needs no
    lock: the servers, and then the files."""
    parts = [(k, part) for k in (0, 1) for part in ("servers", "files")]
    parts = [it for it in parts if it[1] == "files" or calls[it[0]].word == "halt"]
    for order in itertools.permutations(parts):
        if all(order.index((k, "servers")) < order.index((k, "files"))
               for k, part in order if part == "servers"):
            yield order


def acts_beside_another(night):
    """Two calls at the same time: as if one came after the other, or between the servers and the
    files of a halt; or one stops at the other."""
    calls, printed = [draw_call(night), draw_call(night)], {}
    threads = [
        threading.Thread(target=lambda k=k: printed.update({k: night.call(calls[k])}))
        for k in (0, 1)
    ]
    for it in threads:
        it.start()
    for it in threads:
        it.join()
    tried, saved = [], night.saved()
    for order in orders(calls):
        night.restore(saved)
        complaints = []
        for k, part in order:
            if part == "servers":
                complaints += halt_servers(night, calls[k], printed[k][2])[1]
            elif AT_WORK not in printed[k][2]:
                complaints += expect(night, calls[k], printed[k], is_loose=True)
        for it in night.servers:
            if it.is_up:
                it.generation = it.state()[0]
        complaints += night.differences()
        if not complaints:
            return
        tried.append(complaints)
    night.wrong(f"two calls at once: {tried}")


def acts_after_a_lock(night):
    """A call while another one is at work for a second: only a halt waits."""
    call = draw_call(night)
    with night.locked() as held:
        if call.word == "halt":
            timer = threading.Timer(1, fcntl.flock, [held, fcntl.LOCK_UN])
            timer.start()
            printed = night.call(call)
            timer.join()
        else:
            printed = night.call(call)
    if call.word == "halt":
        for text in expect(night, call, printed):
            night.wrong(text)
    elif printed[0] != 1 or AT_WORK not in printed[2]:
        if not (call.dry_run and printed[0] == 0):
            night.wrong("it has to stop at the lock")
    elif UNCHANGED not in printed[2]:
        night.wrong(f"{UNCHANGED} isn't printed")
