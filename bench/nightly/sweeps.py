"""Some calls of `stage`, of which each call of the system is refused in turn, or the last one."""
import re
import shutil

from nightly.calls import Call
from nightly.draws import AGENT, EDITOR, TOOL, put_elsewhere
from nightly.expectations import expect
from nightly.rules import PROGRAMS, manifest, rule
from nightly.servers import Watched
from nightly.trouble import settle

# The calls of the system that are refused, and how; each is also killed.
REFUSED = {
    "openat": "EIO", "read": "EIO", "write": "ENOSPC", "rename": "EIO", "fsync": "EIO",
    "mkdir": "EROFS", "connect": "ETIMEDOUT", "sendto": "EPIPE", "recvfrom": "EIO",
}
FIRST = {
    "editor.rule": rule(("version < 2.1 and bucket < 500", 1)),
    "tool.rule": rule(("version < 2.1 and bucket < 500", 1)),
    "agent.bin": [*PROGRAMS][1],
}
NEXT = FIRST | {name: rule(("version < 2.1 and bucket < 2500", 1)) for name in ("editor.rule",
                                                                               "tool.rule")}


def first(night):
    return FIRST | {"current.toml": manifest([EDITOR, TOOL, AGENT])}


def put_of(night, **how):
    files = NEXT | {"current.toml": manifest([EDITOR, TOOL, AGENT], "next")}
    return Call("put", source=files, path=str(put_elsewhere(night, files)), **how)


def call_of(word, appid="", share="", version="", **how):
    return lambda night: Call(word, appid, share, version, **how)


# The calls before, and the call that is swept.
SWEEPS = {
    "a halt": ([], call_of("halt", "editor")),
    "a halt beside another": ([call_of("halt", "editor")], call_of("halt", "agent")),
    "a halt of a release": ([], call_of("halt", "editor", version="2.1")),
    "back from a halt of a release": (
        [call_of("halt", "editor", version="2.1")], call_of("back", anyway=True)),
    "the same halt": ([call_of("halt", "editor")], call_of("halt", "editor")),
    "a raise beside a halt": ([call_of("halt", "editor")], call_of("raise", "tool", "50%")),
    "a put": ([], put_of),
    "a put that would lift a halt": ([call_of("halt", "editor")], put_of),
    "a put that lifts a halt": (
        [call_of("halt", "editor")], lambda night: put_of(night, anyway=True)),
    "a resume": ([call_of("halt", "editor")], call_of("resume", "editor", "1%")),
    "back from a halt": ([call_of("halt", "editor")], call_of("back")),
    "back from a halt, anyway": ([call_of("halt", "agent")], call_of("back", anyway=True)),
    "back from a put": ([put_of], call_of("back", anyway=True)),
    "back from a lower share": (
        [call_of("raise", "tool", "1%", anyway=True)], call_of("back")),
}


def prepared(night, before):
    """One server of the first files, once these calls are made."""
    for name, text in first(night).items():
        night.write(name, text)
    server = Watched(night, 0, False)
    night.servers.append(server)
    server.begin()
    for it in before:
        call = it(night)
        call.servers = [server]
        for text in expect(night, call, night.call(call)):
            night.wrong(text)


class Restored:
    """A night as it is now, to be had again."""

    def __init__(self, night):
        self.night, self.saved = night, night.saved()
        self.records = night.room / "records"
        self.kept = (night.folder / ".stage").exists()
        if self.kept:
            shutil.copytree(night.folder / ".stage", self.records)

    def again(self):
        night = self.night
        for name in {*night.found()} - {*self.saved[0]}:
            (night.folder / name).unlink()
        for name, text in self.saved[0].items():
            night.write(name, text)
        shutil.rmtree(night.folder / ".stage", ignore_errors=True)
        if self.kept:
            shutil.copytree(self.records, night.folder / ".stage")
        night.restore(self.saved)
        for it in night.servers:
            it.ask(f"load {night.folder}/current.toml")
            for app in it.state()[3]:
                it.ask(f"resume {app}")
            for app in reversed(it.halts):
                it.ask(f"halt {app}")
            it.generation = it.state()[0]


def places(night, call, name):
    """At which of its calls of this name a call of `stage` touches the folder or a server."""
    log = night.room / "trace"
    night.call(call, ["strace", "-f", "--seccomp-bpf", "-qqq", "-y", "-o", str(log),
                      "-e", f"trace={name}"])
    lines = [it for it in log.read_text().splitlines() if re.search(rf"\b{name}\(", it)]
    mine = (f"{night.room}/", "socket:", "(1<", "(2<")
    return [k + 1 for k, it in enumerate(lines) if any(text in it for text in mine)]


def sweep(night, title):
    """Yields what went wrong at each place of a call."""
    before, call_at = SWEEPS[title]
    prepared(night, before)
    call = call_at(night)
    call.servers = list(night.servers)
    it = Restored(night)
    for name, error in REFUSED.items():
        numbers = places(night, call, name)
        for number in numbers:
            for what in (f"error={error}", "signal=SIGKILL"):
                it.again()
                night.complaints.clear()
                printed = night.call(call, [
                    "strace", "-f", "--seccomp-bpf", "-qqq", "-o", "/dev/null",
                    "-e", f"trace={name}", "-e", f"inject={name}:{what}:when={number}",
                ])
                settle(night, call, printed, printed[0] not in (0, 1))
                night.compare()
                back_again(night, call, it)
                yield f"{title}, {name} {number}, {what}", list(night.complaints), printed
        it.again()


def back_again(night, call, before):
    """A step that was stopped can be undone, and its files are as before. A call of `back` that was
    stopped can be made again."""
    left = [it for it in night.steps if not it.is_undone]
    if night.complaints or not left:
        return
    if call.word != "back" and not night.has_stopped(night.steps[-1]):
        return
    step, again = left[-1], call
    if call.word != "back":
        again = Call("back", anyway=True, servers=list(night.servers))
    printed = night.call(again)
    for text in expect(night, again, printed):
        night.wrong(f"back after it: {text}")
    files = before.saved[0] | (step.before if step.is_undone else {})
    if night.found() != {name: text for name, text in files.items() if text is not None}:
        night.wrong("back after it: the files aren't as before")
