"""Failed allocations in the built program: in its commands, and in servers at both ports."""
import itertools
import re
import subprocess
import time

from asking import (
    Server, app, array, manifest, post, program_of, request, whole, without_moment
)
from refused_steps import LINE as STAGE
from refusing import Wrong, outcome_line

PATIENCE = 60
LINE = re.compile(r"refused ([A-Z]\d+ Memory(?: in (?:--against|OLD|NEW))?)\n")
# What `check --json` prints if memory ran out.
FAULT = re.compile(
    r'\{"manifests":\[\{"accepted":false,"faults":\[\{"reason":"",'
    r'"refusal":"(\w+ Memory)"\}\].*\}\n'
)
# The warnings that `check` prints about accepted manifests.
WARNINGS = re.compile(r"((warning [a-z-]+: |manifest ).*\n)*")
# The progress of `simulate`.
PROGRESS = re.compile(r"^simulated .*\n", re.M)
# The bytes of OUT and PAGE before a command; a picture may only replace a picture, a page a page.
BEFORE = b"<svg> as it was"
PAGE_BEFORE = b"<!DOCTYPE html>\n<!-- A page of rollout report -->\nas it was"
# The time of a page, and how long before it the log ends.
WRITTEN_AT = re.compile(rb"Page written at [^ ]+ |, \d+ \w+ before th(e|is) page")

RULES = {
    "none.rule": "otherwise none;\n",
    "take.rule": "count n[0]; when version < 2.0 and take(q, 0) offer 1; otherwise none;\n",
    "count.rule": "count n[1]; when bucket(77) < 5000 and attr ap is \"beta\" offer 1;\n"
    "otherwise none;\n",
    # It has more labels than one node of their map can hold.
    "a.txt": "".join(f"{label}:\n" for label in "abcdefghijkmnopqrs")
    + "mov r0, 0\nldxh r2, [r1+16]\njge r2, 5000, l\nmov r0, 1\nl: exit\n",
}
ARRAYS = array("q", 64, 1, 1000) + array("n", 64, 2)
TAKING = ARRAYS + app("x", "take.rule", "2.0") + app("y", "count.rule", "2.0")
MANIFESTS = {
    "first.toml": manifest("first", TAKING),
    "next.toml": manifest("next", array("more", 64, 3), TAKING, app("z", "none.rule", "3.0")),
    # The array `more` with another shape: this file loads only if no array of next.toml exists.
    "other.toml": manifest("other", array("more", 32, 5), TAKING),
    "one.toml": manifest("one", app("z", "none.rule", "3.0")),
    "current.toml": manifest("one", app("z", "none.rule", "3.0")),
    "script.txt": "start 0 x 99 1.0\nstep 0 4097\nswap next.toml\nstart 1 z 7 -\nstep 1 4097\n"
    "finish 0\nfinish 1\n",
    "ask.json": request("x", "y"),
    "a.log": '{"time":"2026-11-25T08:30:00.000Z","kind":"connection","status":200,"apps":'
    '[{"appid":"x","version":"1.9","bucket":7,"named":true,"choice":1,"release":"2.1"}]}\n',
}

COMMANDS = {
    "asm": ["asm", "a.txt", "OUT"],
    "list": ["list", "a.bin"],
    "verify": ["verify", "a.bin", "--releases", "1"],
    "verify, with arrays": ["verify", "take.bin", "--releases", "1", "--arrays", "q:64:1:9,n:64:2"],
    "compile": ["compile", "take.rule", "OUT", "--releases", "1", "--arrays", "q:64:1:9,n:64:2"],
    "run": ["run", "take.bin", "--releases", "1", "--arrays", "q:64:1:9,n:64:2", "--version", "1"],
    "order": ["order", "a.bin", "OUT"],
    "explain": ["explain", "a.bin", "--releases", "1"],
    "check": ["check", "next.toml"],
    "check, several": ["check", "first.toml", "next.toml", "--allow", "never-holds"],
    "replay": ["replay", "first.toml", "script.txt"],
    "report": ["report", "a.log", "--svg", "OUT"],
    "simulate": ["simulate", "one.toml", "--against", "one.toml", "--svg", "OUT"],
    "ask": ["ask", "first.toml", "ask.json", "--at", "0", "--cells", "q[0]=3"],
    "ask, why": ["ask", "first.toml", "ask.json", "--at", "0", "--cells", "q[0]=3", "--why"],
    "ask, of a server": ["ask", "first.toml", "ask.json", "--at", "0", "--operator", "PORT"],
    "check, json": ["check", "first.toml", "--json"],
    "completion": ["completion", "bash"],
    "diff": ["diff", "first.toml", "next.toml", "--cells", "q[0]=3"],
    "diff, json": ["diff", "first.toml", "next.toml", "--operator", "PORT", "--json"],
    "report, a page": ["report", "a.log", "--html", "PAGE"],
    "report, a page of all": ["report", "a.log", "--html", "PAGE", "--folder", ".", "--operator",
                              "PORT"],
    "report, continued": ["report", "a.log", "--state", "STATE", "--prometheus"],
    "report, of a server": ["report", "a.log", "--operator", "PORT"],
    "stage, history": ["stage", "history", "--folder", "."],
    "stage, status": ["stage", "status", "--folder", ".", "--no-load"],
    "trace": ["trace", "take.bin", "--releases", "1", "--arrays", "q:64:1:9,n:64:2"],
    "why": ["why", "first.toml", "a.log", "--bucket", "7"],
}
# The files that a call may write, with their bytes before it; without bytes it isn't there.
WRITTEN = {"OUT": BEFORE, "PAGE": PAGE_BEFORE, "STATE": None}


# A simulation allocates for each client, a comparison for each case: after the first 600, every
# 997th is enough.
def some(first):
    return itertools.chain(range(first, 600), itertools.count(600, 997))


CALLS = {"simulate": some, "diff": some, "diff, json": some}


def write_files(folder, program):
    for name, text in (RULES | MANIFESTS).items():
        (folder / name).write_text(text)
    compiled = [word.replace("OUT", "take.bin") for word in COMMANDS["compile"]]
    for words in (["asm", "a.txt", "a.bin"], compiled):
        subprocess.run([program, *words], cwd=folder, check=True, capture_output=True)


def is_refused_event(found, untroubled):
    """Whether a script was played up to an event that ran out of memory, and then continued."""
    before, refused, _ = found[1].partition("refused E6 Memory\n")
    return found[0] == 0 and found[2] == "" and refused and untroubled[1].startswith(before)


def by_manifest(text):
    """The output for each of several manifests, after the line with its name."""
    _, *parts = re.split(r"^manifest (.+)\n", text, flags=re.MULTILINE)
    return dict(zip(parts[::2], parts[1::2]))


def is_refused_check(found, untroubled):
    """Whether one of several manifests ran out of memory, and the output for the others is as
    usual."""
    printed, errors = by_manifest(found[1]), by_manifest(found[2])
    wanted, warned = by_manifest(untroubled[1]), by_manifest(untroubled[2])
    refused = [name for name in wanted if LINE.fullmatch(errors.get(name, ""))]
    if found[0] != 1 or len(refused) != 1 or refused[0] in printed:
        return False
    others = [name for name in wanted if name not in refused]
    return all((printed[it], errors.get(it)) == (wanted[it], warned.get(it)) for it in others)


# A status of a folder whose steps can't be read.
UNREAD = "stage: no step is shown: .stage can't be read: out of memory: try again\n"


def is_partial_status(found, untroubled):
    """Whether a status says that no step is shown, for want of memory, and prints the apps."""
    lines = iter(untroubled[1].splitlines())
    shown = found[1].splitlines()
    return found[0] == 1 and found[2].endswith(UNREAD) and all(it in lines for it in shown)


def bytes_of(path):
    """A file's bytes, but for the time of a page."""
    return WRITTEN_AT.sub(b"", path.read_bytes()) if path.exists() else None


class Commands:
    """The program's commands, each in its own process."""

    def __init__(self, refusal, folder, program):
        self.refusal, self.folder, self.program = refusal, folder, program
        write_files(folder, program)

    def reset(self):
        """Puts the files that a call may write as they are before it."""
        for name, before in WRITTEN.items():
            if before is None:
                (self.folder / name).unlink(missing_ok=True)
            else:
                (self.folder / name).write_bytes(before)

    def once(self, words):
        """Status, output, errors, and the bytes of the files that it may write."""
        how = {"env": self.refusal.env(), "cwd": self.folder, "timeout": PATIENCE}
        words = [program_of(words[0], self.program), *words]
        done = subprocess.run(words, capture_output=True, text=True, **how)
        errors = PROGRESS.sub("", done.stderr)
        written = {it: bytes_of(self.folder / it) for it in WRITTEN}
        return done.returncode, done.stdout, errors, written

    def show(self, name, words):
        def answer(call):
            self.reset()
            self.refusal.ask(call)
            found = self.once(words)
            if not self.refusal.is_reached():
                return None
            return kind(found, self.once(words))

        calls = CALLS.get(name, itertools.count)
        print(outcome_line(f"rollout {name}", self.refusal.in_turn(answer, calls)))

    def run(self, name, words):
        """Makes each allocation fail. PORT is the operator's port of a server without failures."""
        if "PORT" not in words:
            self.show(name, words)
            return
        with Server(self.program, self.folder / "first.toml", 1, cwd=self.folder) as server:
            port = str(server.operator)
            self.show(name, [port if it == "PORT" else it for it in words])


def kind(found, untroubled):
    """How a command with a failed allocation ended; its second result is the usual one."""
    refused = LINE.fullmatch(found[2])
    if untroubled[0] != 0 or not WARNINGS.fullmatch(untroubled[2]):
        raise Wrong(f"again: {untroubled}")
    if refused and found == (1, "", found[2], WRITTEN):
        return refused[1]
    if (fault := FAULT.fullmatch(found[1])) and found == (1, found[1], "", WRITTEN):
        return f"{fault[1]} in JSON"
    if is_refused_event(found, untroubled):
        return "E6 Memory, of an event"
    if is_refused_check(found, untroubled):
        return f"{LINE.search(found[2])[1]} of one manifest"
    if (refused := STAGE.fullmatch(found[2])) and found == (1, "", found[2], WRITTEN):
        return refused[1]
    if is_partial_status(found, untroubled):
        return "out of memory, of the steps"
    if found == untroubled:
        return "done all the same"
    raise Wrong(f"{found}")


ASK = post(request("x", "y"))
CELL = re.compile(r"(\w+\[\d+\]) (\d+)")


def state(server):
    """What the operator can read: apps, counters, and what is halted, each with the generation."""
    return server.ask("show"), server.ask("cells"), server.ask("state")


def serves(server):
    """Whether it answers, and then stops."""
    if server.process.poll() is not None:
        return False
    status, _ = whole(server.exchange(ASK)) or (0, "")
    return status == 200 and server.ask("stop") == "stopping\n" and server.ends() == 0


class Servers:
    """Servers of one worker, with the first manifest."""

    def __init__(self, refusal, folder, program):
        self.refusal, self.folder, self.program = refusal, folder, program

    def server(self):
        how = {"env": self.refusal.env(), "cwd": self.folder}
        return Server(self.program, self.folder / "first.toml", 1, **how)

    def show(self, name, task):
        print(outcome_line(f"server: {name}", self.refusal.in_turn(lambda call: task(self, call))))

    def start(self, call):
        """A server that starts also serves; if an allocation fails, it prints only that."""
        self.refusal.ask(call)
        with self.server() as server:
            if server.first == "":
                status, printed = server.ends(), server.printed()
                if status != 1 or not LINE.fullmatch(printed):
                    raise Wrong(f"status {status}, {printed!r}")
                answer = LINE.fullmatch(printed)[1]
            else:
                # Allocations that follow its line `serving`.
                time.sleep(0.05)
                answer = "serves all the same"
            if not self.refusal.is_reached():
                return None
            if server.first != "" and not serves(server):
                raise Wrong(f"it says {server.first!r}, and then {server.printed()!r}")
        with self.server() as server:
            if not serves(server):
                raise Wrong(f"again: {server.first!r}, {server.printed()!r}")
        return answer

    def at_operator(self, call, line, untroubled, again, earlier=()):
        """Sends a line to a server in which this allocation fails, and then calls `again`."""
        self.refusal.ask(0)
        with self.server() as server:
            server.exchange(ASK)
            for it in earlier:
                server.ask(it)
            before = state(server)
            self.refusal.ask(call)
            reply = server.ask(line)
            if not self.refusal.is_reached():
                return None
            if reply == untroubled(before):
                return "done all the same"
            if not LINE.fullmatch(reply):
                raise Wrong(f"{reply!r}")
            if state(server) != before:
                raise Wrong(f"{reply!r}, and {before} became {state(server)}")
            again(server, before)
            return LINE.fullmatch(reply)[1]

    def operate(self, call, line, untroubled, earlier=()):
        def again(server, before):
            if (reply := server.ask(line)) != untroubled(before):
                raise Wrong(f"again: {reply!r}")

        return self.at_operator(call, line, untroubled, again, earlier)

    def load(self, call):
        """A failed load leaves no arrays: a load that declares one of them differently succeeds."""

        def next_one(server, before):
            if server.ask("load next.toml") != "generation 2\n":
                raise Wrong("again: no generation 2")
            shown, cells, _ = state(server)
            if cells != before[1] or "app z releases 1 slots" not in shown:
                raise Wrong(f"again: {shown} {cells}")

        def other_one(server, _before):
            if (reply := server.ask("load other.toml")) != "generation 2\n":
                raise Wrong(f"an array of a refused load is kept: {reply!r}")

        self.at_operator(call, "load next.toml", lambda _: "generation 2\n", other_one)
        return self.at_operator(call, "load next.toml", lambda _: "generation 2\n", next_one)


class Answers:
    """One server that gets requests for two apps, each of which counts."""

    # How much the counters rise if no app was run, the first, or both.
    RUNS = [{}, {"q[0]": 1, "n[0]": 1}, {"q[0]": 1, "n[0]": 1, "n[1]": 1}]

    def __init__(self, servers):
        self.servers = servers

    def risen(self, server):
        """How much each counter has risen since the last call."""
        found = {name: int(value) for name, value in CELL.findall(server.ask("cells"))}
        risen = {name: value - self.cells.get(name, 0) for name, value in found.items()}
        self.cells = found
        return {name: by for name, by in risen.items() if by}

    def judged(self, server, reply):
        """How it answered; the counters must have risen by the runs that were made."""
        status, text = whole(reply) or (0, "")
        if status == 200 and without_moment(text) == self.untroubled:
            allowed, answer = self.RUNS[2:], "done all the same"
        elif status == 500 and text in ("P9 Memory\n", "O5 Memory\n"):
            allowed, answer = self.RUNS, f"500 {text.strip()}"
        else:
            raise Wrong(f"{status} {text!r}")
        if (risen := self.risen(server)) not in allowed:
            raise Wrong(f"{answer}, and the counters rose by {risen}")
        return answer

    def twice(self, server, call):
        """Sends a request while this allocation fails, and a second request."""
        self.servers.refusal.ask(call)
        reply = server.exchange(ASK)
        is_reached = self.servers.refusal.is_reached()
        answer = self.judged(server, reply)
        if not is_reached:
            return None
        if self.judged(server, server.exchange(ASK)) != "done all the same":
            raise Wrong("again: another answer")
        return answer

    def show(self):
        refusal = self.servers.refusal
        refusal.ask(0)
        self.cells = {}
        with self.servers.server() as server:
            self.untroubled = without_moment(whole(server.exchange(ASK))[1])
            self.risen(server)
            answers = refusal.in_turn(lambda call: self.twice(server, call))
            print(outcome_line("server: a request of two apps", answers))


SERVER = {
    "start": Servers.start,
    "load": Servers.load,
    "show": lambda servers, call: servers.operate(call, "show", lambda before: before[0]),
    "cells": lambda servers, call: servers.operate(call, "cells", lambda before: before[1]),
    "state": lambda servers, call: servers.operate(call, "state", lambda before: before[2]),
    "halt": lambda servers, call: servers.operate(call, "halt x", lambda _: "generation 2\n"),
    "resume": lambda servers, call: servers.operate(
        call, "resume x", lambda _: "generation 3\n", ["halt x"]
    ),
    "stop": lambda servers, call: servers.operate(call, "stop", lambda _: "stopping\n"),
}
