"""Failed allocations in steps of `stage` that write, each on a folder of its own."""
import itertools
import re
import shutil
import subprocess

from asking import app, manifest, program_of
from refusing import Wrong, outcome_line

PATIENCE = 60
# The last line: what is refused and why, or what a step found out of memory.
LINE = re.compile(r"(?:.*\n)*(?:refused |stage: .*[ (])([BM]\d Memory|out of memory)\b.*\n")
# What it says if a manifest couldn't be loaded, and `--anyway` continues.
UNCOMPARED = "stage: a manifest is refused, so what changes isn't compared\n"
# What it says if `stage back` has to undo a part of the step.
HALFWAY = "call stage back"

TWO = app("x", "x.rule", "2.1") + app("y", "y.rule", "1.4")
FILES = {
    "served/current.toml": manifest("", TWO),
    "served/x.rule": "when bucket < 500 offer 1;\notherwise none;\n",
    "served/y.rule": "when bucket < 700 offer 1;\notherwise none;\n",
    "next/current.toml": manifest("next", TWO),
    "next/x.rule": "when bucket < 600 offer 1;\notherwise none;\n",
    "next/y.rule": "when bucket < 800 offer 1;\notherwise none;\n",
}

PLACE = ["--folder", "served", "--no-load"]
# A step, and the steps before it.
STEPS = {
    "halt": (["halt", "x"], []),
    "halt, a release": (["halt", "x", "2.1"], []),
    "raise": (["raise", "x", "2500"], []),
    "put": (["put", "next/current.toml"], []),
    "resume": (["resume", "x"], [["halt", "x", "2.1"]]),
    "back": (["back", "--anyway"], [["halt", "x"]]),
}


def some(first):
    """The first 600 allocations, and then every 97th."""
    return itertools.chain(range(first, 600), itertools.count(600, 97))


def served(folder):
    """The bytes of the files that servers load."""
    files = [it for it in (folder / "served").iterdir() if it.suffix in (".toml", ".rule")]
    return {it.name: it.read_bytes() for it in files}


class Steps:
    """Each call begins with the same files. A file keeps its bytes, or has the step's."""

    def __init__(self, refusal, folder, program):
        self.refusal, self.program = refusal, program
        self.start, self.room = folder / "start", folder / "room"

    def call(self, folder, words):
        words = [program_of("stage", self.program), "stage", *words, *PLACE]
        how = {"env": self.refusal.env(), "cwd": folder, "timeout": PATIENCE}
        done = subprocess.run(words, capture_output=True, text=True, **how)
        return done.returncode, done.stdout, done.stderr

    def prepare(self, before):
        shutil.rmtree(self.start, ignore_errors=True)
        for name, text in FILES.items():
            (self.start / name).parent.mkdir(parents=True, exist_ok=True)
            (self.start / name).write_text(text)
        for words in before:
            self.succeed(self.start, words)

    def succeed(self, folder, words):
        done = self.call(folder, words)
        if done[0] != 0:
            raise Wrong(f"again: {done}")
        return done

    def begin(self):
        shutil.rmtree(self.room, ignore_errors=True)
        shutil.copytree(self.start, self.room)

    def judged(self, found, untroubled, old, new):
        files = served(self.room)
        if any(files.get(it) not in (old.get(it), new.get(it)) for it in old | new | files):
            raise Wrong(f"{found}: a file has other bytes")
        if found == untroubled and files == new:
            return "done all the same"
        is_done = found[0] == 0 and files == new and untroubled[1].endswith(found[1])
        if is_done and UNCOMPARED in found[2]:
            return "done, not compared"
        refused = LINE.fullmatch(found[2])
        if found[0] == 1 and refused:
            changed = "" if files == old else ", after a file was replaced"
            return f"{refused[1]}{changed}"
        raise Wrong(f"{found}")

    def run(self, name):
        words, before = STEPS[name]
        self.refusal.ask(0)
        self.prepare(before)
        self.begin()
        old = served(self.room)
        untroubled = self.succeed(self.room, words)
        new = served(self.room)

        def answer(call):
            self.begin()
            self.refusal.ask(call)
            found = self.call(self.room, words)
            if not self.refusal.is_reached():
                return None
            ended = self.judged(found, untroubled, old, new)
            if HALFWAY in found[2]:
                self.succeed(self.room, ["back", "--anyway"])
            if ended != "done all the same" and served(self.room) != new:
                self.succeed(self.room, words)
            if served(self.room) != new:
                raise Wrong(f"again: after {found} the files have other bytes")
            return ended

        print(outcome_line(f"rollout stage {name}", self.refusal.in_turn(answer, some)))
