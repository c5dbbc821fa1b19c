"""One night: a folder, its servers, what the oracle knows of both, and how they are compared."""
import contextlib
import fcntl
import json
import os
import re
import shutil
import subprocess

from nightly.rules import KNOWN, Load, load_of, machines
from nightly.servers import run

NUMBERED = re.compile(r"^(\w+ step \d+ of) \S+?( by [^:]*)?: (.*)$", re.M)
AT_WORK = "another `rollout stage` is at work here"
UNCHANGED, KEPT = "nothing has changed", "no file has changed"


def step_in(record):
    """What a record of a step has, besides its time."""
    (word, what), = record["action"].items()
    if isinstance(what, dict):
        more = (str(what[it]) for it in ("buckets", "version") if it in what)
        word, what = word.removesuffix("_release"), " ".join([what["appid"], *more])
    files = [(it["name"], it["before"], it["after"]) for it in record["files"]]
    texts = record.get("user", ""), record.get("because", "")
    return record["number"], f"{word} {what}", *texts, record["undone"], files


class Night:
    """What is on the disk and at the servers, and what has to be."""

    def __init__(self, room, programs, chance, size="256k"):
        self.room, self.programs, self.chance = room, programs, chance
        self.folder = room / "etc"
        self.folder.mkdir(parents=True)
        mount = ["mount", "-t", "tmpfs", "-o", f"size={size}", "tmpfs", str(self.folder)]
        how = {"check": False, "stderr": subprocess.DEVNULL}
        self.is_mounted = os.geteuid() == 0 and subprocess.run(mount, **how).returncode == 0
        self.files, self.modes, self.steps, self.servers = {}, {}, [], []
        # What was in place before and after each step, also one that is undone, or that replaced
        # nothing and only loaded.
        self.left = []
        self.complaints, self.transcript = [], []

    def close(self):
        for it in self.servers:
            if it.is_up:
                it.__exit__()
        if self.is_mounted:
            subprocess.run(["umount", "-l", str(self.folder)], check=False)
        shutil.rmtree(self.room, ignore_errors=True)

    def wrong(self, text):
        self.complaints.append(text)

    # ---- the folder

    def write(self, name, text):
        """An edit by hand, which the oracle sees."""
        path = self.folder / name
        path.parent.mkdir(exist_ok=True)
        path.write_bytes(text)
        path.chmod(0o640)
        self.files[name] = text
        self.modes.pop(name, None)

    def found(self):
        """Each file of the folder that isn't a record."""
        files = (it for it in self.folder.rglob("*") if it.is_file())
        names = {str(it.relative_to(self.folder)): it for it in files}
        return {n: it.read_bytes() for n, it in names.items() if not n.startswith(".stage")}

    def load(self):
        return load_of(self.files)

    def load_without_faults(self):
        """What is in place though a rule or a program has a fault."""
        apps = KNOWN.get(self.files.get("current.toml"))
        if apps is None:
            return None
        return Load(self.files["current.toml"], apps, tuple(self.files.get(it.file) for it in apps))

    # ---- the steps

    def has_stopped(self, step):
        """Whether a file of a step is as the step found it: so the next step found it that has it,
        or else it is so now."""
        later = self.steps[self.steps.index(step) + 1:]
        for name, before in step.before.items():
            found = (it.before[name] for it in later if name in it.before)
            if next(found, self.files.get(name)) == before:
                return True
        return False

    def line_of(self, step):
        return step.line(self.has_stopped(step))

    def is_as_left(self):
        """Whether each file of the last step that isn't undone is as that step left it."""
        left = [it for it in self.steps if not it.is_undone]
        return not left or all(self.files.get(n) == it for n, it in left[-1].after.items())

    # ---- calls

    def note(self, text):
        self.transcript.append(text)

    def call(self, call, ahead=(), **how):
        """The status, output and errors of a call of `stage`; `ahead` are words before it."""
        words = [*call.words(), "--folder", str(self.folder)]
        self.note("rollout " + " ".join(words) + (f"   # by {' '.join(ahead)}" if ahead else ""))
        printed = run(self, [*ahead, str(self.programs / "rollout-tools"), *words], **how)
        lines = f"= {printed[0]}\n{printed[1]}{printed[2]}".splitlines()
        self.note("\n".join(f"    {it}" for it in lines))
        return printed

    def recorded(self):
        """The steps that the records spell, in the order of their numbers; None for one that can't
        be read. Each has the bytes of its files, as hex digits."""
        found = {}
        for path in (self.folder / ".stage").glob("*.json"):
            try:
                found[int(path.stem)] = step_in(json.loads(path.read_text()))
            except (ValueError, KeyError, TypeError):
                found[int(path.stem)] = None
        return [found[it] for it in sorted(found)]

    # ---- the comparison

    def saved(self):
        """What the oracle knows, to be restored."""
        servers = [(it.load, list(it.halts), it.generation, it.path) for it in self.servers]
        return dict(self.files), [*self.steps], servers, [(s, s.is_undone) for s in self.steps]

    def restore(self, saved):
        self.files, self.steps = dict(saved[0]), [*saved[1]]
        for it, (load, halts, generation, path) in zip(self.servers, saved[2]):
            it.load, it.halts, it.generation, it.path = load, list(halts), generation, path
        for step, is_undone in saved[3]:
            step.is_undone = is_undone

    def differences(self):
        """Where the disk and the servers aren't as they have to be."""
        found = self.found()
        for name in sorted({*found, *self.files}):
            if found.get(name) != self.files.get(name):
                yield f"{name} is {found.get(name)!r}, not {self.files.get(name)!r}"
        modes = {it: (self.folder / it).stat().st_mode for it in found}
        for name in {*modes} & {*self.modes}:
            if modes[name] != self.modes[name]:
                yield f"{name} has the mode {modes[name]:o}, not {self.modes[name]:o}"
        self.modes = modes
        for it in self.servers:
            if it.is_up and (fault := it.differs()):
                yield f"server at {it.operator}: {fault}"
        wanted = [None if it.is_damaged else it.spelt() for it in self.steps]
        if (records := self.recorded()) != wanted:
            yield f"the records have {records}, not {wanted}"

    def misoffers(self):
        """What clients are offered and shouldn't be, or the other way round."""
        for it in self.servers:
            if it.is_up:
                tried = machines(it.load)
                for version, bucket in self.chance.sample(tried, min(3, len(tried))):
                    if fault := it.misoffers(version, bucket):
                        yield f"server at {it.operator}: {fault}"

    def compare(self):
        for fault in (*self.differences(), *self.misoffers()):
            self.wrong(fault)

    @contextlib.contextmanager
    def locked(self):
        """While another operator's `stage` is at work."""
        held = os.open(self.folder, os.O_RDONLY)
        fcntl.flock(held, fcntl.LOCK_EX)
        try:
            yield held
        finally:
            os.close(held)
