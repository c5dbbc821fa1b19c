"""The repository's crates, from crates.txt, and their times, from costs.txt."""
import re
import sys
from pathlib import Path

ROOT = Path(__file__).resolve().parent.parent
CRATES = ROOT / "crates"
# Each program's file; its crate has the same name, with `_`.
PROGRAMS = ["rollout", "rollout-tools"]
PARTS = ["src", "specs", "proofs"]
# The output of `build`. `rt ci` restores a folder of this name to a crate, and nothing else there.
BUILT = CRATES / "rollout" / "out" / "rlib"


def say(text):
    print(f"rollout: {text}", file=sys.stderr, flush=True)


def write(path, data):
    """Writes the file whole, or leaves the old one."""
    new = path.with_name(f"{path.name}.new")
    new.write_bytes(data)
    new.replace(path)


class Crate:
    """A crate, from its line of crates.txt."""

    def __init__(self, line, known):
        head, _, named = line.partition(":")
        name, named = head.split()[0], named.split()
        self.name, self.line = name, line
        self.folder = CRATES / name
        self.program = name.replace("_", "-")
        self.is_program = self.program in PROGRAMS
        self.root = f"src/{'main' if (self.folder / 'src' / 'main.rt').exists() else 'lib'}.rt"
        # The repository's crates that its line names, and the kit's libraries.
        self.named = [known[it] for it in named if it in known]
        self.of_kit = [it for it in named if it not in known]
        self.below = {*self.named}.union(*(it.below for it in self.named))

    def files(self):
        """Its sources in a fixed order."""
        found = [it for part in PARTS for it in (self.folder / part).rglob("*")]
        return sorted(it for it in found if it.is_file())


def crate_lines(text):
    """The lines of a crates.txt, by crate."""
    lines = [it for it in text.splitlines() if it and it[0] != "#"]
    return {re.split("[ :]", it)[0]: it for it in lines}


def all_crates():
    """The repository's crates by name, lowest first."""
    known = {}
    for name, line in crate_lines((ROOT / "crates.txt").read_text()).items():
        known[name] = Crate(line, known)
    return known


def crates_of(programs):
    """The crates of these programs, and those on which they depend, lowest first."""
    known = all_crates().values()
    tops = {it for it in known if it.is_program and it.program in programs}
    return [it for it in known if it in tops.union(*(top.below for top in tops))]


def seconds_recorded():
    """The seconds of each crate from nothing, by building/costs.txt."""
    text = (ROOT / "building" / "costs.txt").read_text()
    return {name: int(s) for name, s in re.findall(r"^(\w+) (\d+)$", text, re.M)}
