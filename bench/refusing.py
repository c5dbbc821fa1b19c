"""A chosen call of malloc that fails once, in a running process."""
import itertools
import mmap
import os
import struct
import subprocess
from pathlib import Path

HERE = Path(__file__).resolve().parent


class Wrong(Exception):
    """An allocation failed with another result, or something changed that should not."""


class Refusal:
    """Builds bench/refused.c, and shares its two numbers with the processes that use it."""

    def __init__(self, folder):
        self.library = folder / "refused.so"
        words = ["cc", "-O2", "-Wall", "-Wextra", "-shared", "-fPIC", "-o", str(self.library)]
        subprocess.run([*words, str(HERE / "refused.c")], check=True)
        self.file = folder / "counts"
        self.file.write_bytes(bytes(16))
        with open(self.file, "r+b") as file:
            self.counts = mmap.mmap(file.fileno(), 16)

    def env(self):
        """The environment of a process whose allocations may fail."""
        return {**os.environ, "LD_PRELOAD": str(self.library), "REFUSED_COUNTS": str(self.file)}

    def ask(self, call):
        """Makes the call with this number fail, counted from here on; no call for 0."""
        self.counts[:] = struct.pack("QQ", 0, call)

    def is_reached(self):
        """Whether the chosen call was reached. From here on no call fails."""
        calls, refused = struct.unpack("QQ", self.counts[:])
        self.ask(0)
        return 0 < refused <= calls

    def in_turn(self, once, calls=itertools.count):
        """The results of `once` for these calls, up to the first None."""
        found = []
        for call in calls(1):
            try:
                answer = once(call)
            except Wrong as wrong:
                raise Wrong(f"growth {call}: {wrong}") from None
            if answer is None:
                return found
            found.append(answer)


def outcome_line(name, answers):
    """The output line for a call whose failed allocations had these results."""
    counts = {}
    for answer in answers:
        counts[answer] = counts.get(answer, 0) + 1
    parts = [f"{answer} {count}" for answer, count in sorted(counts.items())]
    again = ": " + ", ".join(parts) + "; again: the untroubled answer" if parts else ""
    return f"    {name}: {growths(len(answers))}{again}"


def growths(count):
    return "1 growth" if count == 1 else f"{count} growths"
