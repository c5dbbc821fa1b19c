"""What a crate runs: its tests, or its program in a stored run.

A program's files `args`, `stdin`, `stdout` and `status` are next to its sources, and the files of
`data` are in its working folder, as for `rt`.
"""
import shutil
import subprocess
import tempfile
from pathlib import Path

from building.crates import BUILT

# The time limit of the tests, or of a stored run.
SECONDS = 120


class Runs:
    """The tests of a crate, or its stored run, built with the crates below it."""

    is_program = False

    def __init__(self, crate, of_tests):
        self.crate, self.of_tests = crate, of_tests
        self.name = f"{crate.name}.{'tests' if of_tests else 'run'}"
        self.folder, self.root, self.of_kit = crate.folder, crate.root, crate.of_kit
        self.named, self.below = crate.named, crate.below

    def is_there(self):
        if not self.of_tests:
            # The program itself is built like a library.
            return self.root.endswith("main.rt") and not self.crate.is_program
        texts = (it.read_text() for it in self.crate.files() if it.suffix == ".rt")
        return any("#[test]" in it for it in texts)

    def files(self):
        """The files on which it depends: the crate's sources, and the program's input and expected
        output."""
        beside = [self.folder / it for it in ("args", "stdin", "stdout", "status")]
        data = [] if self.of_tests else (self.folder / "data").rglob("*")
        more = [] if self.of_tests else [*beside, *data]
        return sorted([*self.crate.files(), *(it for it in more if it.is_file())])

    def place(self, ending):
        return BUILT / "runs" / f"{self.name}{ending}"

    def words(self):
        """The compiler's options for it, and the folder of its work, for both kinds of
        libraries."""
        return [*(["--test"] if self.of_tests else []), "--incremental", self.place(".work")]

    def faults(self, kit):
        """Runs what was built, and returns what was wrong, or nothing."""
        program = self.place("")
        self.place(".new").replace(program)
        self.place(".o").unlink(missing_ok=True)
        if not self.of_tests:
            return stored_run(self.crate, program)
        with tempfile.TemporaryDirectory() as room:
            words = [kit.folder / "bin" / "rattle-test", "--seconds", str(SECONDS), program]
            done = subprocess.run(words, cwd=room, capture_output=True, text=True)
        return "" if done.returncode == 0 else f"{self.crate.name}: tests fail\n{done.stdout}"


def stored_run(crate, program):
    """Runs a program on a copy of its data, and compares its output. Returns what differs, or
    nothing."""

    def given(name, otherwise=""):
        file = crate.folder / name
        return file.read_text() if file.exists() else otherwise

    with tempfile.TemporaryDirectory() as room:
        folder = Path(room) / "data"
        if (crate.folder / "data").is_dir():
            shutil.copytree(crate.folder / "data", folder)
        folder.mkdir(exist_ok=True)
        words, how = [program, *given("args").splitlines()], {"capture_output": True, "text": True}
        done = subprocess.run(words, cwd=folder, input=given("stdin"), timeout=SECONDS, **how)
    if done.stdout != given("stdout"):
        return f"{crate.name}: it prints something else than its file stdout has\n"
    if done.returncode != int(given("status", "0")):
        return f"{crate.name}: it ends with status {done.returncode}\n{done.stderr}"
    return ""
