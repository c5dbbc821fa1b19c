"""The toolchain's kit: its folder, and how its compiler proves and builds a crate."""
import os
import shutil
from pathlib import Path

from building.crates import BUILT

TARGET = "x86_64-unknown-linux-gnu"


class Kit:
    """The folder of a kit."""

    def __init__(self, folder):
        self.folder = folder
        # Sums of the kit's own files; another build of the compiler has others.
        self.what = (folder / "WHAT").read_bytes()

    def words(self, crate, way, jobs):
        """The compiler's command for a crate and its libraries, to be run in the crate's folder."""
        words = [self.folder / "bin" / "rattle", "build", "--crate-name", crate.name, crate.root]
        for name in ["std", *crate.of_kit]:
            words += ["--extern", f"{name}={self.folder}/rlibs/{name}.rlib"]
        for it in crate.named:
            words += ["--extern", f"{it.name}={way.library(it)}"]
        for place in (self.folder / "rlibs", way.folder):
            words += ["-L", f"dependency={place}"]
        words += ["--antt-project", self.folder / "rattle" / "logic" / "antt-project.json"]
        words += ["--logic-built", self.folder / "logic_built"]
        return [*words, "--links", f"{crate.name}=", "--jobs", str(jobs)]

    def linked(self, words, compiled, made):
        """The commands that compile what this command proves, and link it."""
        toolchain = ["--toolchain", self.folder / "toolchain"]
        link = [self.folder / "bin" / "rattle-link", "--target", TARGET, *toolchain]
        link += ["-o", made, compiled]
        link += [self.folder / "c" / it for it in ("libos_c.a", "liblibc_c.a")]
        return [[*words, *toolchain, "--backend", "llvm", "-o", compiled], link]

    def commands(self, crate, way, jobs):
        """The commands that prove and build a crate with its libraries, in order."""
        words = [*self.words(crate, way, jobs), *way.words(crate)]
        if not crate.is_program:
            return [[*words, "-o", way.library(crate)]]
        return self.linked(words, *(BUILT / f"{crate.program}{it}" for it in (".o", ".new")))

    def run_commands(self, runs, way, jobs):
        """The commands that prove and build a crate's tests, or a program for its stored run."""
        words = [*self.words(runs.crate, way, jobs), *runs.words()]
        return self.linked(words, runs.place(".o"), runs.place(".new"))


def find_kit():
    """The kit of the `rt` on the caller's PATH, or None."""
    rt = shutil.which("rt")
    return Kit(Path(os.path.realpath(rt)).parent.parent) if rt else None
