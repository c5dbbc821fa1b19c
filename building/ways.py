"""The two ways of keeping libraries, each in its own folder.

By statements: a library has what other crates can cite, and no proofs. It is small, and is quickly
proved and loaded. But a changed crate, and all crates that depend on it, are proved as if new. By
kept work: a library also has its proofs, and the results of checking each module are kept next to
it. After a change, mostly what changed is checked again.
"""
import hashlib
import zlib

from building.crates import BUILT, write

# Smaller files aren't compressed once the program is built.
LEAST_PACKED = 1 << 20


class Way:
    def __init__(self, name, keeps_work):
        self.folder = BUILT / name
        self.keeps_work = keeps_work

    def library(self, crate):
        return self.folder / f"{crate.name}.rlib"

    def stamp(self, crate):
        """The file with the sum of a built crate. A program is in one place for both ways."""
        return (BUILT if crate.is_program else self.folder) / f"{crate.name}.stamp"

    def words(self, crate):
        if self.keeps_work:
            return ["--incremental", self.folder / f"{crate.name}.work"]
        return [] if crate.is_program else ["--statements"]

    def sum(self, crate, kit):
        """The sum of the crate's sources, the kit, and the libraries with which it is built."""
        found = hashlib.sha256(kit.what + repr((self.keeps_work, crate.of_kit)).encode())
        for file in crate.files():
            found.update(repr((str(file.relative_to(crate.folder)), file.read_bytes())).encode())
        for it in sorted(crate.below, key=lambda it: it.name):
            found.update((self.library(it) / "format").read_bytes())
        return found.hexdigest()

    def is_current(self, crate, kit):
        """Whether its stamp has the current sum, if all crates below it are built."""
        is_there = (BUILT / crate.program).exists() if crate.is_program else True
        stamp = self.stamp(crate)
        return is_there and stamp.exists() and stamp.read_text() == self.sum(crate, kit)

    def lacking(self, crates, kit):
        """The crates that must be built, of `crates`, lowest first: those that changed, and those
        that depend on them."""
        changed = set()
        for it in crates:
            if it.below & changed or not self.is_current(it, kit):
                changed.add(it)
        return changed

    def pack(self, crate):
        """Compresses a library once nothing more is built with it; only by statements."""
        for file in [] if self.keeps_work else [*self.library(crate).rglob("*")]:
            if file.is_file() and file.suffix != ".z" and file.stat().st_size >= LEAST_PACKED:
                write(file.with_name(f"{file.name}.z"), zlib.compress(file.read_bytes(), 1))
                file.unlink()

    def unpack(self, crate):
        for file in [*self.library(crate).rglob("*")]:
            if file.suffix == ".z":
                write(file.with_suffix(""), zlib.decompress(file.read_bytes()))
            if file.suffix in (".z", ".new"):
                file.unlink()


STATEMENTS = Way("statements", keeps_work=False)
KEPT_WORK = Way("kept", keeps_work=True)
