"""Copies of crates with a wrong body, for `bench/wrong`."""
import os
import shutil
import sys
from contextlib import contextmanager
from pathlib import Path

ROOT = Path(__file__).resolve().parent.parent
sys.path += [str(ROOT), str(ROOT / "docs")]

from building.crates import PARTS, all_crates
from checking.edits import replaced


def link_library(crate, target):
    """Hard-links a crate's library; if that fails, `rt` makes another one."""
    library = target / "out" / "rlib"
    try:
        shutil.copytree(crate.folder / "out" / "rlib", library, copy_function=os.link)
    except (OSError, shutil.Error):
        shutil.rmtree(library, ignore_errors=True)


def copy_crates(crates, top, parts=PARTS, libraries=True):
    """Copies these crates and those below them, with these parts and their libraries."""
    known = all_crates()
    copied = {it for name in crates for it in [known[name], *known[name].below]}
    lines = [f"{it.line}\n" for it in known.values() if it in copied]
    (top / "crates.txt").write_text("".join(lines))
    shutil.copy(ROOT / "HANDLES", top)
    for crate in copied:
        target = top / "crates" / crate.name
        for part in parts:
            if (crate.folder / part).exists():
                shutil.copytree(crate.folder / part, target / part)
        if libraries:
            link_library(crate, target)


@contextmanager
def put_in(edit, crate):
    """Has an edit in a copy of its crate; gives why it can't be put there, if so."""
    texts, why = replaced(edit, crate)
    before = {file: file.read_text() for file in texts or ()}
    for file, text in (texts or {}).items():
        file.write_text(text)
    yield why
    for file, text in before.items():
        file.write_text(text)
