"""Copies the built programs, with pages and examples, to a folder that needs nothing else.

Everything is first written next to its final place, under names that begin with a dot. Only then is
it moved into place. If a step fails, the steps before it are undone.
"""
import contextlib
import os
import shutil
import subprocess
import sys

from building.crates import BUILT, ROOT, say
from building.version import built_from

SHARE = "share/rollout"
DOCS = ROOT / "docs"
# The server's program is last: it is replaced in one step, and no later step can fail. A running
# server keeps its file.
PLACES = {
    f"{SHARE}/README.md": ROOT / "README.md",
    f"{SHARE}/CHANGELOG.md": ROOT / "CHANGELOG.md",
    f"{SHARE}/VERSION": ROOT / "VERSION",
    f"{SHARE}/built-from": built_from("rollout"),
    f"{SHARE}/docs": DOCS,
    f"{SHARE}/examples": ROOT / "examples",
    "bin/rollout": ROOT / "building" / "installed",
    "libexec/rollout-tools": BUILT / "rollout-tools",
    "libexec/rollout": BUILT / "rollout",
}
# What `rollout completion` prints for each shell, and the page of the manual, at the places in which
# shells and `man` look.
PRINTED = {
    "share/bash-completion/completions/rollout": "bash",
    "share/zsh/vendor-completions/_rollout": "zsh",
    "share/fish/vendor_completions.d/rollout.fish": "fish",
    "share/man/man1/rollout.1": "man",
}
# The scripts that check the pages aren't installed, and neither is an existing reference, since it
# may belong to other sources.
LEFT_OUT = shutil.ignore_patterns("*.py", "checking", "__pycache__", "reference")


def beside(place, ending):
    return place.with_name(f".{place.name}.{ending}")


def remove(path):
    if path.is_dir() and not path.is_symlink():
        shutil.rmtree(path)
    else:
        path.unlink(missing_ok=True)


def open_to_all(path):
    """Makes it readable for everybody, and programs executable, whatever the caller's umask: a
    service has its own user."""
    for it in [path, *path.rglob("*")]:
        it.chmod(0o755 if it.is_dir() or os.access(it, os.X_OK) else 0o644)


def make_folder(folder, undo):
    if not folder.exists():
        make_folder(folder.parent, undo)
        folder.mkdir()
        undo.callback(folder.rmdir)
        open_to_all(folder)


def write_reference(folder):
    """Writes the pages of contracts and definitions, which aren't in git, from the current
    sources."""
    words = [sys.executable, "-B", "-X", "utf8", DOCS / "check.py", "--reference", folder]
    if subprocess.run(words).returncode:
        raise OSError("docs/check.py doesn't write the reference")


def completion(shell):
    words = [BUILT / "rollout-tools", "completion", shell]
    done = subprocess.run(words, capture_output=True)
    if done.returncode:
        raise OSError(f"rollout-tools doesn't print its completions for {shell}")
    return done.stdout


def write_beside(source, place, undo):
    make_folder(place.parent, undo)
    new = beside(place, "new")
    remove(new)
    undo.callback(remove, new)
    if isinstance(source, bytes):
        new.write_bytes(source)
    elif source.is_dir():
        shutil.copytree(source, new, ignore=LEFT_OUT)
        if source == DOCS:
            write_reference(new / "reference")
    else:
        shutil.copy(source, new)
        with open(new) as it:
            # It is on the disk before it replaces another file.
            os.fsync(it.fileno())
    open_to_all(new)


def set_in_place(place, undo):
    """Moves the new file into place. The old one is kept next to it, because a later step may
    fail."""
    new, old = beside(place, "new"), beside(place, "old")
    remove(old)
    if not os.path.lexists(place):
        undo.callback(remove, place)
    elif new.is_dir():
        place.rename(old)
        undo.callback(old.rename, place)
        undo.callback(place.rename, new)
    else:
        # It is replaced in one step, so the launcher exists at every moment.
        shutil.copy2(place, old)
        undo.callback(old.replace, place)
    new.replace(place)


def cause(error):
    """The path and the reason; of several faults in the copy of a folder, the first."""
    if isinstance(error.args[0], list):
        return error.args[0][0][2]
    return f"{error.filename}: {error.strerror}" if error.filename else error


def copy_all(folder):
    """Copies all or nothing, and replaces what an earlier call copied."""
    places = {**{it: completion(shell) for it, shell in PRINTED.items()}, **PLACES}
    *shared, program = [folder / it for it in places]
    with contextlib.ExitStack() as undo:
        for place, source in places.items():
            write_beside(source, folder / place, undo)
        for place in shared:
            set_in_place(place, undo)
        beside(program, "new").replace(program)
        undo.pop_all()
    for place in shared:
        remove(beside(place, "old"))


def install(folder):
    try:
        copy_all(folder)
    except OSError as error:
        sys.exit(f"rollout: nothing is installed: {cause(error)}")
    say(f"installed {folder / 'bin' / 'rollout'}; its pages and examples lie in {folder / SHARE}")
