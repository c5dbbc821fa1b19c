"""The identity of a built program: its number, its sources, their commit, and the kit that proved
them."""
import os
import subprocess

from building.crates import BUILT, ROOT

SOURCES = ["crates.txt", *(f":(glob)crates/*/{part}/**" for part in ("src", "specs", "proofs"))]


def first_line(*words):
    """The first line that a command prints; None if it fails or doesn't exist."""
    # A repository that contains this folder says nothing about these sources.
    within = {**os.environ, "GIT_CEILING_DIRECTORIES": str(ROOT.parent)}
    try:
        done = subprocess.run(words, cwd=ROOT, env=within, capture_output=True, text=True)
    except OSError:
        return None
    return (done.stdout.splitlines() or [""])[0] if done.returncode == 0 else None


def number():
    return (ROOT / "VERSION").read_text().strip()


def commit_now():
    """The commit, and whether a source differs from it."""
    commit = first_line("git", "rev-parse", "--short=12", "HEAD")
    if not commit:
        return "of no known commit"
    changed = first_line("git", "status", "--porcelain", "--", *SOURCES)
    return f"{commit}, with changes" if changed else commit


def version_by(kit):
    return f"rollout {number()} {commit_now()}\n{kit}\n"


def version_now():
    return version_by(first_line("rt", "version") or "of no known kit")


def stamp(program):
    """The file with the state at the start of the build of the existing program."""
    return BUILT / f"{program}.sources"


def stamp_now(program):
    return f"{first_line(ROOT / 'building' / 'stamp', program)}\n"


def built_from(program):
    """Written by each build and for each install: the version that `--version` prints."""
    return BUILT / f"{program}.built-from"


def kit_of(program):
    """The line of the kit that built the existing program."""
    return built_from(program).read_text().splitlines()[-1]


def is_current(program):
    """Whether the program exists, is built from the current sources, and has its version
    recorded."""
    current = subprocess.run([ROOT / "building" / "is_current", program]).returncode == 0
    return current and built_from(program).exists()
