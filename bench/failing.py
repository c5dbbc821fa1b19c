"""Tries the wrong bodies that no clause excludes: a test, or a row, has to fail with each.

Each names the test crate and the test, or `rows` and the file of rows. First all of these have to
pass as the crates are. Everything is compiled from sources, and nothing is proved. Those that name a
check of bench/outside, which needs built programs, are only listed.
"""
import re
import shutil
import subprocess
import tempfile
from pathlib import Path

from bodies import ROOT, copy_crates, put_in
from checking.edits import FAILS, OUTSIDE, TESTED, edits

ROWS = "rows"
COPIED = ["src", "specs", "proofs", "data"]
# The lines about a file of rows and about a test, whether they pass or fail.
ROW_LINE = re.compile(r"^(\S+\.rows): (?:(\d+) of )?\d+ rows", re.M)
TEST_LINE = re.compile(r"^test (\S+) \.\.\. (.*)$", re.M)


def run(crate, names, top):
    """What became of the tests or files of rows of a test crate: whether each passes."""
    words = ["bench/rows", "--try", *names] if crate == ROWS else ["rt", "try", "--test"]
    folder = top if crate == ROWS else top / "crates" / crate
    ran = subprocess.run(words, cwd=folder, capture_output=True, text=True, errors="replace")
    output = ran.stdout + ran.stderr
    if crate == ROWS:
        return {name: not wrong for name, wrong in ROW_LINE.findall(output)}
    return {name: how.startswith("ok") for name, how in TEST_LINE.findall(output)}


def tried(edit, crate, top, wanted):
    """Runs what an edit names with it in place. Returns a report, and whether all of it fails."""
    with put_in(edit, crate) as why:
        if why:
            return f"BAD EDIT: {why}", False
        found = {it: run(it, names, top) for it, names in wanted.items()}
    missed = [
        f"{name} {'passes' if name in found[it] else 'did not run'}"
        for it, names in wanted.items() for name in names if found[it].get(name, True)
    ]
    return ", ".join(missed) or "seen", not missed


def named_by(every):
    """The tests that these edits name, by their crates."""
    wanted = {}
    for edit in every:
        for crate, name in FAILS.findall(edit.read_text()):
            if crate != OUTSIDE:
                wanted.setdefault(crate, set()).add(name)
    return {crate: sorted(names) for crate, names in wanted.items()}


def try_tests(crates):
    """Whether the tests of all edits of these crates fail with them; prints each."""
    every = [(crate, edit) for crate in crates for edit in edits(crate, TESTED)]
    wanted = named_by(edit for _, edit in every)
    with tempfile.TemporaryDirectory(prefix="wrong-") as name:
        top = Path(name)
        copy_crates([*wanted], top, COPIED, libraries=False)
        (top / "bench").mkdir()
        shutil.copy(ROOT / "bench" / ROWS, top / "bench")
        for crate, names in wanted.items():
            passed = run(crate, names, top)
            failed = [it for it in names if not passed.get(it)]
            if failed:
                print(f"{crate}: without an edit these don't pass: {' '.join(failed)}")
                return False
        seen = []
        for crate, edit in every:
            if not named_by([edit]):
                print(f"{crate}/{edit.name}: not tried: a check of bench/outside finds it")
                continue
            report, is_seen = tried(edit, top / "crates" / crate, top, named_by([edit]))
            print(f"{crate}/{edit.name}: {report}", flush=True)
            seen.append(is_seen)
    print(f"{sum(seen)} of {len(seen)} are seen by their tests")
    return all(seen)
