"""The paths of the pages and the crates, and the layers of crates.txt."""
import re
from functools import cache
from pathlib import Path

ROOT = Path(__file__).resolve().parent.parent.parent
CRATES = ROOT / "crates"
DOCS = ROOT / "docs"
# The folder for the pages of contracts and definitions in a checkout; git ignores it.
REFERENCE = DOCS / "reference"
HELP = ROOT / "building" / "help"
README = ROOT / "README.md"
CHANGELOG = ROOT / "CHANGELOG.md"
VERSION = ROOT / "VERSION"
CRATES_PAGE = DOCS / "ARCHITECTURE.md"
PROMISE = DOCS / "PROMISE.md"
PROOF = DOCS / "PROOF.md"
OPEN = DOCS / "OPEN.md"
TOP = [README, CHANGELOG, ROOT / "CONTRIBUTING.md", ROOT / "SECURITY.md"]
# The pages by hand that describe the present state. Those for provers also name things that don't
# exist.
CITING = [README, PROMISE, PROOF, CRATES_PAGE]

STOREY = re.compile(r"^# (\w+): (.+)\n((?:\w.*\n)+)", re.M)


def pages():
    found = [it for it in sorted(DOCS.glob("**/*.md")) if it.parent != REFERENCE]
    return [*TOP, *found, *sorted((ROOT / "bench").glob("**/*.md"))]


def names_in(lines):
    """The crates in lines of crates.txt."""
    return [re.split("[ :]", it)[0] for it in lines.splitlines() if it and it[0] != "#"]


def crates():
    return names_in((ROOT / "crates.txt").read_text())


@cache
def named():
    """Each crate with the crates that its line of crates.txt names."""
    lines = (ROOT / "crates.txt").read_text().splitlines()
    known = {*crates()}
    return {
        name: known.intersection(re.findall(r"\w+", it.partition(":")[2]))
        for it in lines for name in names_in(it)
    }


@cache
def with_all_below(top):
    """A crate and all crates below it."""
    return {top}.union(*map(with_all_below, named()[top]))


def storeys():
    """Each layer's name, what it is, and its crates, the lowest first."""
    for name, what, block in STOREY.findall((ROOT / "crates.txt").read_text()):
        yield name, what, names_in(block)
