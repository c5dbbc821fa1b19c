"""What pages cite from the sources: clauses, definitions in their files, and names."""
import re

from checking.places import CRATES, crates
from checking.quotes import QUOTE

FUNCTION = re.compile(r"\bfn (\w+)\b(.*?)(?:\s\{\}?|;)\s*\n", re.S)
# A call, followed by its clauses, or its crate, in parentheses.
CLAUSES = re.compile(r"`([\w:]+)` \(((?:`\w+`(?:, )?)+)\)")
CITED = re.compile(r"`((?:\w+::)?[A-Za-z]\w*)`")
SPEC = re.compile(r"\[[^]]*\]\(\.\./crates/([^)]+\.antt)\)")


def contracts():
    """The names of the clauses of all functions with a name."""
    found = {}
    for file in CRATES.glob("*/src/**/*.rt"):
        for name, contract in FUNCTION.findall(file.read_text()):
            clauses = re.findall(r"\b(?:ensures|requires)(?: \*)? (\w+)\b", contract)
            found.setdefault(name, set()).update(clauses)
    return found


def false_clauses(page, clauses):
    homes = {*crates()}
    for call, names in CLAUSES.findall(page.read_text()):
        name = call.split("::")[-1]
        for clause in re.findall(r"\w+", names):
            if name in clauses and clause not in clauses[name] | homes:
                yield f"no clause {clause} of {call}"


def strangers(text):
    """Names in table cells before a link to a file of definitions that doesn't have them."""
    for cell in re.findall(r"[^|\n]+", text):
        names, *rest = re.split(SPEC, cell)
        while rest:
            file, behind, *rest = rest
            path = CRATES / file
            known = re.findall(r"[\w◌>?]+", path.read_text()) if path.is_file() else []
            for name in re.findall("`([^`]+)`", names):
                if path.is_file() and name not in known:
                    yield f"no {name} in {file}"
            names = behind


def unknown_names(text):
    """Names in backquotes that don't occur in any crate's files."""
    kinds = ("src/**/*.rt", "specs/**/*.antt", "proofs/**/*.antt")
    files = [it for kind in kinds for it in CRATES.glob(f"*/{kind}")]
    known = {*crates()}.union(*(re.findall(r"\w+", it.read_text()) for it in files))
    for name in sorted({*CITED.findall(QUOTE.sub("", text))}):
        if name.split("::")[-1] not in known:
            yield f"{name} is no name of any crate"
