"""The index of errors: it has each code that the sources print, with its name, and no other. The
rules of VERIFIER's table are those of the sources."""
import re

from checking.places import CRATES, DOCS

PAGE = DOCS / "ERRORS.md"
PRINTED = re.compile(r'"([A-Z]\d+ [A-Z]\w+)')
VERIFIER = DOCS / "VERIFIER.md"
RULE = re.compile(r"^\| (V\d+ \w+) \|", re.M)
# An allocation that failed, which is no rule.
NO_RULE = {"V15 Memory"}
LISTED = re.compile(r"`([A-Z]\d+ [A-Z]\w+)(?: [^`]*)?`")


def printed():
    """The codes of the crates of the programs."""
    files = [it for it in CRATES.glob("*/src/**/*.rt") if not it.parts[-3].startswith("test_")]
    return {code for it in files for code in PRINTED.findall(it.read_text())}


def lost_codes():
    text = PAGE.read_text()
    rows = "\n".join(it for it in text.splitlines() if it.startswith("| `"))
    for it in sorted(printed() ^ {*LISTED.findall(rows)}):
        where = "only here" if it in text else "missing"
        yield f"{PAGE.name}: {it}: {where}, in comparison with the sources"
    rules = {it for it in printed() if it.startswith("V")} - NO_RULE
    for it in sorted(rules ^ {*RULE.findall(VERIFIER.read_text())}):
        yield f"{VERIFIER.name}: {it}: its table and the sources differ"
