"""Wrong bodies: edits of a crate's files that the prover refuses, or that a test or a row finds."""
import re

from checking.places import CRATES, ROOT

# Where a crate has them: those that the gate tries, the others that the prover refuses, and those
# that no clause excludes.
GATE, WRONG, TESTED = "must-fail", "wrong", "wrong/tests"
# A line of an edit; a text to replace, and what replaces it, follow the file.
PART = re.compile(r"^(file|old|new): ?(.*)$", re.M)
# The goals at which the prover refuses an edit; the test, the file of rows or the check of
# bench/outside that fails with one.
GOALS = re.compile(r"^# at ([\w:+]+): (\S+)$", re.M)
FAILS = re.compile(r"^# fails (\w+) (\S+)$", re.M)
OUTSIDE = "outside"


def edits(crate, folder):
    return sorted((CRATES / crate / folder).glob("*.edit"))


def replaced(edit, crate):
    """The files of a crate that an edit changes, with their texts; or why it doesn't fit."""
    texts, file, old = {}, None, None
    for word, rest in PART.findall(edit.read_text()):
        if word == "file":
            file = crate / rest
        elif word == "old":
            old = rest
        elif file is None or old is None:
            return None, "a new text without a file and an old text"
        else:
            text = texts.get(file) or (file.read_text() if file.is_file() else "")
            if text.count(old) != 1:
                return None, f"not once in {file.relative_to(crate)}: {old}"
            texts[file], old = text.replace(old, rest), None
    return (texts, None) if texts else (None, "it has no old text")


def has(folder, function):
    """Whether a source below this folder has a function of this name."""
    name = re.compile(rf"\bfn {function.split('::')[-1]}\b")
    return any(name.search(it.read_text()) for it in folder.rglob("*.rt"))


def is_check(function):
    """Whether a script of bench has a function of this name."""
    return any(f"\ndef {function}(" in it.read_text() for it in (ROOT / "bench").glob("*.py"))


def wrong_marks(edit, crate, folder):
    """What the marks of an edit lack, or name that isn't there."""
    goals, fails = GOALS.findall(edit.read_text()), FAILS.findall(edit.read_text())
    if folder == GATE and not goals:
        yield "it names no goal"
    if folder == TESTED and not fails:
        yield "it names no test that fails"
    yield from (f"no function {it}" for it, _ in goals if not has(crate / "src", it))
    for name, test in fails:
        if name == OUTSIDE:
            is_there = is_check(test)
        else:
            folder = CRATES / name
            is_there = (folder / "data" / test).is_file() or has(folder / "src", test)
        if not is_there:
            yield f"no {test} in {name}"


def lost_edits():
    """Edits that don't fit their files, or whose marks name what isn't there."""
    for folder in (GATE, WRONG, TESTED):
        for edit in sorted(CRATES.glob(f"*/{folder}/*.edit")):
            crate = CRATES / edit.relative_to(CRATES).parts[0]
            why = replaced(edit, crate)[1]
            faults = [*([why] if why else []), *wrong_marks(edit, crate, folder)]
            yield from (f"{edit.relative_to(CRATES)}: {it}" for it in faults)
