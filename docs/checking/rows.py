"""The files of rows: the program `rows` runs each of them, and its stored output has each count, as
they are counted here. All files of rows are run in one folder, so no two of them write into one
below it. `tests.txt` lists each test, so that none is lost without a word."""
import re

from checking.places import CRATES, DOCS

ROWS = CRATES / "rows"
ROW = re.compile(r"(?:[$<]|send|narrow|no-memory|background|slowly)(?: |$)")
# What begins a file, a row or a step, and so ends a file's text.
MARK = re.compile(ROW.pattern + r"|(?:--|[+%]|copies|link|give|wait)(?: |$)|each$")


def left_out():
    files = sorted(it.name for it in (ROWS / "data").glob("*.rows"))
    for name, lines in (("args", None), ("stdout", ":")):
        named = [it.split(lines)[0] for it in (ROWS / name).read_text().splitlines()]
        if named != files:
            odd = sorted({*named} ^ {*files}) or ["another order"]
            yield f"crates/rows/{name}: not the files of crates/rows/data: {', '.join(odd)}"


def count(text):
    """The rows of a file: a table has those of its block once for each of its lines."""
    found, each, table, in_file = 0, 0, None, False
    for line in text.splitlines():
        in_file = line.startswith("-- ") or in_file and not MARK.match(line)
        if in_file:
            continue
        if line == "each":
            each, table = 0, "block"
        elif table == "block" and line == "rows":
            table = "rows"
        elif table == "rows":
            if not line:
                table = None
            elif not line.startswith("# "):
                found += each
        elif ROW.match(line):
            each, found = (each + 1, found) if table else (each, found + 1)
    return found


def counts():
    """Each file's rows, by a second hand."""
    return {it.name: count(it.read_text()) for it in (ROWS / "data").glob("*.rows")}


def false_counts():
    printed = dict(it.split(": ") for it in (ROWS / "stdout").read_text().splitlines())
    for name, found in counts().items():
        if printed.get(name) not in (f"{found} rows", f"{found} row"):
            yield f"crates/rows/stdout: {name}: {printed.get(name)}, and here {found} are counted"


# The folder into which a row writes a file.
WRITTEN = re.compile(r"^(?:--|\+) ([^\s/]+)/", re.M)


def shared_folders():
    files = {}
    for it in sorted((ROWS / "data").glob("*.rows")):
        for folder in {*WRITTEN.findall(it.read_text())}:
            files.setdefault(folder, []).append(it.name)
    for folder, names in sorted(files.items()):
        if len(names) > 1:
            yield f"crates/rows/data: {' and '.join(names)} write into one folder, {folder}/"


TESTS = DOCS / "checking" / "tests.txt"
TEST = re.compile(r"^#\[test\]\n(?:#.*\n)*fn (\w+)", re.M)


def tests():
    """Each test, by its crate and its name."""
    for file in CRATES.glob("*/src/**/*.rt"):
        crate = file.relative_to(CRATES).parts[0]
        yield from (f"{crate} {it}" for it in TEST.findall(file.read_text()))


def lost_tests():
    found, listed = {*tests()}, {*TESTS.read_text().splitlines()}
    yield from (f"docs/checking/tests.txt: {it} is no test" for it in sorted(listed - found))
    yield from (f"docs/checking/tests.txt lacks the test {it}" for it in sorted(found - listed))
