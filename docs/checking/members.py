"""What the sources name, and pages list: each option, each warning, and each member of a request, of
a manifest and of the log's lines. `bench/outside` knows the log's lines by the same members. And
each test that a page names is there: a crate of tests, a file of rows, a script of bench."""
import re

from checking.places import CRATES, DOCS, ROOT, crates, pages

# What is named, the sources that name it, how they do, and the page that lists it.
OPTION = r'CommandArgument::(?!Words?\b)\w+\(\s*"([a-z-]+)"'
NAMED = [
    ("option", "*_words/src/**/*.rt", OPTION, "PROGRAM.md"),
    ("option", "cli_base/src/*.rt", OPTION, "PROGRAM.md"),
    ("warning", "warnings/src/warning_names.rt", r'"([a-z-]+)" => true', "PROGRAM.md"),
    ("member", "omaha_json/specs/Members.antt", r'bytes_eq name \(codes "(\w+)"\)', "CLIENTS.md"),
    ("member", "omaha_json/specs/Request.antt", r'text_in \(codes "(\w+)"\)', "CLIENTS.md"),
    ("member", "manifest/src/kind.rt", r'"([a-z_0-9]+)"', "SPECIFICATION.md"),
    ("member", "access_log/specs/*.antt", r'codes "([a-z_0-9]+)"', "PROGRAM.md"),
]
# The number of bytes that were cut off: the page says this once for all of them.
CUT = "_left_out"
IN_CODE = re.compile(r"`[^`\n]+`|^```.*?^```", re.M | re.S)
FIRST_CELLS = re.compile(r"^\| (.*? \| .*?) \|", re.M)
# What is in the first two cells of a table's row: other places don't count.
IN_ROWS = [("warning", "PROGRAM.md"), ("member", "CLIENTS.md")]
TEST = re.compile(r"`(test_(?!holds\b)\w+|[\w-]+\.rows|bench/[\w/]+)`")


def is_listed(what, name, code):
    word = f"--{name}" if what == "option" else name.removesuffix(CUT)
    return re.search(rf"(?<![\w-]){re.escape(word)}(?![\w-])", code)


def unlisted():
    for what, files, pattern, page in NAMED:
        text = (DOCS / page).read_text()
        if (what, page) in IN_ROWS:
            text = "\n".join(FIRST_CELLS.findall(text))
        code = "\n".join(IN_CODE.findall(text))
        texts = [it.read_text() for it in CRATES.glob(files)]
        names = {name for text in texts for name in re.findall(pattern, text)}
        if not names:
            yield f"docs/checking/members.py: no {what} is found in {files}"
        for name in sorted(names):
            if not is_listed(what, name, code):
                yield f"{page}: it doesn't list the {what} {name}"


SPECS = CRATES / "access_log" / "specs"
NAMES = re.compile(r'codes "([a-z_0-9-]+)"')
OF_LINES = re.compile(r'_(?:member|members|excerpt) \(codes "([a-z_0-9-]+)"\)')
LOGGED = re.compile(r"^LOGGED = {\n(.*?)^}", re.M | re.S)
# Each line has these.
OF_EACH = {"time", "port", "kind"}


def other_lines():
    """Members of the log's lines that `bench/outside` doesn't know, or that no line has."""
    table = LOGGED.search((ROOT / "bench" / "outside").read_text())
    known = {*re.findall(r'"([^"]+)"', table[1])} if table else set()
    lines = {*OF_LINES.findall((SPECS / "Line.antt").read_text())} - OF_EACH
    every = {name for it in SPECS.glob("*.antt") for name in NAMES.findall(it.read_text())}
    for name in sorted(lines - known | known - every):
        yield f"bench/outside: LOGGED and the definitions of the log's lines differ in {name}"


def lost_tests():
    """Tests that a page names, and that aren't there."""
    known = {*crates()}
    for page in pages():
        for name in sorted({*TEST.findall(page.read_text())}):
            place = CRATES / "rows" / "data" / name if name.endswith(".rows") else ROOT / name
            is_crate = name.startswith("test_")
            if not (name in known if is_crate else place.exists() or name == "NAME.rows"):
                yield f"{page.name}: no test {name}"
