"""The pages that list all crates: ARCHITECTURE, and the index of the reference, with a link to each
crate's page. ARCHITECTURE has the layers, which are drawn from crates.txt, the parts of both
programs with their crates, and a table with a line for each crate, sorted by name."""
import re
import textwrap

from checking.places import CRATES, crates, storeys, with_all_below
from checking.sources import first_lines

PICTURE = re.compile(r"(?<=\n## Layers\n\n```\n).*?(?=```\n)", re.S)
# How many of the parts are the program `rollout`: they carry the promise. The next one has what
# only `rollout-tools` uses.
PROMISED = 5
# A part of the programs: its name, and its crates.
PART = re.compile(r"^\| ([^|`]+) \| ((?:`\w+`(?:, )?)+) \|", re.M)
# The table of all crates; its texts are written by hand, after the crates' `lib.rt`.
TABLE = re.compile(r"(?<=\n\| Crate \| What it is \|\n\|---\|---\|\n)(?:\|.*\n)+")
ROW = re.compile(r"^\| `(\w+)` \| (.*) \|$", re.M)
MOST_WORDS = 12
INDEX = """# Reference

A page for each crate, from its sources: what it exports, with the comments and the contracts, and
its definitions. The crates are ordered by layers, the lowest first; crates of tests have no page.

- **Open** lists what no clause of a call says, and [OPEN](../OPEN.md) has these on one page. Most
  often it is whether an allocation fails: any may, so no clause says that a call succeeds. A test
  makes each such call with ample memory.
- **In contracts** says what a contract reads in a value of a type, and which definitions the type
  gives for a trait.
- **Terms** lead to the definitions that a contract names. Those that aren't among them are in the
  toolchain's library `std`: `IfOk result P` says that P holds for the value of an Ok. `x.old` and
  `x.new` are values before and after the call, and `x.now` is one that the call doesn't change.
- **Inside the crate** are calls that aren't exported, but that exported ones use.

The texts of help, of usage and of wrong command lines are in no clause; tests have some.
"""


def picture():
    """The layers with their crates, the highest first."""
    lines = []
    for name, what, members in reversed([*storeys()]):
        lines.append(f"{name:10}{what}")
        text = textwrap.fill("  ".join(reversed(members)), 86)
        lines.append(textwrap.indent(text, " " * 10))
    return "\n".join(lines) + "\n"


def rows(text):
    """The crates in the table of all crates, each with its text."""
    table = TABLE.search(text)
    return ROW.findall(table[0]) if table else []


def table(text):
    """The table's rows by the crates' names. A crate that has no row gets its first sentence."""
    told = dict(rows(text))
    lines = (f"| `{it}` | {told.get(it) or first_sentence(it)} |" for it in sorted(crates()))
    return "\n".join(lines) + "\n"


def anew(text):
    return TABLE.sub(lambda _: table(text), PICTURE.sub(lambda _: picture(), text))


def parts(text):
    """Each part of the programs, with its crates."""
    return {name: re.findall(r"\w+", named) for name, named in PART.findall(text)}


def other_crates(text):
    """Crates that aren't in one part and one row, and rows that are too long for a table."""
    listed = {
        "part": [it for part in parts(text).values() for it in part],
        "row": [it for it, _ in rows(text)],
    }
    for what, named in listed.items():
        for it in sorted({*crates(), *named}):
            if named.count(it) != (it in crates()):
                yield f"the crate {it} is in {named.count(it)} {what}s"
    for name, what in rows(text):
        if len(what.split()) > MOST_WORDS:
            yield f"the row of {name} has more than {MOST_WORDS} words"


def other_programs(text):
    """Crates that these parts lack, or have too many, by crates.txt."""
    named = [*parts(text).values()]
    rollout = with_all_below("rollout")
    tools = with_all_below("rollout_tools") - rollout
    for what, has, wanted in (
        ("the parts of rollout", sum(named[:PROMISED], []), rollout),
        ("the part of rollout-tools", sum(named[PROMISED:PROMISED + 1], []), tools),
    ):
        yield from (f"{what}: the crate {it} is missing" for it in sorted(wanted - {*has}))
        yield from (f"{what}: the crate {it} isn't below it" for it in sorted({*has} - wanted))


def first_sentence(crate):
    source = CRATES / crate / "src"
    root = next(it for it in (source / "lib.rt", source / "main.rt") if it.is_file())
    text = " ".join(first_lines(root.read_text().splitlines()).split())
    sentence = re.match(r".*?\.(?= |$)", text)
    return (sentence[0] if sentence else text).rstrip(".")


def index(told):
    """The index of the crates that have a page."""
    blocks = [INDEX]
    for name, what, members in storeys():
        rows = [f"| [`{it}`]({it}.md) | {first_sentence(it)} |" for it in members if it in told]
        if rows:
            table = "\n".join(["| Crate | What it is |", "|---|---|", *rows])
            blocks.append(f"## {name[:1].upper()}{name[1:]}: {what}\n\n{table}\n")
    return "\n".join(blocks)
