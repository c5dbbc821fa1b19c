"""PROOF's quotes from the sources, and its figures: the sizes of the parts in ARCHITECTURE."""
import re
import textwrap

from checking.crates_page import parts
from checking.places import CRATES, CRATES_PAGE, ROOT

# A quote: a comment with its file and its name, followed by the block.
QUOTE = re.compile(r"<!-- quote (\S+) (\S+) -->\n```\n(.*?)```\n", re.S)
QUOTABLE = re.compile(r"(?: *pub fn |(?:abbrev |unfoldable )?pub (?:record |data )?)(\w+)\b")
# The rows of the table of sizes: a part's name, and its counts.
SIZES = re.compile(r"^\| ([^|`]+) \|((?: +[\d,]+ \|)+)$", re.M)
# How many of the parts carry the theorems. One has the commands of `rollout`, and the next one is
# the tools.
CARRYING, TOOLS = 4, 5
# The figures that sentences have of the sizes.
RATIO = re.compile(r"(?<=They have )\d+\.\d+(?= lines of proof for each line of source)")
SHARE = re.compile(r"(?<=The tools are )\d+(?= percent of both programs' source)")
LEMMA = re.compile(r"^(?:pub )?[^\s:({]+ :", re.M)


def quotable(file, name):
    """The definition, or the contract, of a name in its file, with the comment above it; None
    unless the file has exactly one."""
    path = ROOT / file
    lines = path.read_text().splitlines() if path.is_file() else []
    heads = ((k, QUOTABLE.match(line)) for k, line in enumerate(lines))
    found = [k for k, head in heads if head and head[1] == name]
    if len(found) != 1:
        return None
    first = last = found[0]
    while lines[first - 1].lstrip().startswith(("--", "//")):
        first -= 1
    # A definition extends to a blank line, and a contract to its body.
    end = "{" if path.suffix == ".rt" else ""
    while last < len(lines) and lines[last].strip() != end:
        last += 1
    return textwrap.dedent("\n".join(lines[first:last])) + "\n"


def false_quotes(text):
    for file, name, block in QUOTE.findall(text):
        there = quotable(file, name)
        if there is None:
            yield f"a quote of {name}, which {file} doesn't define just once"
        elif block != there:
            yield f"the quote of {name} isn't what {file} has (docs/check.py --write)"


def requoted(text):
    def anew(quote):
        file, name, block = quote.groups()
        return f"<!-- quote {file} {name} -->\n```\n{quotable(file, name) or block}```\n"

    return QUOTE.sub(anew, text)


def sizes(names):
    """The sizes of crates: lines of source, of definitions and of proofs; lemmas at the top level
    of their files; wrong bodies that the gate tries, and the others."""

    def texts(pattern):
        return [it.read_text() for name in names for it in (CRATES / name).glob(pattern)]

    def lines(pattern):
        return sum(len(it.splitlines()) for it in texts(pattern))

    return [
        lines("src/**/*.rt"),
        lines("specs/**/*.antt"),
        lines("proofs/**/*.antt"),
        sum(len(LEMMA.findall(it)) for it in texts("proofs/**/*.antt")),
        len(texts("must-fail/*.edit")),
        len(texts("wrong/*.edit")),
    ]


def is_near(told, counted, least=5):
    """Whether it is no more than a tenth off, or `least`."""
    return abs(told - counted) <= max(counted / 10, least)


def all_sizes():
    """The sizes of each part of the programs."""
    return {name: sizes(named) for name, named in parts(CRATES_PAGE.read_text()).items()}


def figures(counted):
    """The figures of sentences: lines of proof by lines of source, and the tools' share."""
    source, _, proofs, *_ = zip(*[*counted.values()][:TOOLS + 1])
    ratio = sum(proofs[:CARRYING]) / sum(source[:CARRYING])
    return {RATIO: f"{ratio:.1f}", SHARE: f"{100 * source[TOOLS] / sum(source):.0f}"}


def false_sizes(text):
    counted, named = all_sizes(), []
    for name, row in SIZES.findall(text):
        named.append(name)
        told = [int(it.replace(",", "")) for it in re.findall(r"[\d,]+", row)]
        there = counted.get(name, [])
        if len(told) != len(there) or not all(map(is_near, told, there)):
            yield f"{name}: the sizes are {there} (docs/check.py --write)"
    if named != [*counted]:
        yield f"the table of sizes has other parts than {CRATES_PAGE.name}"
    for pattern, figure in figures(counted).items():
        if not (found := pattern.search(text)) or not is_near(float(found[0]), float(figure), 0):
            yield f"no figure {figure}: {pattern.pattern} (docs/check.py --write)"


def resized(text):
    counted = all_sizes()

    def anew(row):
        counts = " |".join(f" {it:,}" for it in counted.get(row[1], []))
        return f"| {row[1]} |{counts} |" if counts else row[0]

    for pattern, figure in figures(counted).items():
        text = pattern.sub(figure, text)
    return SIZES.sub(anew, text)


def anew(text):
    return resized(requoted(text))
