"""The words of comments. Some words and forms of this house a reader of the field reads twice; each
has a plain one. `plain.txt` has how many of them the comments of each crate have, and no crate may
have more: who adds one raises the count there, knowingly."""
import re
from pathlib import Path

from checking.places import CRATES, crates

COUNTS = Path(__file__).with_suffix(".txt")
COMMENT = re.compile(r"(?:^|\s)(?://[/!]?|--)\s(.*)")
# A name of the sources stands in backquotes, a printed text in quotes.
QUOTED = re.compile(r'`[^`]*`|"[^"]*"')
# What is counted, and what to write instead.
FORMS = {
    r"told|tells?|telling": "prints, reports, returns, logs",
    r"asked|asks?|asking": "evaluated, requested, calls",
    r"heard|hears?|hearing": "reads, receives",
    r"stands?|stood|standing": "is, occurs, appears",
    r"behind": "after, followed by",
    r"beside": "next to, as well as",
    r"so (?:many|much|few)": "the count's name, or `as many as`",
    r"want of memory|memory (?:is|was|were) refused|refused memory": "an allocation fails",
    r"where (?:it|there|that|this|no|none|nothing|one|all|each|the|a|an)": "if, when",
    r"whoever|who has|those who": "a noun",
    r"is no (?!longer|more|less|such)\w+|are no (?!longer|more|less|such)\w+": "isn't a, aren't",
    r"\w+ alone": "only ..",
    r"com(?:es?|ing) (?:to|of|where)|came (?:to|of)": "results in, returns",
    r"storeys?": "layer",
    r"misfits?": "schema error, wrong member",
    r"keepers?": "store",
    r"growths?": "allocation",
    r"leave to": "right to",
    r"hardly": "probably doesn't",
    r"no more than": "at most",
    r"does nothing: a proof": "Law.",
    r"goes? on": "continues",
    r"lets? go|let go": "drops",
    r"twice in|stands? twice|names? twice": "duplicate",
    r"begins? the other|beginnings?": "prefix",
    r"\w+, too(?=[,.;:)]|$)": "also",
    r"in the place of": "instead of",
    r"by itself alone|by itself": "automatically, separately",
    r"is left alone|leaves? alone": "is unchanged",
}
COUNTED = [(re.compile(rf"\b(?:{form})\b", re.I), instead) for form, instead in FORMS.items()]


def found_in(crate):
    """Each form in the comments of a crate: where, which, and what to write instead."""
    for file in sorted((CRATES / crate).rglob("*")):
        if file.suffix not in (".rt", ".antt") or "out" in file.relative_to(CRATES).parts:
            continue
        for number, line in enumerate(file.read_text().splitlines(), 1):
            comment = COMMENT.search(line)
            text = QUOTED.sub("", comment[1]) if comment else ""
            for form, instead in COUNTED:
                for it in form.finditer(text):
                    yield f"{file.relative_to(CRATES)}:{number}", it[0], instead


def counts():
    lines = COUNTS.read_text().split() if COUNTS.exists() else []
    return dict(zip(lines[::2], map(int, lines[1::2])))


def lower():
    """Writes what each crate has now, if that is less; to raise a count is for a writer's hand."""
    allowed = counts()
    have = {it: min(len([*found_in(it)]), allowed.get(it, 0)) for it in crates()}
    COUNTS.write_text("".join(f"{it} {count}\n" for it, count in have.items() if count))


def too_many():
    allowed = counts()
    for crate in crates():
        found = [*found_in(crate)]
        if len(found) > allowed.get(crate, 0):
            yield (f"{crate}: {len(found)} words of the house in its comments, which are more than "
                   f"{allowed.get(crate, 0)} (docs/check.py --words {crate})")


def print_words(crate):
    for where, word, instead in found_in(crate):
        print(f"{where}: {word} ({instead})")
