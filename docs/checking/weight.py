"""How many words each page by hand has. `weight.txt` bounds them: whoever makes a page longer than
that raises the bound there, knowingly, and shortens others if all together have too many. Parts that
scripts write, or that commands print, don't count."""
import re
from pathlib import Path

from checking.crates_page import PICTURE, TABLE
from checking.places import CRATES_PAGE, DOCS, OPEN, PROOF, ROOT, pages
from checking.quotes import QUOTE, SIZES

BOUNDS = Path(__file__).with_suffix(".txt")
# All pages together.
MOST = 64000
# What a script writes of a page: the layers and the line of each crate, quotes and sizes.
WRITTEN = {
    CRATES_PAGE: [PICTURE, TABLE],
    PROOF: [QUOTE, SIZES],
}
# What commands print: transcripts.rows, bench/walkthrough and others compare it.
PRINTED = re.compile(r"^```\n\$ .*?^```$", re.M | re.S)


def by_hand(page):
    text = page.read_text()
    for it in [PRINTED, *WRITTEN.get(page, [])]:
        text = it.sub("", text)
    return text


def words():
    found = [it for it in pages() if it != OPEN]
    return {str(it.relative_to(ROOT)): len(by_hand(it).split()) for it in found}


def bounds():
    lines = BOUNDS.read_text().split() if BOUNDS.exists() else []
    return dict(zip(lines[::2], map(int, lines[1::2])))


def lower():
    """Writes the words of each page, if they are fewer than its bound."""
    allowed = bounds()
    have = {page: min(count, allowed.get(page, count)) for page, count in words().items()}
    BOUNDS.write_text("".join(f"{page} {count}\n" for page, count in have.items()))


def too_heavy():
    allowed, have = bounds(), words()
    if (total := sum(have.values())) > MOST:
        yield f"pages: {total} words by hand, which are more than {MOST}"
    for page, count in have.items():
        if count > allowed.get(page, 0):
            yield f"{page}: {count} words, which are more than {allowed.get(page, 0)} (weight.txt)"
