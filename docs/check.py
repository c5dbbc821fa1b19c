#!/usr/bin/env python3
"""Checks that the pages describe what is there. ARCHITECTURE draws the layers of crates.txt, and
has each crate in one short row and in one part, and in the parts of a program the crates below it.
OPEN has each comment of the sources on what is open, and each public call has a clause or such a
comment, or is listed as lacking both. What a library exports has a comment. Each link leads to a
file that git has, and each clause that is cited after a call is in that call's contract. PROOF
quotes its files to the letter; each name that it cites is in the sources, each definition is in the
file of its link, and its figures are no more than a tenth off. README is short, and names the logic
of the installed toolchain; VERSION, README and CHANGELOG name one version. The pages by hand have
few long sentences. Each wrong body can be put in place: what it replaces is in its file once.
`plain.txt` and `weight.txt` bound the words of this house in comments, and the words of each page.
The lines of sources have at most 100 columns.
Each crate of a line of crates.txt is named there, and `edges.txt` has a reason for each that is
named for little and drags much. No two crates declare a public type of one name, but for those of
`meanings.txt`.
Each file of rows is run, its rows are counted anew, and its folders are its own; the examples that
rows read are those of `examples`, and the transcripts of pages are rows. The page of help that the
launcher prints is that of the programs, and has each of their commands, as has each list of the
commands of one program.
CONTRIBUTING's recipes name each file that their searches find, and its exercise fits. ERRORS has
each code of the sources, VERIFIER each rule, and other pages each option, each warning, and each
member of requests, manifests and the log. Tests that pages name are there.

usage: docs/check.py [--write | --reference FOLDER | --long | --words CRATE]

--write writes the layers and the rows of crates, OPEN, PROOF's quotes and figures, and the copies
and rows of `examples` and transcripts anew.
--reference writes the reference into a FOLDER: a page for each crate, with its contracts and
definitions. The pages' links to sources work in the folder docs/reference, which git ignores.
--long prints the sentences of over 35 words of each page by hand, --words the words of this house
in a crate's comments.
"""
import sys
from pathlib import Path

from checking import (
    codes, columns, commands, crates_page, edges, examples, left_open, meanings, members, plain, quotes,
    recipes, reference, rows, transcripts, weight
)
from checking.edits import lost_edits
from checking.exports import lost_comments
from checking.names import contracts, false_clauses, strangers, unknown_names
from checking.pages import (
    dead_links, other_help, other_logic, other_versions, tell_long, too_long, too_many_long
)
from checking.places import CITING, CRATES_PAGE, OPEN, PROOF, README, pages

DRAWN = {CRATES_PAGE: crates_page.anew, OPEN: left_open.anew}
WRITTEN = {**DRAWN, PROOF: quotes.anew}
CHECKS = {
    CRATES_PAGE: (crates_page.other_crates, crates_page.other_programs),
    README: (too_long, other_logic),
    PROOF: (quotes.false_quotes, unknown_names, strangers, quotes.false_sizes),
}


def write():
    for page, anew in WRITTEN.items():
        page.write_text(anew(page.read_text()))
    plain.lower()
    weight.lower()
    examples.copy()
    transcripts.write()


def faults():
    for page in pages():
        yield from (f"{page.name}: {it}" for it in dead_links(page))
    for page, checks in CHECKS.items():
        text = page.read_text()
        yield from (f"{page.name}: {it}" for check in checks for it in check(text))
    clauses = contracts()
    for page in CITING:
        yield from (f"{page.name}: {it}" for it in false_clauses(page, clauses))
    for page, anew in DRAWN.items():
        if page.read_text() != anew(page.read_text()):
            yield f"{page.name}: not as the sources have it (docs/check.py --write)"
    yield from lost_comments()
    yield from left_open.lost_open()
    yield from left_open.new_unclaimed()
    reference.texts()  # each install writes these, so none may fail
    yield from other_versions()
    yield from other_help()
    yield from too_many_long()
    yield from columns.too_wide()
    yield from plain.too_many()
    yield from weight.too_heavy()
    yield from edges.faults()
    yield from meanings.faults()
    yield from examples.other_copies()
    yield from transcripts.other_rows()
    yield from rows.left_out()
    yield from rows.lost_tests()
    yield from rows.false_counts()
    yield from rows.shared_folders()
    yield from commands.other_lists()
    yield from recipes.lost_files()
    yield from recipes.lost_lines()
    yield from codes.lost_codes()
    yield from members.unlisted()
    yield from members.other_lines()
    yield from members.lost_tests()
    yield from lost_edits()


def main():
    words = sys.argv[1:]
    if words == ["--long"]:
        return tell_long()
    if words[:1] == ["--words"] and len(words) == 2:
        return plain.print_words(words[1])
    if words[:1] == ["--reference"] and len(words) == 2:
        return reference.write(Path(words[1]))
    if words not in ([], ["--write"]):
        sys.exit(__doc__)
    if words:
        write()
    found = [*faults()]
    print("\n".join(found) or "pages: all links, names and clauses are there")
    sys.exit(bool(found))


if __name__ == "__main__":
    main()
