"""Checks of single pages: links lead to files, README is short and names the toolchain's logic, and
all name one version; the page of help is that of the programs. Also prints long sentences for their
writers."""
import os
import re
import shutil
import subprocess
from functools import cache
from pathlib import Path

from checking.places import CHANGELOG, CRATES, HELP, OPEN, README, ROOT, VERSION, pages

# README is for visitors.
MOST_LINES, MOST_WORDS = 120, 1200
LOGIC = re.compile(r"\blogic ([0-9a-f]+)")
# Not a sentence: code, tables, headings, and the targets of links.
NO_SENTENCE = re.compile(r"^```.*?^```|^\|.*?$|^#.*?$|^ {4}.*?$|(?<=\])\([^)]*\)", re.M | re.S)
MOST_IN_SENTENCE = 35
# The maximum number of longer sentences on all pages by hand together.
MOST_LONG = 10
LINK = re.compile(r"\]\((?!http)([^)#]*)(?:#([^)]+))?\)")
HEADING = re.compile(r"^```.*?^```|^#+ ([^\n]+)$", re.M | re.S)


def headings(page):
    """What links to a page's headings have after `#`."""
    texts = [re.sub(r"[^\w -]", "", it.lower()) for it in HEADING.findall(page.read_text())]
    return {it.replace(" ", "-") for it in texts if it}


@cache
def tracked():
    """The files that git has, and their folders: a forge shows no other, and follows no symbolic
    link. None outside of a checkout."""
    if not (ROOT / ".git").exists():
        return None
    done = subprocess.run(["git", "ls-files", "-z"], cwd=ROOT, stdout=subprocess.PIPE, text=True)
    files = {Path(it) for it in done.stdout.split("\0") if it}
    return files.union(*(it.parents for it in files))


def is_there(path):
    known = tracked()
    if known is None:
        return path.exists()
    return Path(os.path.relpath(path, ROOT)) in known and path.exists()


def dead_links(page):
    for link, heading in LINK.findall(page.read_text()):
        there = page.parent / link if link else page
        if not is_there(there):
            yield f"no file {link} in git"
        elif heading and heading not in headings(there):
            yield f"no heading {link}#{heading}"


def too_long(text):
    if (lines := len(text.splitlines())) > MOST_LINES:
        yield f"{lines} lines, which are more than {MOST_LINES}"
    if (words := len(text.split())) > MOST_WORDS:
        yield f"{words} words, which are more than {MOST_WORDS}"


def other_logic(text):
    """If `rt` is installed, its logic must be README's. Its number differs between machines."""
    if shutil.which("rt"):
        printed = subprocess.run(["rt", "version"], stdout=subprocess.PIPE, text=True).stdout
        if {*LOGIC.findall(text)} != {*LOGIC.findall(printed)}:
            yield f"the logic isn't that of `rt version`: {printed.strip()}"


def other_versions():
    """VERSION has only the number, which README and the newest entry of CHANGELOG name."""
    number = VERSION.read_text() if VERSION.exists() else ""
    if not re.fullmatch(r"\d+\.\d+\.\d+\n", number):
        yield f"{VERSION.name}: no number of three parts alone"
        return
    first = re.search(r"^## (\S+)", CHANGELOG.read_text(), re.M)
    if not first or first[1] != number.strip():
        yield f"{CHANGELOG.name}: the first heading isn't of {number.strip()}"
    if number.strip() not in re.findall(r"\d+(?:\.\d+)+", README.read_text()):
        yield f"{README.name}: it doesn't name the version {number.strip()}"


def other_help():
    """The launcher prints a file if no program is built, and the programs a constant."""
    source = CRATES / "cli_base" / "src" / "help.rt"
    constant = re.search(r'HELP: &str = "\\\n(.*?)";', source.read_text(), re.S)
    if not constant or constant[1].strip() != HELP.read_text().strip():
        yield f"building/{HELP.name}: not the constant of {source.relative_to(CRATES.parent)}"


def long_sentences(text):
    plain = NO_SENTENCE.sub("", re.sub(r"^> ?", "", text, flags=re.M))
    found = re.split(r"(?<=[.!?:])[*)]*\s|\n(?:\n| *- )", plain)
    return [it for it in found if len(it.split()) > MOST_IN_SENTENCE]


def long_by_page():
    return {page: long_sentences(page.read_text()) for page in pages() if page != OPEN}


def too_many_long():
    if (count := sum(map(len, long_by_page().values()))) > MOST_LONG:
        yield (f"pages: {count} sentences of over {MOST_IN_SENTENCE} words, which are more than "
               f"{MOST_LONG} (docs/check.py --long)")


def tell_long():
    for page, found in long_by_page().items():
        for it in found:
            print(f"{page.name}: {' '.join(it.split())}\n")
        print(f"{page.name}: {len(found)} of over {MOST_IN_SENTENCE} words\n")
