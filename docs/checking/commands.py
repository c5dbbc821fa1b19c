"""The words of commands: each list of those of `rollout-tools` or of `rollout`, and the page of
help, have the commands of the tables in the sources."""
import re

from checking.places import CRATES, HELP, ROOT

ROLLOUT = tuple(f"cli_words/src/{it}_rows.rt" for it in ("brake", "program", "server"))
TOOLS = ("cli_tool_words/src/manifest_rows.rt", "cli_tool_words/src/program_rows.rt")
NAME = re.compile(r'^    name: "([a-z]+)",$', re.M)
SHOWN = re.compile(r"^  ([a-z]+)  +[A-Z]", re.M)
# A list of words: a pattern of the shell's, a set of Python's, or an array of Rust's.
SHELL = re.compile(r"^((?:\w+ \| )+\w+)\)\s+program=rollout-tools", re.M)
SET = re.compile(r'^TOOLS = {\s*((?:"\w+"(?:, )?)+)\s*}', re.M)
ARRAY = re.compile(r'^const TOOLS: [^=]+= \[\s*((?:"\w+"(?:,\s*)?)+)\];', re.M)
LISTS = {
    ROOT / "rollout": SHELL,
    ROOT / "building" / "installed": SHELL,
    ROOT / "bench" / "asking.py": SET,
    CRATES / "rows" / "src" / "calling.rt": ARRAY,
}
# The rows of words that one program has, and the other refuses.
REFUSED = CRATES / "rows" / "data" / "other-words.rows"


def names_in(files):
    return {name for it in files for name in NAME.findall((CRATES / it).read_text())}


def lists():
    """Each list: its file, its words, and the tables of which these are."""
    for file, form in LISTS.items():
        found = form.search(file.read_text())
        yield file, found[1] if found else "", TOOLS
    for program, tables in (("rollout", TOOLS), ("rollout-tools", ROLLOUT)):
        found = re.findall(rf"^{program} ([a-z]+)$", REFUSED.read_text(), re.M)
        yield REFUSED, " ".join(found), tables
    yield HELP, " ".join(SHOWN.findall(HELP.read_text())), ROLLOUT + TOOLS


def other_lists():
    for file, words, tables in lists():
        for it in sorted({*re.findall(r"\w+", words)} ^ names_in(tables)):
            yield f"{file.relative_to(ROOT)}: its list and the table of commands differ in {it}"
