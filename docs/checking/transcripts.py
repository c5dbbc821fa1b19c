"""The transcripts of pages, as rows that the gate runs: crates/rows/data/transcripts.rows is written
from blocks that begin with a command, or with a file, which `$ cat FILE` shows. In them `..` stands
for any text, once in what a command prints. Files that no page shows are in bench/pages.

Those of a server are left out: bench/walkthrough and README's session have their like.
"""
import re

from checking.places import CRATES, ROOT

ROWS = CRATES / "rows" / "data" / "transcripts.rows"
PAGES = [*(f"docs/{it}.md" for it in ("PROGRAM", "RULES", "VERIFIER")), "README.md"]
HIDDEN = ROOT / "bench" / "pages"
BLOCK = re.compile(r"^```\n(\$ (?:\./rollout|cat|curl) .*?)^```$", re.M | re.S)
COMMAND = re.compile(r"^\$ (.*)\n((?:(?!\$ ).*\n)*)", re.M)
SERVERS = re.compile(r"server\.log| serve | load | stop |^curl ")
# The commands whose files are in bench/pages, in the order of PROGRAM, with their folders.
FILES = [
    ("check m.toml", "size"), ("check m.toml", "shape"), ("check a.toml b.toml --json", "two"),
    ("check m.toml", "warnings"), ("trace take.bin --releases 1 --arrays q:64:1:2", "trace"),
    ("diff served/current.toml current.toml", "diff"),
]
HEAD = "# What the pages show of commands, by docs/checking/transcripts.py: docs/check.py --write.\n"


def file(name, text):
    return f"-- {name}\n{text}"


def hidden_files(folder):
    """The files of a transcript, each program also assembled."""
    found = [it for it in sorted(folder.glob("**/*")) if it.is_file()]
    texts = [file(it.relative_to(folder), it.read_text()) for it in found]
    texts += [f"% asm {it.name} {it.stem}.bin\n" for it in found if it.suffix == ".bpf"]
    return "".join(texts)


def marks(line, lines):
    """The mark of each line that a command prints: a refusal with its reasons, and warnings, are on
    standard error, but replay's refusals. No line feed ends the body of a reply."""
    refused, is_reply = False, line.startswith("ask ") and "--why" not in line
    for number, it in enumerate(lines, 1):
        refused = refused or it.startswith("refused ") and not line.startswith("replay ")
        is_error = refused or it.startswith("warning ")
        yield "!" if is_error else "." if is_reply and number == len(lines) else "|"


def outputs(line, shown):
    lines = shown.splitlines()
    marked = [*zip(marks(line, lines), lines)]
    for mark, it in marked:
        text, gap, rest = it.partition("..")
        yield f"{mark} {text}{'...' if gap else ''}\n"
        if rest:
            yield f"{mark} {rest}\n"
    if any(it.startswith("refused ") for mark, it in marked if mark == "!") \
            or '"passes":false' in shown:
        yield "= 1\n"


def rows_of(command, shown, files):
    words = command.split()
    if words[0] == "cat":
        return file(words[1], shown)
    line = re.sub(r"^\./rollout (--try )?", "", command).replace("/tmp/", "")
    given = hidden_files(HIDDEN / files.pop(0)[1]) if files and line == files[0][0] else ""
    return f"{given}{'$' if shown else '%'} {line}\n{''.join(outputs(line, shown))}"


def rows():
    """The rows, and the commands of FILES that no page has."""
    files, parts = [*FILES], [HEAD]
    for page in PAGES:
        parts.append(f"\n# {page}\n")
        for block in BLOCK.findall((ROOT / page).read_text()):
            for command, shown in COMMAND.findall(block):
                if not SERVERS.search(command):
                    parts.append(rows_of(command, shown, files))
    return "".join(parts), files


def write():
    ROWS.write_text(rows()[0])


def other_rows():
    made, left = rows()
    yield from (f"checking/transcripts.py: no page has the command {it}" for it, _ in left)
    if not ROWS.exists() or ROWS.read_text() != made:
        yield f"crates/rows/data/{ROWS.name}: not the pages' transcripts (docs/check.py --write)"
