"""The width of the sources' lines. It counts characters: one that takes several bytes is one
column. `rt fmt` doesn't break comments, attributes and long texts, so a writer does."""
from checking.places import CRATES, ROOT

FOLDERS = ("src", "specs", "proofs")
MOST = 100


def too_wide():
    for folder in FOLDERS:
        for file in sorted(CRATES.glob(f"*/{folder}/**/*")):
            if file.suffix not in (".rt", ".antt"):
                continue
            for number, line in enumerate(file.read_text().splitlines(), 1):
                if len(line) > MOST:
                    yield (f"{file.relative_to(ROOT)}:{number}: {len(line)} columns, "
                           f"which are more than {MOST}")
