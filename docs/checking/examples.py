"""The examples that rows read. The gate runs rows in a copy of crates/rows/data, so these files are
there once more: each has to be the one of `examples`, byte for byte."""
import shutil

from checking.places import CRATES, ROOT

EXAMPLES, COPIES = ROOT / "examples", CRATES / "rows" / "data" / "examples"
READ = ["first", "rules", "staged", "stages", "bucket.bpf", "none.bin", "version.bpf"]


def files(top, names):
    """The bytes of the files of these names, and of those in folders of these names."""
    found = [file for it in names for file in (top / it, *(top / it).glob("**/*"))]
    return {file.relative_to(top): file.read_bytes() for file in found if file.is_file()}


def copy():
    shutil.rmtree(COPIES, ignore_errors=True)
    for path, text in files(EXAMPLES, READ).items():
        (COPIES / path).parent.mkdir(parents=True, exist_ok=True)
        (COPIES / path).write_bytes(text)


def other_copies():
    wanted, found = files(EXAMPLES, READ), files(COPIES, ["."])
    for it in sorted(wanted.keys() | found.keys()):
        if wanted.get(it) != found.get(it):
            yield f"crates/rows/data/examples/{it}: not that of examples (docs/check.py --write)"
