"""The names of public types: no two crates declare the same one. `meanings.txt` has the names that
stay with two meanings, each with its crates and a reason."""
from pathlib import Path

from checking.places import CRATES, crates
from checking.sources import items

TYPES = ("struct", "enum", "trait", "type")
REASONS = Path(__file__).with_suffix(".txt")


def declaring():
    """The crates that declare each public type, by its name."""
    found = {}
    for crate in sorted(crates()):
        for file in (CRATES / crate / "src").glob("**/*.rt"):
            for it in items(file.read_text().splitlines()):
                if it.is_pub and it.kind in TYPES and not it.is_test():
                    found.setdefault(it.name, {}).setdefault(crate)
    return found


def faults():
    reasons = dict(it.split(": ", 1) for it in REASONS.read_text().splitlines())
    for name, homes in sorted(declaring().items()):
        if len(homes) > 1 and not reasons.pop(" ".join([name, *homes]), ""):
            yield f"{name} is a type of {', '.join(homes)} (docs/checking/meanings.txt)"
    yield from (f"docs/checking/meanings.txt: {it}: has one meaning" for it in reasons)
