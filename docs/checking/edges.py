"""Edges between crates that carry little and cost much: a crate names few items of another one, and
only through it has many lines below. Such items belong lower. `edges.txt` has the edges that stay,
each with its reason."""
import re
from functools import cache
from pathlib import Path

from checking.places import CRATES, named, with_all_below

REASONS = Path(__file__).with_suffix(".txt")
# An edge to more than FREE_LINES has to carry four names, and one for each 5,000 lines.
FREE_LINES, FEWEST_NAMES, LINES_OF_A_NAME = 10_000, 4, 5_000
# How a crate's items are named: `low::a`, `low::{a, b}`; `Rattle.low.specs.A.{b, c}`, `.. as x`.
IN_CODE = re.compile(r"\b(\w+)::(?:(\w+)|\{([^}]*)\})")
IN_SPECS = re.compile(r"\buse Rattle\.(\w+)\.specs\.([\w.]+?)(?:\.\{([^}]*)\}| as (\w+))")


@cache
def files(crate):
    """The texts of a crate's sources, definitions and proofs."""
    found = [it for part in ("src", "specs", "proofs") for it in (CRATES / crate / part).rglob("*")]
    return [it.read_text() for it in found if it.suffix in (".rt", ".antt")]


@cache
def size(crate):
    return sum(len(it.splitlines()) for it in files(crate))


def items(listed):
    return {it.split(" as ")[0].strip() for it in listed.split(",")} - {""}


@cache
def carried(user):
    """What a crate names of each other one; a type's variants count as the type."""
    found = {used: set() for used in named()[user]}
    for text in files(user):
        for used, one, listed in IN_CODE.findall(text):
            found.get(used, set()).update(items(one or listed))
        for used, spec, listed, other in IN_SPECS.findall(text):
            if spec.startswith("declared."):
                listed = spec.removesuffix(".TheVariants").split(".")[-1]
            elif other:
                listed = ",".join(re.findall(rf"\b{other}\.(\w+)", text))
            found.get(used, set()).update(items(listed))
    return found


def lines_through(user, used):
    """The lines of the crates that are below a crate only through another one."""
    others = named()[user] - {used}
    rest = with_all_below(used).difference(*map(with_all_below, others))
    return sum(map(size, rest))


def steep():
    """The edges that carry few names and many lines, each with what it costs."""
    for user in named():
        for used, names in sorted(carried(user).items()):
            lines = lines_through(user, used)
            wanted = max(FEWEST_NAMES, lines / LINES_OF_A_NAME)
            if lines > FREE_LINES and len(names) < wanted:
                yield f"{user} {used}", f"{lines} lines for {', '.join(sorted(names))}"


def faults():
    for user in named():
        empty = sorted(used for used, names in carried(user).items() if not names)
        yield from (f"crates.txt: {user} names nothing of {used}" for used in empty)
    reasons = dict(it.split(": ", 1) for it in REASONS.read_text().splitlines())
    for edge, cost in steep():
        if not reasons.pop(edge, ""):
            yield f"crates.txt: {edge}: {cost} (docs/checking/edges.txt)"
    yield from (f"docs/checking/edges.txt: {it}: no such edge, or a cheap one" for it in reasons)
