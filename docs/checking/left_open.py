"""The page OPEN: what no clause determines, from the `// open:` comments at calls, by crate. Each
public call has a clause or such a comment. `unclaimed.txt` says the same of the calls that lack both."""
from functools import cache

from checking.exports import told_crates
from checking.places import DOCS
from checking.sources import OPEN

UNCLAIMED = DOCS / "checking" / "unclaimed.txt"

MARK = "<!-- docs/check.py --write writes the rest from crates/*/src. -->\n"


@cache
def listed():
    """What is open of each call that lacks both, by its crate and its name."""
    return dict(it.split(": ", 1) for it in UNCLAIMED.read_text().splitlines())


def left_open(crate):
    """A line for each open thing, with its calls."""
    found = {}
    for name, item, _ in crate.calls():
        if what := item.open() or listed().get(f"{crate.name} {name}"):
            found.setdefault(what, []).append(f"`{name}`")
    return "".join(f"- {', '.join(calls)}: {what}\n" for what, calls in found.items())


def anew(text):
    """The page, with its text by hand up to the mark."""
    blocks = [text.partition(MARK)[0] + MARK]
    for crate in told_crates():
        if lines := left_open(crate):
            blocks.append(f"## [`{crate.name}`](../crates/{crate.name}/src)\n\n{lines}")
    return "\n".join(blocks)


def lost_open():
    """Crates with a comment on what is open that isn't at a call, so that the page lacks it."""
    for crate in told_crates():
        written = sum(it.path.read_text().count(OPEN) for it in crate.modules.values())
        if written != (found := sum(bool(it.open()) for _, it, _ in crate.calls())):
            yield f"{crate.name}: {written} comments {OPEN.strip()}, {found} of them at calls"


def unclaimed():
    """Public calls that have neither a clause nor a comment on what is open. A trait's functions
    have the clauses that its implementors keep."""
    for crate in told_crates():
        if not crate.name.startswith(("test_", "bench_")):
            for name, item, _ in crate.calls():
                if item.is_pub and "ensures" not in "\n".join(item.front()) and not item.open():
                    yield f"{crate.name} {name}"


def new_unclaimed():
    """Public calls that lack both and aren't listed, and listed ones that have one of the two."""
    found, known = {*unclaimed()}, {*listed()}
    yield from (f"{it}: neither a clause nor a comment // open:" for it in sorted(found - known))
    for it in sorted(known - found):
        yield f"docs/checking/unclaimed.txt: {it} has a clause or a comment, or is gone"
