"""A second reader of files of counters, for `bench/counters`. It was written from docs/PROGRAM.md,
"The file of counters", and docs/SPECIFICATION.md, "Counters", without a look at the program.
"""
import re
from dataclasses import dataclass, field
from urllib.parse import unquote_to_bytes

HEADING = "rollout counters 1"
STATES = ("stopped", "serving")
NAME = re.compile(r"[A-Za-z_][A-Za-z0-9_]{0,31}")
# The cells of all arrays of a width, and the most of a quota.
CELLS, MOST_QUOTA = 4096, 2**63 - 1
LIMITS = {64: 2**64, 32: 2**32}
MOST_APPID = 1024


def number(text, least, most):
    """A decimal number within these bounds, or None."""
    if not text.isascii() or not text.isdigit():
        return None
    return int(text) if least <= int(text) <= most else None


def appid_of(line):
    """The appid of a line of a halted app, or None."""
    try:
        appid = unquote_to_bytes(line.removeprefix("halted ")).decode()
    except UnicodeDecodeError:
        return None
    return appid if 1 <= len(appid.encode()) <= MOST_APPID and "\n" not in appid else None


@dataclass
class Kept:
    """What a file says: halted apps, arrays by their names (width, length and quota), and the
    counters that aren't 0, by name and index."""

    halted: list = field(default_factory=list)
    arrays: dict = field(default_factory=dict)
    values: dict = field(default_factory=dict)

    def cells_left(self, width):
        return CELLS - sum(it[1] for it in self.arrays.values() if it[0] == width)

    def add(self, line):
        """Adds an array or a counter; whether the line is right."""
        fields = line.split(" ")
        if len(fields) == 3:
            return self.add_counter(*fields)
        return fields[0] == "array" and len(fields) in (4, 5) and self.add_array(*fields[1:])

    def add_array(self, name, width, length, quota=None):
        if not NAME.fullmatch(name) or width not in ("64", "32") or name in self.arrays:
            return False
        width, length = int(width), number(length, 1, CELLS)
        if length is None or length > self.cells_left(width):
            return False
        if quota is not None:
            quota = number(quota, 1, MOST_QUOTA) if width == 64 else None
            if quota is None:
                return False
        self.arrays[name] = (width, length, quota)
        return True

    def add_counter(self, name, index, value):
        if name not in self.arrays:
            return False
        width, length, quota = self.arrays[name]
        index = number(index, 0, length - 1)
        value = number(value, 0, (LIMITS[width] if quota is None else 2**63) - 1)
        if index is None or value is None or (name, index) in self.values:
            return False
        if value:
            self.values[name, index] = value
        return True

    def refuses(self, arrays):
        """Why a manifest that declares these arrays doesn't fit, or None."""
        new = Kept(arrays=dict(self.arrays))
        for place, (name, declared) in enumerate(arrays.items(), 1):
            if new.arrays.get(name, declared) != declared:
                return f"N2 Redefined in array {place}"
            if name not in new.arrays and declared[1] > new.cells_left(declared[0]):
                return f"N1 CellsFull in array {place}"
            new.arrays[name] = declared
        return None

    def cells(self):
        """What `rollout cells` prints of these counters."""
        order = {name: at for at, name in enumerate(self.arrays)}
        rows = sorted(self.values.items(), key=lambda row: (order[row[0][0]], row[0][1]))
        return "".join(f"{name}[{index}] {value}\n" for (name, index), value in rows)


def read(data):
    """What a file with these bytes says, or the number of its first wrong line."""
    try:
        lines = data.decode().split("\n")
    except UnicodeDecodeError as error:
        return data[: error.start].count(b"\n") + 1
    if lines[0] != HEADING:
        return 1
    if len(lines) < 2 or lines[1] not in STATES:
        return 2
    kept, at = Kept(), 2
    while at < len(lines) and lines[at].startswith("halted "):
        if (appid := appid_of(lines[at])) is None:
            return at + 1
        kept.halted.append(appid)
        at += 1
    while at < len(lines):
        if lines[at:] == ["end", ""]:
            return kept
        if not kept.add(lines[at]):
            return at + 1
        at += 1
    return len(lines) + 1
