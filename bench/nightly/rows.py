"""The rows that a call of `stage` prints: who gets something else. Each has to be so, and a machine
in no row gets the same."""
import re

from nightly.rules import TEST, holds, machines, number

FROM = re.compile(r"^from (?:what the server at (\d+) serves|before the halt)")
APP = re.compile(r"^app (\S+?)(?::| )(.*)$")


def fits(condition, version, bucket):
    """Whether a machine is one of a row's."""
    text = TEST.sub(lambda it: str(holds(it[0], version, bucket)), condition)
    if not re.fullmatch(r"(True|False|and|or|not|[() ])*", text):
        raise ValueError(f"a row's condition: {condition}")
    return bool(eval(text or "True"))  # words of Python alone, as just checked


class Compared:
    """What is printed of one comparison: the rows of each app, and the apps without one."""

    def __init__(self, start):
        self.start, self.rows, self.uncompared, self.is_same = start, {}, set(), False

    def add(self, line):
        if found := APP.match(line):
            self.app = found[1]
            self.rows[self.app] = []
            if "not compared" in found[2]:
                self.uncompared.add(self.app)
        elif line.startswith("the same for every machine"):
            self.is_same = True
        elif line.startswith("  ") and self.rows:
            now, then, *rest = line.split()
            mark = rest.pop(0) if rest and rest[0] in ("lost", "changed") else ""
            text = " ".join(rest)
            self.rows[self.app].append((now, then, mark, "" if text == "everybody" else text))

    def untrue(self, old, new):
        """What isn't so of the change from one load to another."""
        for app in sorted({*old.appids(), *new.appids()} - self.uncompared):
            had = old if app in old.appids() else None
            has = new if app in new.appids() else None
            if "program" in {it.kind_of(app) for it in (had, has) if it}:
                continue
            for version, bucket in machines(old, new):
                pair = [it and it.offer(app, version, bucket) or "none" for it in (had, has)]
                rows = [it for it in self.rows.get(app, []) if fits(it[3], version, bucket)]
                if pair[0] != pair[1] and [[*it[:2]] for it in rows] != [pair]:
                    yield f"{app} {version} in {bucket}: {pair}, and the rows {rows}"
                    return
                if pair[0] == pair[1] and rows:
                    yield f"{app} {version} in {bucket}: {pair[0]} both times, and {rows}"
                    return
                if rows and (rows[0][2] == "lost") != is_lost(*pair):
                    yield f"{app}: the mark of {rows}"
                    return


def is_lost(now, then):
    return now != "none" and (then == "none" or number(then) < number(now))


def compared_in(output):
    """The comparisons that a call prints."""
    found = [Compared("")]
    for line in output.splitlines():
        if it := FROM.match(line):
            found.append(Compared(it[1] or "halt"))
        elif not line.startswith(("replaced", "server at", "would", "undone", "a machine")):
            found[-1].add(line)
    return [it for it in found if it.rows or it.is_same]


def untrue_rows(night, plan, call, output):
    """What isn't so of the rows of a call."""
    for it in compared_in(output):
        if it.start == "halt" or plan.then is None:
            continue
        servers = [server for server in call.servers if server.is_up]
        olds = [server.load for server in servers if str(server.operator) == it.start]
        olds = olds or [plan.now, *(server.load for server in servers)]
        wrong = [[*it.untrue(old, plan.then)] for old in olds if old]
        if wrong and all(wrong):
            yield f"rows: {wrong[0]}"
