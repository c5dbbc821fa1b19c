"""Compares `diff` with `ask`: for random pairs of rules, a machine of each row gets from each
manifest what the row says, and random machines in no row get the same from both. And the recipe for
CI of docs/OPERATING.md finds three changes by which operators came to harm.

Each check returns nothing, or what was wrong.
"""
import json
import random
import re
import subprocess

from asking import HASH, array
from hosts import needs, section
from operating import BUILT, Day

TOOLS = BUILT.with_name("rollout-tools")
PAIRS, MACHINES, OTHERS = 120, 20000, 20
QUOTA = 3
EVENT = {"eventtype": 3, "eventresult": 1}
VERSIONS = [None, "x", "0.9", "1.0", "1.5", "2.1", "2.1.0.1", "3.0", "4"]
DAYS = [0, 7264, 7265, 7273, 7274, 7275, 7276, 7300]
INSTALLED = [None, 0, 7000, 7274, 4294967294]
APS = [None, "", "a", "b", "canary"]
SALTS = [7319492859585677826, 7319492859585677827]
BITS = ["version_known", "updatecheck", "ping", "event", "cohort_known", "installdate_known"]

# ---- random rules

TESTS = [
    lambda draw: f"version {draw.choice(['<', '>=', '=='])} {draw.choice(['1.0', '2.1', '3.0'])}",
    lambda draw: f"today >= {draw.choice(DAYS[2:])}",
    lambda draw: f"installed < {draw.choice([1, 7000, 7274])}",
    lambda draw: f"bucket < {draw.choice([42, 500, 2500])}",
    lambda draw: f"bucket({draw.choice(SALTS)}) < {draw.choice([500, 2500, 5000])}",
    lambda draw: f"bucket mod 4 == {draw.randrange(4)}",
    lambda draw: f"flag {draw.choice(['ping', 'version_known', 'cohort_known', BITS[5]])}",
    lambda draw: f'attr ap is "{draw.choice(APS[2:])}"',
    lambda draw: 'attr cohort is "b:0042"',
    lambda draw: f"take(q, {draw.randrange(2)})",
]


def condition(draw):
    tests = [draw.choice(TESTS)(draw) for _ in range(draw.randint(1, 3))]
    tests = [f"not {it}" if draw.random() < 0.15 else it for it in tests]
    return draw.choice([" and ", " or "]).join(tests)


def whens(draw):
    return [(condition(draw), draw.randint(1, 2)) for _ in range(draw.randint(1, 3))]


def changed(draw, old):
    """One condition is another, or a `when` is left out, or all are drawn anew."""
    new, at = list(old), draw.randrange(len(old))
    how = draw.randrange(3)
    if how == 0:
        new[at] = (condition(draw), new[at][1])
    elif how == 1:
        del new[at]
    return whens(draw) if how == 2 else new


def rule(of):
    return "".join(f"when {it} offer {release};\n" for it, release in of) + "otherwise none;\n"


def manifest(name):
    releases = "".join(
        f'[[app.release]]\nversion = "{it}"\ncodebase = "http://dl.example/"\n'
        f'[[app.release.package]]\nname = "x.bin"\nhash_sha256 = "{HASH}"\n'
        "size = 3\nrequired = true\n"
        for it in ("2.1", "3.0")
    )
    head = 'server = ""\n' + array("q", 64, 2, QUOTA)
    return f'{head}[[app]]\nappid = "editor"\nrule = "{name}.rule"\n{releases}'


def write(folder, name, text):
    (folder / f"{name}.rule").write_text(text)
    (folder / f"{name}.toml").write_text(manifest(name))


def tools(folder, *words):
    done = subprocess.run([TOOLS, *words], cwd=folder, capture_output=True, text=True)
    return done.returncode, done.stdout, done.stderr


# ---- machines in states


def fnv1a(data):
    found = 14695981039346656037
    for byte in data:
        found = (found ^ byte) * 1099511628211 % 2**64
    return found


def numbers(version):
    parts = version.split(".") if version else []
    if not 1 <= len(parts) <= 4 or not all(it.isdigit() for it in parts):
        return None
    return tuple(map(int, parts)) + (0,) * (4 - len(parts))


class Machine:
    """A random machine that requests an update, in a random state of the cells q[0] and q[1]."""

    def __init__(self, draw):
        self.version, self.day = draw.choice(VERSIONS), draw.choice(DAYS)
        self.installed, self.ap = draw.choice(INSTALLED), draw.choice(APS)
        self.bucket = draw.choice([41, 42, 43, draw.randrange(10000), draw.randrange(10000)])
        self.id, self.named = str(draw.random()), draw.random() < 0.7
        if not self.named:
            self.bucket = fnv1a(self.id.encode()) % 10000
        self.cohort = f"b:{self.bucket:04}" if self.named else ""
        self.ping, self.event = draw.random() < 0.5, draw.random() < 0.5
        self.taken = [draw.randint(0, QUOTA), draw.randint(0, QUOTA)]

    def number(self, of, salt, modulus):
        if of == "version":
            return numbers(self.version) or (0, 0, 0, 0)
        if of == "bucket":
            salted = b"%04d" % self.bucket + int(salt or 0).to_bytes(8, "little")
            found = fnv1a(salted) % 10000 if salt else self.bucket
            return found % int(modulus) if modulus else found
        known = 4294967295 if self.installed is None else self.installed
        return {"today": self.day, "installed": known}[of]

    def flag(self, name):
        return {
            "version_known": numbers(self.version) is not None,
            "updatecheck": True,
            "ping": self.ping,
            "event": self.event,
            "cohort_known": self.named,
            "installdate_known": self.installed is not None,
        }[name]

    def text(self, name):
        return {"ap": self.ap or "", "cohort": self.cohort}[name]

    def request(self):
        app = {"appid": "editor", "version": self.version, "installdate": self.installed,
               "ap": self.ap, "cohort": self.cohort or None, "updatecheck": {}}
        app = {name: it for name, it in app.items() if it is not None}
        app |= ({"ping": {}} if self.ping else {}) | ({"event": [EVENT]} if self.event else {})
        return json.dumps({"request": {"protocol": "3.1", "requestid": self.id, "app": [app]}})

    def offer(self, folder, name):
        """What `ask` says that the machine gets from a manifest: a version or None."""
        (folder / "request.json").write_text(self.request())
        second = 1167609600 + 86400 * self.day
        cells = [f"--cells=q[{at}]={it}" for at, it in enumerate(self.taken)]
        words = ["ask", f"{name}.toml", "request.json", "--at", str(second), *cells]
        status, printed, why = tools(folder, *words)
        if status != 0:
            raise ValueError(why)
        offered = re.search(r'"version":"([^"]+)"', printed)
        return offered and offered[1]


# ---- conditions

COMPARES = re.compile(
    r"(version|today|installed|bucket)(?:\((\d+)\))?(?: mod (\d+))? (<|<=|==|!=|>=|>) ([\d.]+)"
)
FLAG, ATTR = re.compile(r"flag (\w+)"), re.compile(r'attr (\w+) is "([^"]*)"')
LEFT = re.compile(r"q\[(\d)\] (open|used up|with (\d+)(?: left| or more left| to (\d+) left))")


def compared(found):
    of, salt, modulus, how, to = found.groups()
    wanted = numbers(to) if of == "version" else int(to)
    return f"(m.number({of!r}, {salt!r}, {modulus!r}) {how} {wanted!r})"


def left(found):
    at, how, low, high = found.groups()
    has = f"({QUOTA} - m.taken[{at}])"
    if how == "open":
        return f"({has} >= 1)"
    if how == "used up":
        return f"({has} == 0)"
    most = high or ("99" if "more" in how else low)
    return f"({low} <= {has} <= {most})"


def holds(when):
    """Whether a machine in a state is in the row, as a function."""
    python = [LEFT.sub(left, it) for it in when]
    python = [ATTR.sub(lambda it: f"(m.text({it[1]!r}) == {it[2]!r})", it) for it in python]
    python = [FLAG.sub(lambda it: f"m.flag({it[1]!r})", it) for it in python]
    python = [COMPARES.sub(compared, it) for it in python]
    return eval("lambda m: " + (" and ".join(f"({it})" for it in python) or "True"))


# ---- checks


def wrong_pair(folder, draw, machines, old, new):
    """A row that isn't so, or a machine in no row that gets something else."""
    write(folder, "old", rule(old))
    write(folder, "new", rule(new))
    status, printed, why = tools(folder, "diff", "old.toml", "new.toml", "--json")
    if status != 0:
        return why
    apps = json.loads(printed)["apps"]
    rows = [(it, holds(it["when"])) for it in (apps[0]["rows"] if apps else [])]
    for row, has in rows:
        machine = next((it for it in machines if has(it)), None)
        want = [row[it] and row[it]["version"] for it in ("now", "next")]
        if machine is None:
            continue
        got = [machine.offer(folder, it) for it in ("old", "new")]
        if got != want:
            return f"{row}: {got} for {vars(machine)}"
    for machine in draw.sample(machines, OTHERS):
        if sum(has(machine) for _, has in rows) > 1:
            return f"in two rows: {vars(machine)}"
        if not any(has(machine) for _, has in rows):
            got = [machine.offer(folder, it) for it in ("old", "new")]
            if got[0] != got[1]:
                return f"in no row: {got} for {vars(machine)}"


def random_pairs(folder):
    draw = random.Random(7)
    machines = [Machine(draw) for _ in range(MACHINES)]
    for _ in range(PAIRS):
        old = whens(draw)
        new = changed(draw, old)
        if wrong := wrong_pair(folder, draw, machines, old, new):
            return f"{rule(old)}{rule(new)}{wrong}"


# ---- the recipe for CI

WAVES = "version < 2.1 and today >= 7265 and bucket mod 4 == 1"
TODAY = "version < 2.1 and today >= 7265 and bucket({}) < 500"
TAKING = f"version < 2.1 and bucket({SALTS[0]}) < {{}} and take(first, 0)"
FIRST = array("first", 64, 1, QUOTA)
# A change, the rules, the arrays and more options; what the recipe prints, and its status.
HARMS = [
    ("a halt of waves", [(WAVES, 1)], [], "", "", "2.1        none       lost  ", 1),
    ("another salt from a day on", [(TODAY.format(SALTS[0]), 1)], [(TODAY.format(SALTS[1]), 1)],
     "", "", "2.1        none       lost  ", 1),
    ("a raise under a quota", [(TAKING.format(500), 1)], [(TAKING.format(2500), 1)], FIRST, "",
     "first[0] open\na machine in no row", 0),
    ("a raise under a used up quota", [(TAKING.format(500), 1)], [(TAKING.format(2500), 1)], FIRST,
     f"--cells 'first[0]={QUOTA}'", "the same for every machine\n", 0),
]


def piped(day, old, new, arrays, more):
    """What the recipe prints if the served manifest's rule is changed from one to another."""
    manifest, *_ = section("OPERATING.md", "Writing a manifest")
    [recipe] = section("OPERATING.md", "Check manifests in CI")
    for folder, offers in ((day.folder / "served", old), (day.folder, new)):
        (folder / "current.toml").write_text(manifest.replace("[[app]]", f"{arrays}[[app]]", 1))
        (folder / "editor.rule").write_text(rule(offers))
    day.run("cd served; git add .; git -c user.name=a -c user.email=a@b commit -qm served")
    return day.run(f"{recipe.rstrip()} {more}\n")


def harms(folder):
    """Changes by which operators came to harm, in a clone of a repository of manifests."""
    needs("git")
    day = Day(folder / "pipeline", BUILT)
    day.run('git init -q -b main served; git init -q .; git remote add origin "file://$PWD/served"')
    for title, *change, wanted, status in HARMS:
        printed = piped(day, *change)
        if wanted not in printed or ("\n1 " in printed) != (status == 1):
            return f"{title}: {printed}"


COMPARISONS = {
    "diff and ask on random pairs of rules": random_pairs,
    "the recipe for CI finds changes that did harm": harms,
}
