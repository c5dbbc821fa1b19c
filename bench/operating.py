"""Checks docs/OPERATING.md: runs its manifest, rule, commands and recipes, with only the folder and
the ports changed, and also the requests of docs/CLIENTS.md.

Each check returns nothing, or what was wrong. If a command isn't installed, the check is skipped
with that name.
"""
import contextlib
import fcntl
import json
import os
import re
import shutil
import subprocess

from hosts import PATIENCE, ROOT, awaited, needs, section
from upgrading import UPGRADES

# Not the launcher, which sums all sources in each call: the page has a loop of a hundred calls.
BUILT = ROOT / "crates" / "rollout" / "out" / "rlib" / "rollout"
PORTS = {"8080": "18097", "8081": "18098"}
POSTED = "curl -s http://127.0.0.1:8080/service/update2/json --data-binary @-"
SERVING = "--port 8080 --operator 8081 --workers 1 --log"
OFFERED, NOTHING = '"version":"2.1"', '"status":"noupdate"'
REPLACED = "replaced editor.rule\nserver at 18098: generation {}\n"
HALTED = "server at 18098: generation 3, editor is halted\n"
# When a step was taken, by whom and why, which differs from the page.
UNLIKE = re.compile(r"\d{4}-\d\d-\d\dT\S+Z|since \d\d:\d\d| by \w+|: crash at start| \([^)]*\)")
# The fewest file descriptors with which a server starts, as "On a host" says.
LEAST = 10
# What the last recipe prints after the moment and the address.
OFFERS = ["editor b:2 1.9 2.1"]
# What each recipe before the last counts, in the page's order. In the day below, one machine is
# offered 2.1, one has no cohort, two installs end, and the event of a third is cut. No client is
# dropped, or waits.
COUNTS = [[]]
# What `report` counts for the same day, and a part of it in Prometheus's format.
REPORTED = {
    "offers": ["1 editor 2.1"],
    "installs": ["1 50.00 % 0 editor 1.9 2.0.4", "1 50.00 % 1 editor 1.9 2.0.4"],
    "without a cohort": ["1 editor"],
    "events that are cut": ["1 editor"],
}
EXPOSED = [
    'rollout_offers_total{app="editor",release="2.1"} 1',
    'rollout_cut_events_total{app="editor"} 1',
]


class Day:
    """A folder that stands in for /etc/rollout, in which blocks of the page are run."""

    def __init__(self, folder, program):
        self.folder = folder
        for it in ("bin", "libexec"):
            (folder / it).mkdir(parents=True)
        shutil.copy(ROOT / "building" / "installed", folder / "bin" / "rollout")
        for it in ("rollout", "rollout-tools"):
            (folder / "libexec" / it).symlink_to(program.with_name(it))
        manifest, rule, *_ = section("OPERATING.md", "Writing a manifest")
        (folder / "current.toml").write_text(manifest)
        (folder / "editor.rule").write_text(rule)

    def run(self, block, given=""):
        """The output of a block up to its first failure, and then the failure."""
        words = self.words(block)
        how = {"input": given, "timeout": PATIENCE, **self.place()}
        done = subprocess.run(words, capture_output=True, text=True, **how)
        return done.stdout + (f"{done.returncode} {done.stderr}" if done.returncode else "")

    def words(self, block):
        text = block.replace("/etc/rollout", str(self.folder)).removeprefix("$ ")
        if "--folder" not in text:
            text = re.sub(r"\brollout stage \w+", rf"\g<0> --folder {self.folder}", text)
        return ["sh", "-ec", re.sub(r"\b(8080|8081)\b", lambda found: PORTS[found[0]], text)]

    def place(self):
        path = f"{self.folder / 'bin'}:{os.environ['PATH']}"
        return {"cwd": self.folder, "env": {**os.environ, "PATH": path}}

    @contextlib.contextmanager
    def served(self):
        """A server of current.toml with its log, until it is stopped."""
        words = self.words(f"exec rollout serve current.toml {SERVING}")
        with open(self.folder / "server.log", "ab") as log:
            how = {"stdout": subprocess.DEVNULL, "stderr": log, **self.place()}
            server = subprocess.Popen(words, **how)
        try:
            if not awaited(lambda: self.run("rollout show --operator 8081 || :")):
                raise OSError("the server doesn't listen")
            yield
            stopped = self.run("rollout stop --operator 8081 --wait")
            if stopped != "stopping\n" or server.wait(PATIENCE) != 0:
                raise OSError(f"no stop: {stopped}")
        finally:
            server.kill()
            server.wait()


def asking():
    """The block that sends a machine's request to the server."""
    return section("OPERATING.md", "What is being served")[1]


def before_halt():
    """The commands that make a copy of the folder as it was before its last step, a halt."""
    text = (ROOT / "docs" / "OPERATING.md").read_text()
    return re.search(r"`(then=\$\(mktemp -d\) .*?)`", text)[1]


def wrong_digests(day, comparing):
    """Two equal lines, also once logrotate has copied the log and emptied it."""
    log = day.folder / "server.log"
    written = log.read_bytes()
    for when in ("comparing", "after a rotation"):
        lines = day.run(comparing).splitlines()
        if len(lines) != 2 or lines[0] != lines[1]:
            return f"{when}: {lines}"
        os.truncate(log, 0)
    log.write_bytes(written + log.read_bytes())


def wrong_stages(day):
    """Raises a stage, halts it, and undoes both."""
    raising, moves, _ = section("OPERATING.md", "Raising a stage")
    halting, *_ = section("OPERATING.md", "Halting a release")
    comparing, ask, buckets, _ = section("OPERATING.md", "What is being served")
    if NOTHING not in (printed := day.run(ask)):
        return f"before: {printed}"
    if day.run(raising) != moves + REPLACED.format(2):
        return f"raising: {day.run(raising)}"
    if wrong := wrong_digests(day, comparing):
        return wrong
    if OFFERED not in (printed := day.run(ask)):
        return f"after it: {printed}"
    if (printed := day.run(buckets)).splitlines()[1:5] != ["0", "1", "2", "6"]:
        return f"buckets: {printed}"
    if (printed := day.run(halting)) != HALTED + REPLACED.format("4, halted: editor"):
        return f"halting: {printed}"
    if NOTHING not in (printed := day.run(ask)):
        return f"after a halt: {printed}"
    if "< 2500 offer 1;" not in (printed := day.run(f"{before_halt()} && cat $then/editor.rule")):
        return f"before the halt: {printed}"
    return wrong_status(day)


def wrong_status(day):
    """The status after a raise and a halt, but for when, by whom and why; then undoes the halt."""
    shown = section("OPERATING.md", "Steps, and going back")[0]
    commands = [it.removeprefix("$ ") for it in shown.splitlines() if it.startswith("$ ")]
    output = day.run(" && ".join(commands))
    wanted = [line for line in shown.splitlines() if not line.startswith("$ ")]
    for line, found in zip(wanted, output.splitlines(), strict=True):
        if UNLIKE.sub("", line.replace("8081", "18098")) != UNLIKE.sub("", found):
            return f"{found}, not {line}"
    day.run("rollout stage halt editor --operator 8081")


def wrong_events(day):
    """Sends requests with an event, and one without a cohort."""
    check, report = section("CLIENTS.md", "The request")
    answer = '{"app":[{"appid":"editor","cohort":"b:9449","status":"ok"}],'
    long = report.replace('"eventtype"', f'"text":"{"x" * 600}","eventtype"')
    for body in (report, report.replace('"eventresult":1', '"eventresult":0'), long):
        if answer not in (printed := day.run(POSTED, body)):
            return printed
    if NOTHING not in (printed := day.run(POSTED, check.replace('"cohort":"b:9449",', ""))):
        return printed


def wrong_counts(day):
    recipes = [it for it in section("OPERATING.md", "The log") if it.startswith("jq ")]
    *counting, offers = recipes
    for recipe, counts in zip(counting, COUNTS, strict=True):
        found = [" ".join(line.split()) for line in day.run(recipe).splitlines()]
        if found != counts:
            return f"{found} by {recipe}"
    found = [" ".join(json.loads(line).split()[2:]) for line in day.run(offers).splitlines()]
    if found != OFFERS:
        return f"{found} by {offers}"


def wrong_report(day):
    """What `report` counts in the day's log, of which each line is the server's."""
    tables, heading = {}, ""
    for line in day.run("rollout report server.log").splitlines():
        heading = heading if "\t" in line else line
        tables.setdefault(heading, []).extend([line.replace("\t", " ")] if "\t" in line else [])
    lines = (day.folder / "server.log").read_text().splitlines()
    counted = {"lines": [f"{len(lines)} counted", "0 not the server's", "0 lost"]}
    for heading, rows in {**counted, **REPORTED}.items():
        if tables.get(heading, [])[: len(rows)] != rows:
            return f"report: {heading}: {tables.get(heading)}"
    exposed = day.run("cat server.log | rollout report - --prometheus").splitlines()
    if lost := {*EXPOSED} - {*exposed}:
        return f"report --prometheus: no {lost}"
    whole = day.run("rollout report server.log")
    day.run("head -n 3 server.log > part.log && printf '{' >> part.log")
    day.run("rollout report part.log --state now.state && cp server.log part.log")
    for _ in range(2):
        if (printed := day.run("rollout report part.log --state now.state")) != whole:
            return f"report --state: {printed}"
    with open(day.folder / "now.state") as state:
        fcntl.flock(state, fcntl.LOCK_EX)
        printed = day.run("rollout report part.log --state now.state")
        if not printed.startswith("1 refused B10 Locked\n"):
            return f"report --state, while another has it: {printed}"
    if printed := day.run("rollout report server.log --since 2007-01-01T00:00:00Z --until 1d"):
        is_empty = printed.startswith("lines\n0\tcounted\n")
        return None if is_empty else f"report --until 1d: {printed}"


def day_of_the_page(folder, program=BUILT):
    """A stage, the next one, and a halt that persists over a restart; and the day's log."""
    needs("jq", "curl")
    day = Day(folder / "day", program)
    with day.served():
        if wrong := wrong_stages(day) or wrong_events(day):
            return wrong
    if wrong := wrong_counts(day) or wrong_report(day):
        return wrong
    with day.served():
        if NOTHING not in (printed := day.run(asking())):
            return f"after a restart: {printed}"


def few_descriptors(folder, program=BUILT):
    """With nine file descriptors a server doesn't start, and with ten it answers and loads."""
    needs("curl")
    day = Day(folder / "few", program)
    start = f"ulimit -n {{}}; exec {program} serve current.toml {SERVING.removesuffix(' --log')}"
    for count in range(4, LEAST):
        if (printed := day.run(start.format(count))) != "1 refused B6 Bind\n":
            return f"with {count}: {printed!r}"
    how = {"stdout": subprocess.PIPE, "text": True, **day.place()}
    with subprocess.Popen(day.words(start.format(LEAST)), **how) as server:
        try:
            return wrong_with_few(day, server)
        finally:
            server.kill()


def wrong_with_few(day, server):
    """A server with the fewest file descriptors that it needs."""
    if (printed := server.stdout.readline()) != "serving generation 1\n":
        return f"with {LEAST}: {printed!r}"
    ask = asking()
    for command, wanted in (
        (ask, NOTHING),
        ('rollout load "$PWD/current.toml" --operator 8081', "generation 2\n"),
        (ask, NOTHING),
        ("rollout stop --operator 8081 --wait", "stopping\n"),
    ):
        if wanted not in (printed := day.run(command)):
            return f"with {LEAST}: {printed!r} of {command}"
    if server.wait(PATIENCE) != 0:
        return f"with {LEAST}: status {server.returncode}"


PAGES = {
    "the commands of docs/OPERATING.md": day_of_the_page,
    "few file descriptors": few_descriptors,
    **UPGRADES,
}
