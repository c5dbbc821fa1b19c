"""Logs for `bench/page`: an empty one, a quiet day, a good day, a bad night, hostile names, 256
apps, and more names than a report has rows. Each ends now. And what a page of a log has to say,
counted by itself.
"""
import json
import random
from collections import Counter, defaultdict
from datetime import datetime, timedelta, timezone

NAMES = [
    "<script>alert(1)</script>", '" onload="alert(1)', "' onmouseover='x'", "]]><!--",
    "&lt;b&gt;", "</style></title></textarea><img src=x onerror=alert(1)>",
    "\u202egnp.exe\u2066", "a\0b\x1b[31m", "javascript:alert(1)", "\ufffe\uffff\u0085",
    "$(rm -rf /)", "--help", "a b", "x" * 1024,
]
# The minute of the bad night's last line.
BAD_NIGHT_ENDS = 605
NO_UTF8 = b'{"kind":"connection","apps":[{"appid":"\xff\xfe"}]}\n'


def connection(minute, apps, status=200, **more):
    """A line, as all others here with its minute for its time."""
    return {"time": minute, "kind": "connection", "status": status, "apps": apps, **more}


def asks(app, version, release=None):
    offer = {"choice": 1, "release": release} if release else {"choice": 0}
    return {"appid": app, "version": version, "bucket": random.randrange(10000), **offer}


def installed(app, old, new, result):
    event = {"eventtype": 3, "eventresult": result, "previousversion": old, "nextversion": new}
    version = new if result else old
    return {"appid": app, "version": version, "choice": 0, "event": json.dumps([event])}


def course(app, versions, minutes, offered_from, failing, machines=2, share=0.25):
    """One app's lines: how many machines ask in each minute, and which share of them is offered the
    new version and installs it."""
    older, old, new = versions
    for minute in minutes:
        for _ in range(machines):
            if minute >= offered_from and random.random() < share:
                result = int(random.random() >= failing)
                yield connection(minute, [asks(app, old, new)])
                yield connection(minute, [installed(app, old, new, result)])
            else:
                yield connection(minute, [asks(app, random.choice([old, old, old, older]))])


def load(minute, path, generation, **more):
    return {"time": minute, "kind": "load", "path": path, "generation": generation, **more}


def with_totals(lines, longest_wait):
    """These lines, and a server's totals of each minute that has one. The longest wait, in
    microseconds, is that of the first minute."""
    minutes = defaultdict(Counter)
    for line in lines:
        yield line
        minutes[line["time"]][f"status_{line.get('status')}"] += 1
    for minute, statuses in minutes.items():
        statuses.pop("status_None", None)
        yield {"time": minute + 0.9, "kind": "totals", **statuses, "dropped": 0,
               "longest_wait": longest_wait if minute == min(minutes) else 200, "busy": 1}


def quiet_day():
    for minute in range(0, 1440, 60):
        yield connection(minute, [asks("editor", "2.0")])


def good_day():
    yield from course("editor", ("1.9", "2.0", "2.1"), range(1440), 1020, 0.012)
    yield from course("viewer", ("4.9", "5.0", "5.1"), range(1440), 280, 0.007)
    yield load(280, "/etc/rollout/manifest.toml", 2)
    yield load(1020, "/etc/rollout/manifest.toml", 3)


def bad_night():
    minutes = range(510, BAD_NIGHT_ENDS + 1)
    yield from course("editor", ("1.9", "2.0", "2.1"), minutes, 560, 0.6, 8, 0.12)
    yield from course("viewer", ("4.9", "5.0", "5.1"), minutes, 510, 0.01)
    yield load(560, "/etc/rollout/manifest.toml", 5)
    yield load(591, "/tmp/m.toml", 6, digest="8e13a521" * 8)
    yield {"time": 588, "kind": "lost", "lines": 12}
    yield from [connection(600, [], 500, refusal="O9 Answer")] * 3
    yield from [connection(601, [], 400, refusal="O3 Protocol")] * 4


def hostile():
    for name in NAMES:
        for minute in range(25):
            yield connection(minute, [asks(name, name[:40], name[:50])])
            yield connection(minute, [installed(name, name[:40], name[:50], int(minute % 3 > 0))])
        yield load(3, name, 2)
        yield connection(5, [{"appid": name, "unknown": True}], 400, refusal=name)
        yield {"time": 6, "kind": name}


def many_apps():
    for app in range(256):
        for minute in range(0, 60, 10):
            yield connection(minute, [asks(f"app{app:03}", "1.0", "1.1" if minute > 20 else None)])
        yield connection(40, [installed(f"app{app:03}", "1.0", "1.1", int(app % 50 > 0))])


def limits():
    """Each list of a report has more names than rows, as long as those of many programs."""
    for n in range(300):
        app = f"{{{n:08X}-1B2C-4D3E-8F90-A1B2C3D4E5F6}}"
        for minute in range(0, 1440, 60):
            yield connection(minute, [asks(app, "131.0.6778.204", "131.0.6778.265")])
        yield connection(n, [installed(app, "131.0.6778.204", "131.0.6778.265", n % 3)])
        yield load(n, f"/etc/rollout/releases/{n:04}/manifest.toml", n + 2)
        yield connection(n, [], 400, refusal=f"O{n} of a later version")
        yield {"time": n, "kind": f"kind {n}"}


def stamped(lines):
    """The lines in their order, with times of which the last one is now."""
    now = datetime.now(timezone.utc)
    last = max((line["time"] for line in lines), default=0)
    for line in sorted(lines, key=lambda line: line["time"]):
        moment = now - timedelta(minutes=last - line["time"])
        yield {**line, "time": moment.strftime("%Y-%m-%dT%H:%M:%S.000Z")}


# Longer than the second from which on a wait is a finding, and that finding.
LONGEST_WAIT = 2_314_567
WAITED = "Clients waited up to 2.31 seconds"


def all_logs():
    """The bytes of each log, and its lines."""
    random.seed(5)
    makers = {"empty": list, "quiet-day": quiet_day, "good-day": good_day, "bad-night": bad_night,
              "hostile": hostile, "many-apps": many_apps, "limits": limits}
    for name, maker in makers.items():
        wait = {"bad-night": LONGEST_WAIT, "quiet-day": 1_000_000}.get(name, 20_000)
        lines = [*stamped([*with_totals(maker(), wait)])]
        text = b"".join(json.dumps(line).encode() + b"\n" for line in lines)
        yield name, (NO_UTF8 if name == "hostile" else b"") + text, lines


def shown_name(name):
    """A name as a page shows it: control characters are escaped, and what XML forbids is a question
    mark."""
    def shown(c):
        n = ord(c)
        turns = n in (0x61C, 0x200E, 0x200F) or 0x2028 <= n <= 0x202E or 0x2066 <= n <= 0x2069
        if n < 32 or 127 <= n <= 159 or turns:
            return f"\\u{{{n:x}}}"
        return "?" if n in (0xFFFE, 0xFFFF) else c

    return "".join(map(shown, name))


def share(n, whole):
    hundredths = n * 10000 // whole if whole else 0
    return f"{hundredths // 100}.{hundredths % 100:02} %" if whole else ""


def rows_of(lines):
    """The rows of the tables of versions, by the lines of a log with plain names: for each app, in
    the order of their names, its versions, the last one first."""
    counts, names, every = Counter(), set(), Counter()
    for line in lines:
        for app in line.get("apps", []) if line.get("status") == 200 else []:
            appid = app["appid"]
            if "choice" in app:
                every[appid] += 1
                counts["asks", appid, app["version"]] += 1
                names.add((appid, app["version"]))
            if "release" in app:
                counts["offers", appid, app["release"]] += 1
                names.add((appid, app["release"]))
            for event in json.loads(app.get("event", "[]")):
                version, failed = event["nextversion"], event["eventresult"] == 0
                counts["installs", appid, version] += 1
                counts["failed", appid, version] += failed
                if failed:
                    names.add((appid, version))
    rows = []
    for appid in sorted(every):
        for version in sorted((v for a, v in names if a == appid), reverse=True):
            requests, offers, ended, failed = (
                counts[what, appid, version] for what in ("asks", "offers", "installs", "failed"))
            rows.append([version, f"{requests:,}", share(requests, every[appid]), f"{offers:,}",
                         f"{ended:,}", f"{failed:,}", share(failed, ended)])
    return rows


def statuses_of(lines):
    """The rows of the statuses of replies, by the totals."""
    counts = Counter()
    for line in lines:
        for name, count in line.items():
            if name.startswith("status_"):
                counts[name.removeprefix("status_")] += count
    return [[status, f"{count:,}"] for status, count in counts.items()]
