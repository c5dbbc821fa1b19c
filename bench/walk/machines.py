#!/usr/bin/env python3
"""Plays the machines of docs/WALKTHROUGH.md. Each polls once, keeps its cohort, installs what it is
offered, and reports how that ended. Release 3.0 doesn't start on three machines of five.

usage: machines.py [COUNT]    with COUNT all machines are new and have 1.9
"""
import json
import sys
import urllib.request
import uuid
from collections import Counter
from pathlib import Path

PORT = 8080
URL = f"http://127.0.0.1:{PORT}/service/update2/json"
KEPT = Path("machines.json")


def ask(name, app):
    """The reply's object for the app. Names make the same UUIDs, and so buckets, in each run."""
    requestid = str(uuid.uuid5(uuid.NAMESPACE_DNS, name))
    body = {"request": {"protocol": "3.1", "requestid": requestid, "app": [app]}}
    with urllib.request.urlopen(URL, json.dumps(body).encode(), timeout=30) as reply:
        return json.loads(reply.read()[4:])["response"]["app"][0]


def poll(number, machine, counts):
    app = {"appid": "editor", "version": machine["version"], "updatecheck": {}}
    if machine["cohort"]:
        app["cohort"] = machine["cohort"]
    reply = ask(f"poll {number}", app)
    machine["cohort"], check = reply["cohort"], reply["updatecheck"]
    if check["status"] == "noupdate":
        return
    old, new = machine["version"], check["manifest"]["version"]
    counts[f"offered {new}"] += 1
    is_good = new != "3.0" or number % 5 > 2
    if is_good:
        counts[f"installed {new}"] += 1
        machine["version"] = new
    event = {"eventtype": 3, "eventresult": int(is_good), "previousversion": old}
    app = {"appid": "editor", "version": machine["version"], "cohort": machine["cohort"]}
    ask(f"event {number}", {**app, "event": [{**event, "nextversion": new}]})


def main():
    if sys.argv[1:]:
        machines = [{"version": "1.9", "cohort": None} for _ in range(int(sys.argv[1]))]
    else:
        machines = json.loads(KEPT.read_text())
    counts = Counter()
    for number, machine in enumerate(machines):
        poll(number, machine, counts)
    KEPT.write_text(json.dumps(machines))
    print(f"{len(machines)} polled", *(f"{count} {it}" for it, count in counts.items()), sep=", ")
    versions = Counter(it["version"] for it in machines)
    print("now", ", ".join(f"{versions[it]} have {it}" for it in sorted(versions)))


if __name__ == "__main__":
    main()
