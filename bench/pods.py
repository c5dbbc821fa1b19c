"""Checks the pods of examples/deploy: the shares of a quota add up, a put in a pod replaces its files
and loads them, and kubernetes.yaml agrees with the image and the unit. No cluster is used.

Also tests the alerts. Each check returns nothing, or what was wrong.
"""
import io
import json
import os
import re
import shutil
import subprocess
import tarfile

from hosts import DEPLOY, PATIENCE, ROOT, Skipped, called, needs
from operating import BUILT, NOTHING, OFFERED, PORTS, Day, asking

HALTED = ", halted: editor\n"
QUOTAS = [1, 2, 7, 1000, 9223372036854775807]
# After SIGTERM: the seconds that rollout.service adds up, with some more.
STOPPING = re.compile(r"^TimeoutStopSec=(\d+)$", re.M)
# Quotas that can't be divided, each in place of its line.
ODD = ["  quota = 7", "quota=7", "quota = 1_000", "array = [{ name = \"x\", quota = 7 }]"]
ARRAY = '\n[[array]]\nname = "first"\nwidth = 64\nlength = 1\nquota = {}   # of all pods\n'


def script(day):
    """pod.sh for the folder of a day."""
    text = (DEPLOY / "pod.sh").read_text().replace("place=/etc/rollout", f"place={day.folder}")
    place = day.folder / "pod.sh"
    place.write_text(text.replace("rollout stage put", f"rollout stage put --folder {day.folder}"))
    return place


def in_pod(day, number, pods, *words, given=None):
    own = {"HOSTNAME": f"rollout-{number}", "REPLICAS": str(pods)}
    how = day.place() | {"env": {**day.place()["env"], **own, "ROLLOUT_OPERATOR": PORTS["8081"]}}
    done = subprocess.run(["sh", script(day), *words], input=given, timeout=PATIENCE,
                          stdout=subprocess.PIPE, stderr=subprocess.STDOUT, **how)
    return done.returncode, done.stdout.decode()


def share(day, number, pods):
    """The quota in the manifest with which a pod begins."""
    (day.folder / "current.toml").unlink()
    if (found := in_pod(day, number, pods, "first", "first")) != (0, ""):
        raise OSError(f"{found}")
    return int(re.search(r"^quota = (\d+)$", (day.folder / "current.toml").read_text(), re.M)[1])


def wrong_shares(day):
    first = day.folder / "first"
    first.mkdir()
    manifest = (day.folder / "current.toml").read_text()
    for quota in QUOTAS:
        whole = manifest.replace("\n\n", ARRAY.format(quota) + "\n", 1)
        (first / "current.toml").write_text(whole)
        for pods in range(1, 5):
            shares = [share(day, it, pods) for it in range(pods)]
            if sum(shares) != quota or max(shares) - min(shares) > 1:
                return f"{quota} in {pods} pods: {shares}"
    if in_pod(day, 1, 2, "first", "first") != (0, "") or share(day, 0, 1) != QUOTAS[-1]:
        return "a pod with a manifest begins anew"
    (day.folder / "current.toml").unlink()
    status, printed = in_pod(day, 2, 2, "first", "first")
    if (status, "has no share" in printed) != (1, True) or (day.folder / "current.toml").exists():
        return f"a third pod of two: {printed!r}, status {status}"
    for it in ODD:
        (first / "current.toml").write_text(re.sub("quota = .*", it, whole))
        status, printed = in_pod(day, 0, 2, "first", "first")
        if status != 1 or it not in printed or (day.folder / "current.toml").exists():
            return f"{it}: {status} {printed}"
    (day.folder / "current.toml").write_text(manifest)


def wrong_put(day):
    """A tar of the next rule, with the present manifest; and once more as a rollback, after a halt."""
    packed = io.BytesIO()
    rule = (day.folder / "editor.rule").read_text().replace("< 500", "< 2500")
    (day.folder / "editor.rule.new").write_text(rule)
    with tarfile.open(fileobj=packed, mode="w") as tar:
        tar.add(day.folder / "current.toml", "current.toml")
        tar.add(day.folder / "editor.rule.new", "editor.rule")

    def put(*options):
        return in_pod(day, 0, 2, "put", *options, given=packed.getvalue())

    with day.served():
        status, printed = put()
        if status or not printed.endswith(f"server at {PORTS['8081']}: generation 2\n"):
            return f"put: {status} {printed}"
        day.run("rollout halt editor --operator 8081")
        if not (printed := day.run("rollout stage halt editor --operator 8081")).endswith(HALTED):
            return f"halt: {printed}"
        status, printed = put()
        if (status, "this lifts the halt of editor" in printed) != (1, True):
            return f"put over a halt: {status} {printed}"
        status, printed = put("--anyway")
        if status or ", editor is offered again\n" not in printed:
            return f"put --anyway: {status} {printed}"
        if OFFERED not in (printed := day.run(asking())):
            return f"after put --anyway: {printed}"
    if (day.folder / "editor.rule").read_text() != rule:
        return "put: the rule isn't in place"


def wrong_new_pod(day):
    """A new pod begins with files that were halted without a server, as the head says: it offers
    nothing."""
    halted, made = day.folder / "halted", day.folder / "made"
    halted.mkdir()
    made.mkdir()
    for name in ("current.toml", "editor.rule"):
        shutil.copy(day.folder / name, halted)
    printed = day.run(f"rollout stage halt editor --folder {halted} --no-load")
    if "replaced editor.rule\n" not in printed:
        return f"a halt of the files: {printed}"
    for name in ("current.toml", "editor.rule"):
        shutil.copy(halted / name, made)
    (day.folder / "current.toml").unlink()
    if (found := in_pod(day, 0, 2, "first", "made")) != (0, ""):
        return f"a new pod: {found}"
    with day.served():
        if NOTHING not in (printed := day.run(asking())):
            return f"a new pod after a halt: {printed}"


def wrong_settings():
    text, image = ((DEPLOY / it).read_text() for it in ("kubernetes.yaml", "Dockerfile"))
    unit = (DEPLOY / "rollout.service").read_text()
    replicas, named = (re.findall(it, text) for it in (r"replicas: (\d+)", r'value: "(\d+)"}'))
    if replicas != [named[0]]:
        return f"replicas: {replicas} and {named}"
    if f"limits: {{memory: {re.search(r'MemoryMax=(.*)M', unit)[1]}Mi}}" not in text:
        return "the limit of memory isn't the unit's"
    grace = int(re.search(r"terminationGracePeriodSeconds: (\d+)", text)[1])
    if grace < int(STOPPING.search(unit)[1]) + 15:
        return f"{grace} s to stop"
    for it in ("entry.sh", "pod.sh"):
        if it not in image or it not in text or not os.access(DEPLOY / it, os.X_OK):
            return f"{it} isn't in both, or no program"


def lost(given, known, path=""):
    """The members of an object that aren't in another one, or are something else there."""
    if isinstance(given, dict) and isinstance(known, dict):
        for name in given:
            yield from lost(given[name], known.get(name), f"{path}.{name}")
    elif isinstance(given, list) and isinstance(known, list) and len(given) == len(known):
        for place, (one, other) in enumerate(zip(given, known)):
            yield from lost(one, other, f"{path}[{place}]")
    elif given != known:
        yield path


def known_members(_folder):
    """kubectl reads kubernetes.yaml by its own types, without a cluster, and prints it: a member that
    they lack would be lost, and one of another kind refused."""
    needs("kubectl")
    try:
        import yaml
    except ImportError:
        raise Skipped("no yaml")
    changes = {"Service": ["selector", "tried=1"], "StatefulSet": ["image", "rollout=tried"]}
    for given in yaml.safe_load_all((DEPLOY / "kubernetes.yaml").read_text()):
        what, to = changes[given["kind"]]
        words = ["kubectl", "set", what, "--local", "-f", "-", "-o", "json", to]
        done = subprocess.run(words, input=json.dumps(given), capture_output=True, text=True)
        if done.returncode:
            return done.stderr
        changed = [".spec.selector.app", ".spec.template.spec.containers[0].image"]
        if found := {*lost(given, json.loads(done.stdout))}.difference(changed):
            return f"kubectl doesn't know {found}"


def pods(folder, program=BUILT):
    needs("tar")
    day = Day(folder / "pods", program)
    return wrong_settings() or wrong_shares(day) or wrong_put(day) or wrong_new_pod(day)


def alerts(_folder):
    """The alerts, tried on series of numbers."""
    needs("promtool")
    rules = DEPLOY.resolve() / "rollout.rules.yml"
    for words in (["check", "rules", rules], ["test", "rules", ROOT / "bench" / "alerts_test.yml"]):
        status, text = called("promtool", *map(str, words))
        if status:
            return text


PODS = {
    "examples/deploy: pods": pods,
    "examples/deploy: pods, by kubectl": known_members,
    "examples/deploy: alerts": alerts,
}
