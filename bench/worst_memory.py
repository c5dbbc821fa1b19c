"""The most memory that a server takes, beside what docs/OPERATING.md calculates ("What to watch").

In each round each worker reads the worst body that was found, all at once. Meanwhile operators load
two manifests in turn: the largest one that is accepted, and the worst one that is refused.
"""
import re
from concurrent.futures import ThreadPoolExecutor
from pathlib import Path
from threading import Event

from asking import HASH, ROOT, Server, manifest, post, rest, whole
from hosts import DEPLOY, Wrong

PATIENCE = 300
OPERATORS = 2
# The least number of rounds, and of loads of both manifests by each operator.
ROUNDS, LOADS = 4, 3
# The most bytes of a body, and of a manifest.
MOST = 1 << 20
# The most parts that a key in a manifest may have. Each but the last one has a table.
PARTS = 80
# The least share of the calculated memory. With less the page calculates too much.
LEAST = 0.85
# 4096 slots: moves of 0 to R0, and an exit.
PROGRAM = bytes.fromhex("b700000000000000") * 4095 + bytes.fromhex("9500000000000000")
RELEASE = (
    '[[app.release]]\nversion = "1"\ncodebase = ""\n[[app.release.package]]\nname = ""\n'
    f'hash_sha256 = "{HASH}"\nsize = 3\nrequired = true\n'
)


def of_page():
    """The MB of the page: for each worker, and in addition. Its examples have to be sums of
    these."""
    text = (ROOT / "docs" / "OPERATING.md").read_text()
    line = re.search(r"^\*\*Memory\*\* is .*$", text, re.M)[0]
    a_worker, beside = map(int, re.search(r"(\d+) MB for each worker plus (\d+) MB", line).groups())
    for total, workers in re.findall(r"([\d,]+) MB with (\d+)", line):
        if int(total.replace(",", "")) != a_worker * int(workers) + beside:
            raise Wrong(f"docs/OPERATING.md: {total} MB with {workers} workers isn't the sum")
    return a_worker, beside


def of_unit():
    """The workers of the unit, and the MB that it may take."""
    text = (DEPLOY / "rollout.service").read_text()
    patterns = (r"^ExecStart=.* --workers (\d+)", r"^MemoryMax=(\d+)M$")
    return [int(re.search(pattern, text, re.M)[1]) for pattern in patterns]


def worst_body():
    """A request with small objects, nested a hundred deep: five bytes for each."""
    one = '{"":' * 100 + "0" + "}" * 100
    objects = ",".join([one] * (MOST // (len(one) + 1) - 1))
    return post(f'{{"request":{{"protocol":"3.1"}},"u":[{objects}]}}')


def largest_manifest(folder):
    """256 apps, each with a program of 4096 slots and as many releases as fit."""
    (folder / "largest.bpf").write_bytes(PROGRAM)
    apps = [f'[[app]]\nappid = "{it}"\nprogram = "largest.bpf"\n' for it in range(256)]
    count = (MOST - len(manifest("prod", *apps))) // (256 * len(RELEASE))
    path = folder / "largest.toml"
    path.write_text(manifest("prod", *(it + RELEASE * count for it in apps)))
    return path


def worst_manifest(folder):
    """A key of 80 parts in each line: two bytes for each table. It is refused once all is read."""
    more = ".a" * (PARTS - 1) + "=1\n"
    path = folder / "worst.toml"
    path.write_text("".join(f"{it:x}{more}" for it in range(MOST // len("ffff" + more))))
    return path


def load_in_turn(server, largest, worst, ended):
    """Loads both manifests in turn until the end, and returns how often."""
    count = 0
    while count < LOADS or not ended.is_set():
        for path, wanted in ((largest, "generation "), (worst, "refused M2 ")):
            if not (reply := server.ask(f"load {path}")).startswith(wanted):
                raise Wrong(f"load of {path.name}: {reply!r}")
        count += 1
    return count


def bodies_at_once(server, data, workers):
    """Sends each worker a body. Only the last byte of each is sent when all others are read."""
    streams = [server.connect() for _ in range(workers)]
    for it in streams:
        it.sendall(data[:-1])
    for it in streams:
        it.sendall(data[-1:])
    replies = [whole(rest(it)) for it in streams]
    for it in streams:
        it.close()
    if any(it is None or it[0] != 200 for it in replies):
        raise Wrong(f"not each of {workers} bodies has its reply")


def taken(program, folder, workers):
    """The most MB of resident memory that a server took, and those at the end."""
    largest, worst, data = largest_manifest(folder), worst_manifest(folder), worst_body()
    ended = Event()
    with Server(program, largest, workers, "--log", "--timeout", str(PATIENCE)) as server:
        server.patience = PATIENCE
        with ThreadPoolExecutor(OPERATORS) as operators:
            words = (load_in_turn, server, largest, worst, ended)
            loads = [operators.submit(*words) for _ in range(OPERATORS)]
            try:
                for _ in range(ROUNDS):
                    bodies_at_once(server, data, workers)
            finally:
                ended.set()
            while not all(it.done() for it in loads):
                bodies_at_once(server, data, workers)
        for it in loads:
            it.result()
        return [server.of_status(it) >> 10 for it in ("VmHWM", "VmRSS")]


def compared(program, folder, workers):
    """What a server takes, beside what the page calculates."""
    a_worker, beside = of_page()
    most = a_worker * workers + beside
    its_workers, allowed = of_unit()
    if allowed < a_worker * its_workers + beside:
        raise Wrong(f"rollout.service: MemoryMax={allowed}M is too little")
    if most > available():
        return f"--workers {workers} may take {most} MB, which aren't free"
    peak, kept = taken(program, folder, workers)
    summary = f"--workers {workers} takes {peak} MB of {most} ({peak / most:.2f})"
    if not LEAST * most <= peak <= most:
        raise Wrong(f"{summary}, and not {LEAST} to 1 of it")
    return f"{summary}, and keeps {kept}"


def available():
    """The available memory of the system, in MB."""
    lines = Path("/proc/meminfo").read_text().splitlines()
    return int(next(it.split()[1] for it in lines if it.startswith("MemAvailable"))) // 1024
