"""The clients and operators of bench/soak, and what they observe of one server."""
import collections
import random
import socket
import threading
import time

from asking import reset, rest, until, whole, without_moment
from soak_texts import BAD, COUNTED, GARBAGE, SERVER, UNCOUNTED, generation_text, wanted

# Seconds between loads, and of the server's --timeout.
PACE = 0.2
TIMEOUT = 2


class Soak:
    """One server, the requests to it, and what was observed."""

    def __init__(self, server, folder, given):
        self.server, self.folder, self.given = server, folder, given
        self.end = time.monotonic() + given.seconds
        self.lock = threading.Lock()
        self.seen = collections.Counter()
        self.wrong = []
        self.took = []
        self.loads = []
        # The last generation whose load was answered, and the last one whose load was sent.
        self.confirmed = self.begun = 1

    def goes_on(self):
        return time.monotonic() < self.end

    def count(self, what, by=1):
        with self.lock:
            self.seen[what] += by

    def fail(self, text):
        with self.lock:
            self.wrong.append(text)

    def judged(self, reply, least):
        """The generation of a reply, which must be at least `least`; 0 if something is wrong."""
        status, text = whole(reply) or (0, "")
        text = without_moment(text)
        found = SERVER.search(text)
        generation = int(found[1]) if found else 0
        offers = wanted(generation).get(text)
        if status != 200 or offers is None:
            self.fail(f"a reply that is none: {reply[:300]!r}")
            return 0
        if not least <= generation <= self.begun:
            self.fail(f"generation {generation}, of {least} to {self.begun}")
        self.count("offers of the quota received", offers)
        return generation

    # ---- clients

    def honest(self, _rng):
        """Sends requests in a loop, with a pause."""
        newest = 0
        while self.goes_on():
            least = max(newest, self.confirmed)
            start = time.monotonic()
            reply = self.server.exchange(COUNTED)
            took = time.monotonic() - start
            newest = max(newest, self.judged(reply, least))
            with self.lock:
                self.took.append(took)
            time.sleep(self.given.pause)

    def stalls(self, rng):
        """Sends a part, and waits; the server closes in time, and sends nothing."""
        cut = rng.randrange(len(UNCOUNTED))
        start = time.monotonic()
        with self.server.connect() as stream:
            stream.sendall(UNCOUNTED[:cut])
            reply = rest(stream)
        took = time.monotonic() - start
        if reply or not TIMEOUT - 0.5 < took < 3 * TIMEOUT:
            self.fail(f"one that stalled at byte {cut} got {reply!r} after {took:.1f} s")
        self.count("stalled, and were closed")

    def resets(self, rng):
        """Sends all or a part, and resets, at once or during the reply."""
        stream = self.server.connect()
        stream.sendall(UNCOUNTED[: rng.randrange(1, len(UNCOUNTED) + 1)])
        if rng.random() < 0.3:
            stream.settimeout(0.005)
            try:
                stream.recv(10)
            except TimeoutError:
                pass
        reset(stream)
        self.count("reset")
        time.sleep(0.01)

    def garbles(self, rng):
        """Sends garbage; if there is a reply, it is a whole refusal."""
        data = rng.choice(GARBAGE)(rng)
        try:
            with self.server.connect() as stream:
                stream.sendall(data)
                stream.shutdown(socket.SHUT_WR)
                reply = rest(stream)
        except (ConnectionResetError, BrokenPipeError):
            self.count("sent garbage, and were reset")
            return
        status, _ = whole(reply) or (0, "")
        if reply and not 400 <= status <= 431:
            self.fail(f"garbage {data[:80]!r} got {reply[:200]!r}")
        self.count(f"sent garbage, and got {status or 'nothing'}")
        time.sleep(0.01)

    def drips(self, _rng):
        """Sends byte by byte, and gets an answer."""
        least = self.confirmed
        with self.server.connect() as stream:
            stream.setsockopt(socket.IPPROTO_TCP, socket.TCP_NODELAY, 1)
            for place in range(len(UNCOUNTED)):
                stream.sendall(UNCOUNTED[place : place + 1])
                time.sleep(0.001)
            reply = rest(stream)
        self.judged(reply, least)
        self.count("sent byte by byte, and were answered")

    # ---- operators

    def loads_on(self, rng):
        """Loads every 200 ms; a third of the manifests are refused."""
        due = time.monotonic()
        while self.goes_on():
            if rng.random() < 1 / 3:
                self.load_bad(rng.choice(sorted(BAD)))
            else:
                self.load_next()
            due = max(due + PACE, time.monotonic())
            until(due)

    def load(self, name):
        start = time.monotonic()
        reply = self.server.ask(f"load {self.folder / name}")
        self.loads.append(time.monotonic() - start)
        return reply

    def load_next(self):
        generation = self.confirmed + 1
        (self.folder / "next.toml").write_text(generation_text(generation))
        self.begun = generation
        if (reply := self.load("next.toml")) != f"generation {generation}\n":
            self.fail(f"load {generation}: {reply!r}")
        self.confirmed = generation
        self.count("loads that were done")

    def load_bad(self, name):
        if (reply := self.load(name)) != f"refused {BAD[name][1]}\n":
            self.fail(f"load of {name}: {reply!r}")
        self.count("loads that were refused")

    def hangs(self, rng):
        """Connects to the operator's port, sends nothing or a part of a line, and leaves."""
        with self.server.connect_operator() as stream:
            stream.sendall(rng.choice([b"", b"sho", b"load /"]))
            time.sleep(rng.choice([0.1, 1]))
            if rng.random() < 0.5:
                reset(stream)
        self.count("operators that hung")
        time.sleep(2)

    # ---- all of it

    def often(self, task):
        def go(rng):
            while self.goes_on():
                task(rng)

        return go

    def guarded(self, task, number):
        def go():
            try:
                task(random.Random(f"{self.given.seed} {number}"))
            except Exception as error:
                self.fail(f"{task.__qualname__}: {error!r}")

        return threading.Thread(target=go)

    def run(self):
        kinds = [self.stalls, self.resets, self.garbles, self.drips]
        tasks = [self.honest] * 24 + [self.often(it) for it in kinds] * 2
        tasks += [self.loads_on, self.often(self.hangs), self.often(self.hangs)]
        threads = [self.guarded(task, number) for number, task in enumerate(tasks)]
        for thread in threads:
            thread.start()
        for thread in threads:
            thread.join()
