"""Failed allocations in servers that keep a file of counters."""
import re
import time

from asking import Server, app, array, manifest, whole
from refused_program import ASK, Servers, serves
from refusing import Wrong

# So many places that they last for all requests.
TEXT = manifest(
    "kept",
    array("q", 64, 1, 10**6) + array("n", 64, 2) + app("x", "take.rule", "2.0")
    + app("y", "count.rule", "2.0"),
)
REFUSED = re.compile(r"refused ([A-Z]\d+ (?:Memory|Store))\n")
# Within this time a commit is tried again.
SECONDS = 5


class KeptServers(Servers):
    """Servers of one worker with a file of counters, in which one place is taken by each request."""

    def __init__(self, refusal, folder, program):
        super().__init__(refusal, folder, program)
        (folder / "kept.toml").write_text(TEXT)
        self.file = folder / "counters"

    def server(self):
        how = {"env": self.refusal.env(), "cwd": self.folder}
        words = ["--counters", str(self.file)]
        return Server(self.program, self.folder / "kept.toml", 1, *words, **how)

    def number(self):
        """The number that the file has for the quota."""
        found = re.search(r"^q 0 (\d+)$", self.file.read_text(), re.M)
        return int(found[1]) if found else 0

    def start(self, call):
        """As without a file. If the lock can't be opened for want of memory, that is K4 Store."""
        self.refusal.ask(call)
        self.file.unlink(missing_ok=True)
        with self.server() as server:
            if server.first == "":
                status, printed = server.ends(), server.printed()
                refused = REFUSED.fullmatch(printed)
                if status != 1 or not refused:
                    raise Wrong(f"status {status}, {printed!r}")
                answer = refused[1]
            else:
                # Allocations that follow its line `serving`.
                time.sleep(0.05)
                answer = "serves all the same"
            if not self.refusal.is_reached():
                return None
            if server.first != "":
                self.until_offer(server, 1)
        with self.server() as server:
            self.until_offer(server, 1)
        return answer

    def request(self, call):
        """A server's first request, for which the store's thread commits."""
        self.refusal.ask(0)
        self.file.unlink(missing_ok=True)
        with self.server() as server:
            time.sleep(0.05)
            self.refusal.ask(call)
            answer = self.judged(server.exchange(ASK), 1)
            # The store's thread allocates meanwhile.
            time.sleep(0.05)
            if not self.refusal.is_reached():
                return None
            self.until_offer(server, 2 if answer == "done all the same" else 1)
        return answer

    def until_offer(self, server, offers):
        """Sends requests until one gets an offer, the one with this number, and then a stop."""
        end = time.monotonic() + SECONDS
        while (answer := self.judged(server.exchange(ASK), offers)) != "done all the same":
            if time.monotonic() > end:
                raise Wrong(f"again: {answer}")
            time.sleep(0.05)
        if server.ask("stop") != "stopping\n" or server.ends() != 0:
            raise Wrong(f"it doesn't stop: {server.printed()!r}")

    def judged(self, reply, offers):
        """How a request is answered; its offer, the one with this number, is in the file."""
        status, text = whole(reply) or (0, "")
        if status == 200 and '"version":"2.0"' in text:
            if self.number() < offers:
                raise Wrong(f"{offers} offers, and the file has {self.number()}")
            return "done all the same"
        if (status, text) == (503, "K4 Store\n") or status == 500 and "Memory" in text:
            return f"{status} {text.strip()}"
        raise Wrong(f"{status} {text!r}")

    def stop(self, call):
        """A server that is stopped after one request leaves a file of which the next one begins."""
        self.refusal.ask(0)
        self.file.unlink(missing_ok=True)
        with self.server() as server:
            server.exchange(ASK)
            self.refusal.ask(call)
            reply = server.ask("stop")
            if reply != "stopping\n":
                self.refusal.is_reached()
                if not serves(server):
                    raise Wrong(f"{reply!r}, and it doesn't serve on")
                return reply.removeprefix("refused ").strip()
            status, printed = server.ends(), server.printed()
        if not self.refusal.is_reached():
            return None
        refused = REFUSED.fullmatch(printed)
        if (status, printed) != (0, "") and (status != 1 or not refused):
            raise Wrong(f"status {status}, {printed!r}")
        least = self.number()
        if least < 1 or (status == 0 and least != 1):
            raise Wrong(f"the file has {least}")
        with self.server() as server:
            if not serves(server):
                raise Wrong(f"again: {server.first!r}, {server.printed()!r}")
        return refused[1] if refused else "done all the same"


KEPT = {"start": KeptServers.start, "request": KeptServers.request, "stop": KeptServers.stop}
