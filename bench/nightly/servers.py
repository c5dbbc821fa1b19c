"""The servers of a night: their processes, and beside each what the oracle knows of it, which is
compared with what the server says and with what its clients get."""
import json
import re
import subprocess
import time

from asking import Server, post, whole

# Seconds until a halt has to be in the file of counters, and until a command has to end.
COMMITTED, PATIENCE = 5, 90


class Watched(Server):
    """A server of a folder, and what it has to serve: a load and halts, the last halt first."""

    def __init__(self, night, number, has_counters):
        self.night, self.number = night, number
        self.counters = night.room / f"counters-{number}" if has_counters else None
        options = ["--counters", str(self.counters)] if has_counters else []
        self.begun = night.folder / "current.toml"
        super().__init__(night.programs / "rollout", self.begun, 1, *options)
        self.path, self.load, self.halts, self.generation = self.begun, None, [], 0
        self.is_up = False

    def begin(self):
        """Starts it on what is in place. It serves that, or it ends since that has a fault."""
        load = self.night.load()
        kept = self.kept_halts()
        self.__enter__()
        self.is_up = self.first == "serving generation 1\n"
        if self.is_up != (load is not None):
            files = "good" if load else "bad"
            return self.night.wrong(f"a start on {files} files: {self.printed()}")
        if not self.is_up:
            self.process.wait()
            self.__exit__()
        self.load, self.generation, self.halts, self.path = load, 1, kept, self.begun
        return None

    def kept_halts(self):
        """The halts of its file of counters, the last one first."""
        if not self.counters or not self.counters.exists():
            return []
        lines = self.counters.read_text().splitlines()
        return [it.removeprefix("halted ") for it in lines if it.startswith("halted ")]

    def wait_for_commit(self):
        """Waits until the file of counters has the halts."""
        until = time.monotonic() + COMMITTED
        while self.counters and self.kept_halts() != self.halts:
            if time.monotonic() > until:
                kept = f"{self.kept_halts()}, not {self.halts}"
                self.night.wrong(f"the file of server {self.number} has the halts {kept}")
                break
            time.sleep(0.02)

    def end(self, is_killed):
        """Stops or kills it, and sees that a file of counters has its halts."""
        if not self.is_up:
            return
        if is_killed:
            self.wait_for_commit()
            self.process.kill()
        elif (printed := self.ask("stop")) != "stopping\n":
            self.night.wrong(f"stop: {printed}")
        self.process.wait(self.patience)
        self.__exit__()
        self.is_up = False
        self.wait_for_commit()

    def state(self):
        """Its generation, digest, path and halts, as `state` says."""
        lines = self.ask("state").splitlines()
        if len(lines) < 4 or lines[-1] != "end":
            raise ValueError(f"state: {lines}")
        halts = [it.removeprefix("halted ") for it in lines[3:-1]]
        return int(lines[0].split()[1]), lines[1].split()[1], lines[2].split(" ", 2)[2], halts

    def differs(self):
        """What `state` says that isn't so, or nothing."""
        wanted = (self.generation, self.load.digest(), str(self.path), self.halts)
        return None if (found := self.state()) == wanted else f"{found}, not {wanted}"

    def offers(self, version, bucket):
        """What a machine is offered, by the apps that the server has."""
        more = {"version": version, "cohort": f"b:{bucket:04}", "updatecheck": {}}
        apps = [{"appid": it} | more for it in self.load.appids()]
        body = json.dumps({"request": {"protocol": "3.1", "app": apps}})
        status, text = whole(self.exchange(post(body)))
        reply = json.loads(text.removeprefix(")]}'\n"))["response"]["app"] if status == 200 else []
        return {
            it["appid"]: it.get("updatecheck", {}).get("manifest", {}).get("version")
            for it in reply
        }

    def misoffers(self, version, bucket):
        """What a machine is offered and shouldn't be, or the other way round."""
        wanted = {
            it: None if it in self.halts else self.load.offer(it, version, bucket)
            for it in self.load.appids()
        }
        found = self.offers(version, bucket)
        return None if found == wanted else f"{version} in {bucket} gets {found}, not {wanted}"


def run(night, words, **how):
    """The status, output and errors of a command of a program of the night."""
    done = subprocess.run(words, capture_output=True, timeout=PATIENCE, cwd=night.room, **how)
    return done.returncode, done.stdout.decode(), done.stderr.decode()


def generations(output, port):
    """The generations that a call prints for a server, each with what follows it."""
    return [
        (int(it[1]), it[2]) for it in re.finditer(rf"^server at {port}: generation (\d+)(.*)$",
                                                  output, re.M)
    ]
