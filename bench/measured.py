"""Times and counts of whole processes, for the scripts of bench/."""
import os
import platform
import re
import shutil
import statistics
import subprocess
import sys
import tempfile
import time
from pathlib import Path

HERE = Path(__file__).resolve().parent
# The limit of a process, in seconds of processor time.
PATIENCE = 5


class Trouble(Exception):
    """A process failed, or took too long."""


def processor_time(command, source=os.devnull):
    """The processor time of a process in seconds, and its output; the source is its input."""
    took, _, output = times_of(command, source)
    return took, output


def times_of(command, source=os.devnull):
    """The processor time of a process in seconds, its elapsed time, and its output."""
    start = time.monotonic()
    with tempfile.TemporaryFile() as out, tempfile.TemporaryFile() as err:
        with open(source, "rb") as given:
            process = subprocess.Popen(command, stdin=given, stdout=out, stderr=err)
        pid = 0
        while pid == 0:
            pid, status, usage = os.wait4(process.pid, os.WNOHANG)
            if pid == 0 and time_so_far(process.pid) > PATIENCE:
                process.kill()
                process.wait()
                raise Trouble(f"not in {PATIENCE} s")
            time.sleep(0.001)
        clock = time.monotonic() - start
        process.returncode = os.waitstatus_to_exitcode(status)
        out.seek(0)
        err.seek(0)
        if process.returncode != 0:
            raise Trouble("refused: " + err.read().decode().strip())
        return usage.ru_utime + usage.ru_stime, clock, out.read().decode()


def time_so_far(pid):
    """The processor time of a running process."""
    fields = Path(f"/proc/{pid}/stat").read_text().rsplit(")", 1)[1].split()
    return (int(fields[11]) + int(fields[12])) / os.sysconf("SC_CLK_TCK")


class Measured:
    """A command with a number of repetitions in it. Each round runs it with few and with many."""

    def __init__(self, command, rarely, often, source=os.devnull):
        self.command = [str(word) for word in command]
        self.source = source
        self.rarely, self.often = rarely, often
        self.took = {rarely: [], often: []}
        self.clock = {rarely: [], often: []}
        self.output = None
        self.trouble = None

    def round(self):
        for times in (self.rarely, self.often):
            if self.trouble is None:
                try:
                    command = [word.replace("TIMES", str(times)) for word in self.command]
                    took, clock, self.output = times_of(command, self.source)
                    self.took[times].append(took)
                    self.clock[times].append(clock)
                except Trouble as trouble:
                    self.trouble = str(trouble)

    def each(self):
        """The processor time of one verification, run or answer, in each round."""
        return self.of_one(self.took)

    def each_by_clock(self):
        """The same in elapsed time."""
        return self.of_one(self.clock)

    def of_one(self, took):
        start = min(took[self.rarely])
        return [(one - start) / (self.often - self.rarely) for one in took[self.often]]

    def least(self):
        return min(self.each())

    def field(self, name):
        return re.search(name + r"=(\w+)", self.output).group(1)


def measure(cases, rounds):
    for _ in range(rounds):
        for case in cases:
            case.round()


def ratio(ours, peers):
    """The median over the rounds of our time divided by the peer's."""
    return statistics.median(a / b for a, b in zip(ours.each(), peers.each()) if b > 0)


def counted(pattern, options, command, source=os.devnull):
    """The number that valgrind reports for a process."""
    words = ["valgrind", *options, *map(str, command)]
    with open(source, "rb") as given:
        how = {"stdin": given, "stdout": subprocess.DEVNULL, "stderr": subprocess.PIPE}
        log = subprocess.run(words, text=True, **how).stderr
    return int(re.search(pattern, log).group(1).replace(",", ""))


def steps(command, source=os.devnull):
    """The number of instructions that a process executes."""
    options = ["--tool=callgrind", "--callgrind-out-file=/dev/null"]
    return counted(r"Collected : (\d+)", options, command, source)


def allocations(command, source=os.devnull):
    """The number of allocations that a process makes."""
    return counted(r"total heap usage: ([\d,]+) allocs", [], command, source)


def show_machine():
    model = re.search(r"^model name\s*: (.*)", Path("/proc/cpuinfo").read_text(), re.M)
    moment = time.strftime("%Y-%m-%d %H:%M", time.gmtime())
    machine = f"{model[1] if model else '?'}, {os.cpu_count()} processors, {platform.release()}"
    print(f"{moment} UTC, {machine}")
    show_load("start")


def show_load(when):
    print(f"load at the {when}: " + " ".join(f"{x:.1f}" for x in os.getloadavg()))


def build_program(crate, words):
    """Proves and builds the program of a crate; if nothing has changed, `rt run` only runs it."""
    print(f"proving and building crates/{crate.name}, where it has changed", file=sys.stderr)
    done = subprocess.run(["rt", "run", "--", *words], cwd=crate, capture_output=True, text=True)
    if done.returncode != 0:
        sys.exit(done.stdout + done.stderr)


def build_server_peer(out):
    """Builds bench/server_peer, the service in plain Rust, or prints why it can't."""
    shutil.rmtree(out / "server_peer", ignore_errors=True)
    shutil.copytree(HERE / "server_peer", out / "server_peer")
    words = ["cargo", "build", "--release", "--quiet", "--target-dir", str(out / "target")]
    debian = Path("/usr/share/cargo/registry")
    if (debian / "serde-1.0.152").exists():
        words += ["--offline", "--config", 'source.crates-io.replace-with="debian"']
        words += ["--config", f'source.debian.directory="{debian}"']
    try:
        subprocess.run(words, cwd=out / "server_peer", check=True)
    except (OSError, subprocess.CalledProcessError) as error:
        print(f"no peer in plain Rust: {error}", file=sys.stderr)
        return None
    return out / "target" / "release" / "server_peer"


def build_bare(out):
    """Builds bench/bare.c, the least server, or prints why it can't."""
    program = out / "bare"
    words = ["gcc", "-O2", "-Wall", "-Wextra", "-pthread", "-o", program, HERE / "bare.c"]
    try:
        subprocess.run(words, check=True)
    except (OSError, subprocess.CalledProcessError) as error:
        print(f"no bare loop in C: {error}", file=sys.stderr)
        return None
    return program
