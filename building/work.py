"""The commands that prove and build a crate: how they start, and how they end with `build`."""
import os
import re
import signal
import subprocess
import tempfile
import time
from pathlib import Path

# The memory for a job, in bytes.
MEMORY = 3 << 30


def number_in(file, pattern):
    try:
        return int(re.search(pattern, Path(file).read_text(), re.M)[1])
    except (OSError, TypeError):
        return None


def count_room():
    """The number of jobs for which memory suffices, also in a container."""
    available = [1024 * number_in("/proc/meminfo", r"^MemAvailable: +(\d+)")]
    if limit := number_in("/sys/fs/cgroup/memory.max", r"^(\d+)"):
        held = number_in("/sys/fs/cgroup/memory.stat", r"^anon (\d+)") or 0
        available.append(limit - held)
    return max(1, min(available) // MEMORY)


def count_jobs():
    """The number of processors for which memory suffices."""
    return min(len(os.sched_getaffinity(0)), count_room())


class Guard:
    """A process group that ends whenever `build` does, and stops whenever it is stopped."""

    def __init__(self):
        # The pipe closes when `build` ends, and the shell then kills its group.
        reads, self.held = os.pipe()
        words = ["sh", "-c", "read _; kill -9 0"]
        self.shell = subprocess.Popen(words, stdin=reads, preexec_fn=os.setpgrp)
        os.close(reads)
        if signal.getsignal(signal.SIGTSTP) is signal.SIG_DFL:
            signal.signal(signal.SIGTSTP, self.stop)

    def stop(self, *_):
        os.killpg(self.shell.pid, signal.SIGSTOP)
        # The shell continues, so that it ends the others if `build` is killed while stopped.
        os.kill(self.shell.pid, signal.SIGCONT)
        os.kill(os.getpid(), signal.SIGSTOP)
        os.killpg(self.shell.pid, signal.SIGCONT)

    def join(self):
        os.setpgid(0, self.shell.pid)


class Work:
    """The commands of one crate, in order, with `jobs` processors, at a level of priority."""

    def __init__(self, commands, folder, jobs, level, guard):
        self.commands, self.folder, self.jobs = commands, folder, jobs
        self.level, self.guard = level, guard
        self.log = tempfile.TemporaryFile("w+", errors="replace")
        self.begun = time.monotonic()
        self.start()

    def prepare(self):
        self.guard.join()
        os.nice(self.level)

    def start(self):
        how = {"cwd": self.folder, "stdin": subprocess.DEVNULL, "preexec_fn": self.prepare}
        how |= {"stdout": self.log, "stderr": subprocess.STDOUT}
        self.process = subprocess.Popen(self.commands.pop(0), **how)

    def seconds(self):
        return time.monotonic() - self.begun

    def goes_on(self):
        """Whether it is still running; starts the next command if one has succeeded."""
        if self.process.poll() == 0 and self.commands:
            self.start()
        return self.process.poll() is None

    def was_killed(self):
        """Whether it was killed, most likely for its memory; fewer jobs take less."""
        return self.process.returncode == -signal.SIGKILL and self.jobs > 1

    def printed(self):
        self.log.seek(0)
        return self.log.read()
