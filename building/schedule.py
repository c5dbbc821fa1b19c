"""When each crate is proved, with how many processors, and what is printed meanwhile.

A crate starts once all crates below it are done. Of those ready, the one with the longest chain
above it is first. If its chain is nearly the longest, it waits for no processor, and gets a second
one if its chain will outlast the other work. The shorter the chain, the lower the priority.
"""
import sys
import time
from concurrent.futures import ThreadPoolExecutor

from building.crates import BUILT, say, seconds_recorded
from building.running import Runs, stored_run
from building.work import Guard, Work, count_jobs, count_room

# More jobs for one crate gain nothing.
MOST_JOBS = 8
# A crate's priority is lower by a level for each ten seconds by which its chain is shorter than the
# longest. It is urgent up to the third. At the lowest it has about a third of an urgent one's time:
# with less, a chain that is longer than recorded would end last.
SECONDS_A_LEVEL, URGENT, LOWEST = 10, 3, 5
# A crate may take minutes. After this many seconds without a line, a line says what is running.
MOST_SILENT = 50


class Build:
    def __init__(self, kit, way, crates, what):
        self.kit, self.way, self.crates, self.what = kit, way, crates, what
        recorded = seconds_recorded()
        # A crate without a recorded time counts as average, so that it isn't left for the end.
        average = sum(recorded.values()) // max(1, len(recorded))
        names = {it: it.crate.name if isinstance(it, Runs) else it.name for it in crates}
        self.recorded = {it: recorded.get(names[it], average) + 1 for it in crates}
        self.chain = {}
        for crate in reversed(self.crates):
            above = [self.chain[it] for it in self.chain if crate in it.below]
            self.chain[crate] = self.recorded[crate] + max(above, default=0)
        self.left = sorted(way.lacking(self.crates, kit), key=self.chain.get, reverse=True)
        self.jobs, self.room = count_jobs(), count_room()
        self.running = {}
        # The sum of the sources and libraries of each running crate.
        self.sums = {}
        # The seconds of the crates proved so far, and the seconds recorded for them.
        self.proved = [0.0, 0.0]

    def pace(self):
        """The seconds on this machine for a recorded second."""
        return self.proved[0] / self.proved[1] if self.proved[1] else 1

    def worked(self, crate):
        """The work done on a crate, in recorded seconds."""
        if crate not in self.running:
            return 0
        return min(self.running[crate].seconds() / self.pace(), self.recorded[crate])

    def work_left(self):
        """All remaining work, in recorded seconds of one processor."""
        return sum(self.recorded[it] - self.worked(it) for it in self.left)

    def minutes_left(self):
        """An estimate: the longest remaining chain, or all remaining work divided by the
        processors."""
        chain = max(self.chain[it] - self.worked(it) for it in self.left)
        return int(self.pace() * max(chain, self.work_left() / self.jobs)) // 60 + 1

    def report(self, text):
        """Prints the text, with how much is done and left in total."""
        count = f"{len(self.crates) - len(self.left)} of {len(self.crates)}"
        then = f"; about {self.minutes_left()} min left" if self.left else ""
        say(f"{count}: {text}{then}")
        self.reported = time.monotonic()

    def under_way(self, crate):
        """The seconds spent on a crate, and the estimated total."""
        whole = self.recorded[crate] * self.pace()
        return f"{crate.name} at {self.running[crate].seconds():.0f} s of about {whole:.0f}"

    def share_processors(self):
        """Starts crates that are ready, as far as memory suffices: urgent ones at once, and others
        on processors that are idle but for urgent ones."""
        waiting = {*self.left}
        ready = [it for it in self.left if it not in self.running and not it.below & waiting]
        works = self.running.values()
        room = self.room - sum(it.jobs for it in works)
        idle = self.jobs - sum(it.jobs for it in works)
        places = self.jobs - sum(it.jobs for it in works if it.level > URGENT)
        for count, crate in enumerate(ready):
            urgent = self.level(crate) <= URGENT
            # Jobs side by side repeat work, so a crate has several only if processors are idle, or
            # soon will be.
            least = 2 if urgent and self.outlasts(crate) else 1
            share = max(least, idle + count + 1 - len(ready))
            jobs = min(share, room if urgent else min(room, places), MOST_JOBS)
            if jobs > 0:
                self.start(crate, jobs)
                room -= jobs
                idle -= jobs
                places -= 0 if urgent else jobs

    def outlasts(self, crate):
        """Whether its chain is longer than half of the processors would take for all that is
        left: then the others become idle before its end."""
        return self.chain[crate] > self.work_left() / (self.jobs / 2)

    def level(self, crate):
        """How much lower than the longest chain's its priority is."""
        first = self.left[0]
        shorter = self.chain[first] - self.worked(first) - self.chain[crate]
        return min(max(0, int(shorter / SECONDS_A_LEVEL)), LOWEST)

    def start(self, crate, jobs):
        self.way.folder.mkdir(parents=True, exist_ok=True)
        self.way.stamp(crate).unlink(missing_ok=True)
        self.sums[crate] = self.way.sum(crate, self.kit)
        commands = self.commands(crate, jobs)
        level = self.level(crate)
        self.running[crate] = Work(commands, crate.folder, jobs, level, self.guard)

    def commands(self, crate, jobs):
        return self.kit.commands(crate, self.way, jobs)

    def is_good(self, crate):
        """Moves the output of its commands into place."""
        if crate.is_program:
            (BUILT / f"{crate.program}.new").replace(BUILT / crate.program)
            (BUILT / f"{crate.program}.o").unlink(missing_ok=True)
        return True

    def end(self, crate):
        """Saves and prints the result of a crate whose commands have ended."""
        work = self.running.pop(crate)
        if work.was_killed():
            say(f"{crate.name} was killed, most likely for memory: once more with one job")
            return self.start(crate, 1)
        if work.process.returncode:
            sys.stderr.write(work.printed())
            sys.exit(f"rollout: {crate.name} isn't proved")
        # A source may have changed in the meantime.
        if self.is_good(crate) and self.way.sum(crate, self.kit) == self.sums[crate]:
            self.way.stamp(crate).write_text(self.sums[crate])
        self.left.remove(crate)
        seconds = work.seconds()
        self.proved = [self.proved[0] + seconds, self.proved[1] + self.recorded[crate]]
        self.report(f"{crate.name}, proved in {seconds:.0f} s")

    def run(self):
        with ThreadPoolExecutor(self.jobs) as pool:
            [*pool.map(self.way.unpack, set().union(*(it.below for it in self.left)))]
        if self.left:
            self.build()
        with ThreadPoolExecutor(self.jobs) as pool:
            [*pool.map(self.way.pack, self.crates)]

    def build(self):
        count, minutes = len(self.left), self.minutes_left()
        say(f"proving and building {self.what}, {count} crates, about {minutes} min")
        self.reported = time.monotonic()
        self.guard = Guard()
        while self.left:
            self.share_processors()
            time.sleep(0.1)
            for crate, work in [*self.running.items()]:
                if not work.goes_on():
                    self.end(crate)
            if self.left and time.monotonic() - self.reported >= MOST_SILENT:
                self.report(", ".join(map(self.under_way, self.running)))


class Gate(Build):
    """A gate of what has changed: libraries, and then the tests and the stored runs of crates."""

    def __init__(self, kit, way, changed):
        crates = [*changed.libraries(), *changed.runs()]
        super().__init__(kit, way, crates, "what has changed")
        self.programs = [it for it in changed.selected if it.is_program]
        self.bad = 0

    def commands(self, crate, jobs):
        if not isinstance(crate, Runs):
            return super().commands(crate, jobs)
        crate.place("").parent.mkdir(exist_ok=True)
        return self.kit.run_commands(crate, self.way, jobs)

    def is_good(self, crate):
        if not isinstance(crate, Runs):
            return super().is_good(crate)
        return self.passes(crate.faults(self.kit))

    def passes(self, faults):
        """Prints what is wrong with a run, while the others continue."""
        sys.stderr.write(faults)
        self.bad += bool(faults)
        return not faults

    def run(self):
        super().run()
        for it in self.programs:
            self.passes(stored_run(it, BUILT / it.program))
