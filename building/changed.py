"""Which crates have changed since a commit, which depend on them, and which of these have runs."""
import subprocess
import sys

from building.crates import ROOT, all_crates, crate_lines, seconds_recorded
from building.running import Runs

# The folders of wrong bodies, whose edits don't change a crate.
EDITS = {"must-fail", "wrong"}


def printed(*words):
    """The lines that git prints; None if it fails."""
    done = subprocess.run(["git", *words], cwd=ROOT, capture_output=True, text=True)
    return done.stdout.splitlines() if done.returncode == 0 else None


def commit_before(commit):
    """The last commit that this branch shares with the named one, or with main."""
    for name in [commit] if commit else ["origin/main", "main"]:
        if found := printed("merge-base", "HEAD", name):
            return found[0]
    sys.exit(f"rollout: git knows no commit {commit or 'origin/main or main'}")


def touched_paths(commit):
    """The paths below crates that differ from a commit's, including new ones."""
    differing = printed("diff", "--name-only", "--no-renames", commit, "--", "crates")
    new = printed("ls-files", "--others", "--exclude-standard", "--", "crates")
    return [it.split("/") for it in [*(differing or []), *(new or [])]]


class Changed:
    """The crates for a gate of what has changed, lowest first."""

    def __init__(self, commit):
        self.since = commit_before(commit)
        self.known = all_crates()
        paths = touched_paths(self.since)
        lines = crate_lines("\n".join(printed("show", f"{self.since}:crates.txt") or []))
        texts = {path[1] for path in paths if path[2:] and path[2] not in EDITS}
        edits = {path[1] for path in paths if path[2:] and path[2] in EDITS}
        crates = self.known.values()
        self.crates = [it for it in crates if it.name in texts or lines.get(it.name) != it.line]
        self.above = [it for it in crates if it.below & {*self.crates} and it not in self.crates]
        self.selected = [it for it in crates if it in {*self.crates, *self.above}]
        # The crates whose wrong bodies must be tried again.
        self.tried = [it.name for it in crates if it in self.crates or it.name in edits]
        self.tried = [it for it in self.tried if any(self.known[it].folder.glob("*/*.edit"))]

    def runs(self):
        """The tests and the stored runs of the selected crates."""
        found = [Runs(it, of_tests) for it in self.selected for of_tests in (True, False)]
        return [it for it in found if it.is_there()]

    def libraries(self):
        """What is proved as a library or as a program: the selected crates except those that only
        have tests, and all crates on which these and the runs depend."""
        used = set().union(*(it.below for it in self.known.values()))
        tests = {it.crate for it in self.runs()}
        wanted = {it for it in self.selected if it in used or it not in tests}
        wanted |= {it for it in self.selected if it.is_program}
        below = set().union(*(it.below for it in [*wanted, *tests]))
        return [it for it in self.known.values() if it in wanted | below]

    def lines(self):
        """The lines of --list."""
        recorded = seconds_recorded()
        count, above = len(self.crates), len(self.above)
        yield f"since {self.since[:12]}: {count} changed, and {above} above"
        runs = {it: [] for it in self.selected}
        for it in self.runs():
            runs[it.crate].append("tests" if it.of_tests else "stored run")
        for it in self.selected:
            if it.is_program:
                runs[it].append("stored run")
            seconds = f"{recorded[it.name]:4} s" if it.name in recorded else "     -"
            how = "changed" if it in self.crates else "above"
            yield f"  {it.name:17} {how:9}{seconds}  {', '.join(runs[it])}".rstrip()
        whole = sum(recorded.get(it.name, 0) for it in self.selected)
        yield f"{whole // 60 + 1} min from nothing on one processor; what is proved already stays so"
        if self.tried:
            yield f"then: bench/wrong --all {' '.join(self.tried)}"
