"""A call of `stage` that acts, the step that it records, and what it says if it stops."""
from dataclasses import dataclass, field

# What a stop says, by its reason.
STOPS = {
    "other": r"is another one: it serves",
    "drift": r"serves (step \d|what was there|what stage loaded last|what no step)|was edited since|"
             r"isn't as step \d+ left it",
    "record": r"is no record of",
    "app": r"has no app",
    "version": r"has no release",
    "whole": r"halts the whole app already",
    "shared": r"is the file of app",
    "halted": r"it halts the app",
    "test": r"it has (no|several) tests?|program",
    "lost": r"a row is lost",
    "lifts": r"this lifts the halt of",
    "refused": r"(is|would be) refused|is no file|can't be|isn't|no such",
    "none": r"no step is left",
    "unhalted": r"isn't halted by a step|is still halted by step",
    "again": r"was replaced again since",
    "edited": r"it was edited since the step",
}


@dataclass
class Step:
    """A recorded step: the bytes of its files before and after, by their names."""

    number: int
    action: str
    appid: str
    before: dict
    after: dict
    by: str
    because: str
    # Of a halt of one release.
    version: str = ""
    is_undone: bool = False
    # Whether its record can be read.
    is_damaged: bool = False

    def is_halt(self):
        return self.action.startswith("halt ")

    def line(self, has_stopped):
        """How `status` and `history` print it, but for its time."""
        word = "undone" if self.is_undone else "stopped" if has_stopped else "done"
        because = f" ({self.because})" if self.because else ""
        by = f" by {self.by}" if self.by else ""
        return f"{word} step {self.number} of{by}: {self.action}{because}"

    def spelt(self):
        """What its record has, besides its time: the manifest is the last of its files."""
        files = [(n, was and was.hex(), self.after[n].hex()) for n, was in self.before.items()]
        return self.number, self.action, self.by, self.because, self.is_undone, files


@dataclass
class Call:
    """A call of `stage` that acts."""

    word: str
    appid: str = ""
    share: str = ""
    # Of a halt of one release.
    version: str = ""
    source: dict = field(default_factory=dict)
    path: str = ""
    servers: list = field(default_factory=list)
    anyway: bool = False
    dry_run: bool = False
    no_load: bool = False
    other_server: bool = False
    by: str = "anna"
    because: str = ""
    # The servers that this halt has halted, and that had no halt of the app before.
    halted: list = field(default_factory=list)

    def words(self):
        given = {"put": self.path, "back": ""}.get(self.word, self.appid)
        options = {"--anyway": self.anyway, "--dry-run": self.dry_run, "--no-load": self.no_load}
        options["--other-server"] = self.other_server
        words = ["stage", self.word, *([given] if given else [])]
        words += [it for it in (self.share, self.version) if it]
        words += [it for it, is_given in options.items() if is_given]
        words += [f"--operator={it.operator}" for it in self.servers] + ["--by", self.by]
        return words + (["--because", self.because] if self.because else [])

    def buckets(self):
        return int(self.share[:-1]) * 100 if self.share.endswith("%") else int(self.share)

    def action(self):
        """How its step is printed."""
        if self.word in ("raise", "resume") and self.share:
            return f"{self.word} {self.appid} {self.buckets()}"
        words = self.word, self.path or self.appid, self.version
        return " ".join(it for it in words if it)
