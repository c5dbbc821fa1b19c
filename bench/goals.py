"""Compares the goals at which the prover refuses wrong bodies with those that the edits name.

`rt must-fail` also takes an edit that the prover refuses only because an answer by hand cites a
name that is gone. So each edit of the gate names a function and its goal, which has to stay open.
"""
import re
import subprocess
import tempfile
from pathlib import Path

from bodies import copy_crates, put_in
from checking.edits import GATE, GOALS, WRONG, edits

# An answer that is refused; goals that the search leaves, if the function has no answers, and if it
# has some; and a name that an answer lacks.
ANSWER = re.compile(r"(?:\./)?proofs/(\S+)/\w+\.antt:\d+:\d+: error: (?:in )?`([^`]+)`(.*)")
UNPROVED = re.compile(r"fn \w+::(\S+): .*`search` did not prove ((?:`[^`]+`(?:, )?)+)")
LEFT = re.compile(r"note: src/\S+:\d+:\d+: .*\(`([^`]+)`\)")
FUNCTION = re.compile(r"fn \w+::(\S+): ")
GONE = re.compile(r"is not in scope|has no field|has no `")


def open_goals(output):
    """The functions with the goals that are open, and the functions whose names are gone."""
    found, gone, left = set(), set(), []
    for line in output.splitlines():
        if answer := ANSWER.match(line):
            function = answer[1].replace("/", "::")
            found.add((function, answer[2]))
            gone.update([function] * bool(GONE.search(answer[3])))
        elif goal := LEFT.match(line):
            left.append(goal[1])
        elif end := FUNCTION.match(line):
            goals = UNPROVED.match(line)
            left += re.findall("`([^`]+)`", goals[2]) if goals else []
            found.update((end[1], it) for it in left)
            left = []
    return found, gone


def tried(edit, crate):
    """Checks a crate with an edit in it. Returns a report, and whether it is right."""
    named = GOALS.findall(edit.read_text())
    if not named:
        return "it names no goal", False
    with put_in(edit, crate) as why:
        if why:
            return f"BAD EDIT: {why}", False
        only = [it for function, _ in named for it in ("--only", function)]
        words = ["rt", "check", *only]
        ran = subprocess.run(words, cwd=crate, capture_output=True, text=True, errors="replace")
    found, gone = open_goals(ran.stdout + ran.stderr)
    if not found:
        return f"NOT REFUSED THERE: status {ran.returncode}", False
    wrong = [f"{function}: {goal}" for function, goal in named if (function, goal) not in found]
    lost = sorted({function for function, _ in named} & gone)
    if wrong or lost:
        there = ", ".join(f"{function}: {goal}" for function, goal in sorted(found))
        return f"REFUSED ELSEWHERE: {there}" + "; names are gone" * bool(lost), False
    return "refused at " + ", ".join(f"{function}: {goal}" for function, goal in named), True


def naming(crate):
    """The edits of the gate, and the others that name a goal."""
    others = [it for it in edits(crate, WRONG) if GOALS.search(it.read_text())]
    return [*edits(crate, GATE), *others]


def try_goals(crates):
    """Whether each edit that names goals is refused at them; prints where."""
    with tempfile.TemporaryDirectory(prefix="wrong-") as name:
        copy_crates(crates, Path(name))
        right = []
        for crate in crates:
            for edit in naming(crate):
                report, is_right = tried(edit, Path(name) / "crates" / crate)
                print(f"{crate}/{edit.name}: {report}", flush=True)
                right.append(is_right)
    print(f"{sum(right)} of {len(right)} are refused at their goals")
    return all(right)
