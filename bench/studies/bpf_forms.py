"""Equivalent forms of a program: its slots in order, or each path separately. In both, more code
can be inserted at its points.

More code is a function that returns the instructions for a point. A jump to NONE leaves with the
choice 0.
"""
from dataclasses import dataclass, replace

from bpf_code import REGISTERS, Insn, Label

NONE = "the choice 0"


@dataclass(frozen=True)
class Point:
    """A point in a program: after an instruction, on an edge of a jump (`on` or `taken`), or before
    an instruction at which edges meet (`in`)."""

    place: int
    edge: str = ""


def joined(insns, more):
    """The program, slot after slot."""
    made = []
    for at, insn in enumerate(insns):
        made += [Label(at), *more(Point(at, "in")), insn]
        taken = more(Point(at, "taken")) if insn.branches() else []
        if taken:
            made[-1] = replace(insn, target=("taken", at))
            made += more(Point(at, "on")) + [Insn("ja", target=at + 1), Label(("taken", at))]
            made += taken + [Insn("ja", target=insn.target)]
        elif insn.branches():
            made += more(Point(at, "on"))
        elif insn.word != "exit":
            made += more(Point(at))
    return with_none(made)


def apart(insns, more):
    """Each path of the program separately; paths share only their common beginnings."""
    made, waiting = [], [(0, None)]
    while waiting:
        at, edge = waiting.pop()
        if edge is not None:
            made += [Label(("path", edge[0])), *more(Point(edge[1], "taken"))]
        while insns[at].word != "exit":
            insn = insns[at]
            made += [*more(Point(at, "in")), insn]
            if insn.branches():
                made[-1] = replace(insn, target=("path", len(made)))
                waiting.append((insn.target, (len(made), at)))
            made += more(Point(at, "on" if insn.branches() else ""))
            at += 1
        made.append(insns[at])
    return with_none(made)


def with_none(made):
    if any(isinstance(item, Insn) and item.target == NONE for item in made):
        return [*made, Label(NONE), Insn("mov", 0), Insn("exit")]
    return made


def nothing(_):
    return []


def copied_again(insns):
    """More code: copies each number onto itself wherever it may have changed."""
    targets = {insn.target for insn in insns}

    def more(point):
        if point.edge == "in" and point.place not in targets:
            return []
        copied = REGISTERS if point.edge else [insns[point.place].dst]
        return [Insn("mov", register, src=register) for register in copied]

    return more
