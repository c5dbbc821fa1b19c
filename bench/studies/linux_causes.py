"""Why only one of two verifiers accepts a program: rollout's or Linux's.

If only Linux accepts it, three changes are tried, alone and together. They give equivalent
programs, which rollout judges:

- each result, and each number on an edge and at a join, is copied onto itself, so that rollout
  synchronizes its range and bits again;
- each path has its own code, so that nothing is joined;
- rollout is given what Linux knows. For example, if Linux's log says that a register is in 4 to 7
  and has bit 0, the program tests that. If the test fails, which happens in no run, it leaves with
  the choice 0.

Facts are added from the first slot on until rollout accepts, and then as many as possible are
removed again. The instructions at the remaining facts are the cause.

If only rollout accepts it, Linux is given what it knew itself before each JSET.
"""
from dataclasses import dataclass

from bpf_code import GREATEST, REGISTERS, Insn, Label, encoded, places
from bpf_forms import NONE, Point, apart, copied_again, joined, nothing
from linux_verifier import ALL_PATHS, Known, copies_in

# The maximum number of slots of a program.
MOST_SLOTS = 4096
SCRATCH = 9
AGAIN = "a number is tidied once"
JOINED = "paths are joined"
UNSAID = "a range and bits don't say it"
FORGOTTEN = "Linux forgets the range where JSET goes on"


# ---- what Linux knows


@dataclass(frozen=True)
class Fact:
    """What Linux knows about a register at a point; None if it finds the point unreachable."""

    point: Point
    register: int
    known: object


def points_of(insns):
    """The points of a program, each with the registers that may have become better known there."""
    for at, insn in enumerate(insns):
        if insn.branches():
            yield Point(at, "on"), REGISTERS
            yield Point(at, "taken"), REGISTERS
        elif insn.word != "exit":
            yield Point(at), [insn.dst]


def known_at(linux, insns, releases, registers):
    """What Linux knows at these points about their registers, over all paths: by its log of the
    separate paths. Points that it finds unreachable are left out."""
    probes = []

    def more(point):
        made = []
        for register in registers.get(point, []):
            probes.append((point, register))
            made += [Label(("probe", len(probes))), Insn("mov", register, src=register)]
        return made

    items = apart(insns, more)
    copies = copies_in(linux.judge(encoded(items), releases, ALL_PATHS).log)
    at_label, found = places(items), {}
    for number, probe in enumerate(probes, 1):
        known = copies.get(at_label["probe", number])
        before = found.get(probe)
        if known is not None:
            found[probe] = known if before is None else known.joined(before)
    return found


def facts_of(linux, insns, releases):
    """What Linux knows at each point of a program."""
    registers = dict(points_of(insns))
    found = known_at(linux, insns, releases, registers)
    return [
        Fact(point, register, found.get((point, register)))
        for point, its in registers.items()
        for register in (its if (point, its[0]) in found else its[:1])
    ]


def ranges_before_tests(linux, insns, releases):
    """More code: after a JSET that doesn't jump, tests of the range that Linux knew before it."""
    jsets = [at for at, insn in enumerate(insns) if insn.word == "jset"]
    registers = {Point(at, "in"): [insns[at].dst] for at in jsets}
    found = known_at(linux, insns, releases, registers)
    facts = []
    for (point, register), known in found.items():
        range_alone = Known(known.lo, known.hi, 0, GREATEST)
        facts.append(Fact(Point(point.place, "on"), register, range_alone))
    return tested(facts)


def compared(word, register, number, target):
    """A conditional jump that compares with a number of any size."""
    if -(2**31) <= (signed := number - (number >> 63 << 64)) < 2**31:
        return [Insn(word, register, imm=signed, target=target)]
    wide = Insn("lddw", SCRATCH, imm=number)
    return [wide, Insn(word, register, src=SCRATCH, target=target)]


def tests(fact, name):
    """Code that leaves if what is known doesn't hold; its labels contain the name."""
    register, known = fact.register, fact.known
    if known is None:
        return compared("jge", register, 0, NONE)
    if known.lo == known.hi:
        return compared("jne", register, known.lo, NONE)
    made = compared("jlt", register, known.lo, NONE) if known.lo > 0 else []
    made += compared("jgt", register, known.hi, NONE) if known.hi < GREATEST else []
    made += compared("jset", register, GREATEST ^ known.may, NONE) if known.may < GREATEST else []
    for bit in (1 << n for n in range(64) if known.has >> n & 1):
        past = Label((name, bit))
        made += compared("jset", register, bit, past.name) + [Insn("ja", target=NONE), past]
    return made


def tested(facts):
    """More code: the tests of these facts."""
    made = []

    def more(point):
        found = []
        for fact in facts:
            if fact.point == point:
                made.append(fact)
                found += tests(fact, len(made))
        return found

    return more


# ---- the cause


def enough(facts, accepts):
    """How many facts, from the first on, are enough; None if all aren't."""
    if not accepts(facts):
        return None
    least, most = 0, len(facts)
    while least < most:
        middle = (least + most) // 2
        least, most = (least, middle) if accepts(facts[:middle]) else (middle + 1, most)
    return least


def needed(facts, accepts):
    """The facts of these that can't be removed; the last ones are removed first."""
    kept = facts
    for fact in reversed(facts):
        others = [it for it in kept if it != fact]
        kept = others if accepts(others) else kept
    return kept


def kind(insns, fact):
    """The kind of instruction by which Linux knows more."""
    insn = insns[fact.point.place]
    kinds = {"sub": "add", "neg": "add", "or": "and", "xor": "and", "rsh": "lsh", "arsh": "lsh"}
    names = {"add": "ADD, SUB, NEG", "mul": "MUL", "and": "AND, OR, XOR", "lsh": "shifts"}
    names |= {"mov": "MOV", "jset": "JSET"}
    if not insn.branches():
        return names.get(kinds.get(insn.word, insn.word), "loads")
    if fact.known is not None and fact.register not in (insn.dst, insn.src):
        return "a jump bounds copies"
    if insn.src == insn.dst:
        return "a register is compared with itself"
    if insn.bits == 32:
        return "a jump in 32 bits"
    if insn.word.startswith("js") and insn.word != "jset":
        return "a signed jump"
    return "JSET" if insn.word == "jset" else "an unsigned jump"


def cause_of_ours(linux, insns, releases):
    """Why only rollout accepts a program: what Linux forgets, or the last message of its log."""
    code = encoded(joined(insns, ranges_before_tests(linux, insns, releases)))
    if linux.judge(code, releases).accepts:
        return FORGOTTEN
    return linux.judge(encoded(joined(insns, nothing)), releases).word()


def cause_of_theirs(linux, rollout, insns, releases):
    """Why only Linux accepts a program, in a few words: by the form of it that needs the fewest
    facts, from the first slot on."""
    facts = facts_of(linux, insns, releases)
    again = copied_again(insns)
    least, words = len(facts) + 1, [UNSAID]
    for form, also, names in [
        (joined, nothing, []),
        (joined, again, [AGAIN]),
        (apart, nothing, [JOINED]),
        (apart, again, [AGAIN, JOINED]),
    ]:

        def accepts(some, form=form, also=also):
            more = tested(some)
            code = encoded(form(insns, lambda point: more(point) + also(point)))
            return len(code) <= 8 * MOST_SLOTS and rollout.judge(code, releases).accepts

        count = enough(facts, accepts)
        if count is not None and count < least:
            kinds = {kind(insns, fact) for fact in needed(facts[:count], accepts)}
            least, words = count, [*names, *sorted(kinds)]
    return " and ".join(words)
