"""BPF programs as lists of instructions, their bytes (RFC 9669), and random ones with masks and bit
tests, for the scripts of bench/.

In a program, an instruction's index in the list is also the target of jumps to it. In generated
code a target is a label: an item of the list without bytes.
"""
import struct
from dataclasses import dataclass

GREATEST = 2**64 - 1
ALU = {"add": 0, "sub": 1, "mul": 2, "or": 4, "and": 5, "lsh": 6, "rsh": 7, "neg": 8, "xor": 10}
ALU |= {"mov": 11, "arsh": 12}
JUMPS = {"jeq": 1, "jgt": 2, "jge": 3, "jset": 4, "jne": 5, "jsgt": 6, "jsge": 7, "jlt": 10}
JUMPS |= {"jle": 11, "jslt": 12, "jsle": 13}
OTHERS = {"exit": 0x95, "ja": 0x05, "lddw": 0x18}
LOADS = {"ldxw": 0x61, "ldxh": 0x69, "ldxb": 0x71, "ldxdw": 0x79}


@dataclass(frozen=True)
class Insn:
    """An instruction. Without src its operand is imm; for a load, imm is the offset."""

    word: str
    dst: int = 0
    src: int | None = None
    imm: int = 0
    bits: int = 64
    target: object = None

    def opcode(self):
        source = 0 if self.src is None else 8
        if self.word in ALU:
            return ALU[self.word] << 4 | source | (7 if self.bits == 64 else 4)
        if self.word in JUMPS:
            return JUMPS[self.word] << 4 | source | (5 if self.bits == 64 else 6)
        return (OTHERS | LOADS)[self.word]

    def branches(self):
        return self.word in JUMPS

    def slots(self):
        return 2 if self.word == "lddw" else 1

    def code(self, off):
        if self.word == "lddw":
            low, high = (struct.unpack("<ii", struct.pack("<Q", self.imm)))
            return slot(0x18, self.dst, imm=low) + slot(0, imm=high)
        if self.word in LOADS:
            return slot(self.opcode(), self.dst, self.src, self.imm)
        return slot(self.opcode(), self.dst, self.src or 0, off, self.imm)


@dataclass(frozen=True)
class Label:
    """A position in a list of instructions."""

    name: object

    def slots(self):
        return 0


def slot(opcode, dst=0, src=0, off=0, imm=0):
    return struct.pack("<BBhi", opcode, dst | src << 4, off, imm)


def places(items):
    """The slot of each label."""
    found, at = {}, 0
    for item in items:
        if isinstance(item, Label):
            found[item.name] = at
        at += item.slots()
    return found


def encoded(items):
    """The bytes of instructions whose jumps have labels as targets."""
    at_label, made, at = places(items), [], 0
    for item in items:
        if isinstance(item, Insn):
            off = 0 if item.target is None else at_label[item.target] - at - 1
            made.append(item.code(off))
        at += item.slots()
    return b"".join(made)


# ---- random programs

# The registers for numbers; the first instructions set one each.
REGISTERS = [0, 2, 3, 4]
FIELDS = [("ldxb", 18), ("ldxb", 19), ("ldxh", 16), ("ldxw", 0), ("ldxw", 24), ("ldxdw", 8)]
MASKS = [1, 2, 3, 4, 5, 6, 7, 8, 12, 15, 16, 24, 31, 32, 40, 48, 63, 127, 255, -2, -4, -8, -16]
ENDS = [0, 1, 2, 3, 4, 6, 7, 8, 10, 15, 16, 31, 32, 63, 64, 100, 255]


def operation(drawn):
    """An arithmetic operation on a register; more than half are AND, OR or XOR."""
    words = {"and": 20, "or": 14, "xor": 10, "lsh": 6, "rsh": 6, "arsh": 3, "add": 5, "sub": 4}
    words |= {"mul": 1, "neg": 1, "mov": 6}
    word = drawn.choices(list(words), words.values())[0]
    bits = drawn.choice([64, 64, 64, 32])
    dst = drawn.choice(REGISTERS)
    if word == "neg":
        return Insn(word, dst, bits=bits)
    if word in ("lsh", "rsh", "arsh"):
        return Insn(word, dst, imm=drawn.choice([1, 2, 3, 4, 8, bits - 4, bits - 1]), bits=bits)
    if word == "mov" or drawn.random() < 0.3:
        return Insn(word, dst, src=drawn.choice(REGISTERS), bits=bits)
    return Insn(word, dst, imm=drawn.choice(MASKS), bits=bits)


def test(drawn, target):
    """A conditional jump; half of these test bits."""
    others = ["jeq", "jne", "jgt", "jge", "jlt", "jle", "jsgt", "jslt"]
    word = "jset" if drawn.random() < 0.5 else drawn.choice(others)
    how = {"bits": drawn.choice([64, 64, 64, 32]), "target": target}
    dst = drawn.choice(REGISTERS)
    if drawn.random() < 0.2:
        return Insn(word, dst, src=drawn.choice(REGISTERS), **how)
    return Insn(word, dst, imm=drawn.choice(MASKS if word == "jset" else ENDS), **how)


def random_program(drawn):
    """Loads, four to twelve operations and jumps, an operation that bounds R0, and an EXIT. A jump
    skips up to three of these, or leads to the choice 0 at the end."""
    insns = []
    for register in REGISTERS:
        word, place = drawn.choice(FIELDS)
        insns.append(Insn(word, register, src=1, imm=place))
    last = len(insns) + drawn.randrange(4, 13)
    while len(insns) < last:
        over = min(len(insns) + drawn.randrange(2, 5), last)
        target = drawn.choice([over, over, last + 2])
        insns.append(test(drawn, target) if drawn.random() < 0.3 else operation(drawn))
    bound = Insn("and", 0, imm=drawn.choice([mask for mask in MASKS if 0 < mask < 64]))
    insns.append(drawn.choice([bound, Insn("jgt", 0, imm=drawn.choice(ENDS), target=last + 2)]))
    insns.append(Insn("exit"))
    if any(insn.target == last + 2 for insn in insns):
        insns += [Insn("mov", 0), Insn("exit")]
    return insns
