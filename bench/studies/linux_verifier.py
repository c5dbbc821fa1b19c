"""Linux's verifier, called by bpf(2): whether it accepts a program whose choice may be 0 to N, and
what it knows about registers on the way.

The program is loaded with the type `syscall`, whose context may be read, and is never run. Each
EXIT becomes a jump to a tail after the program's slots, so that these keep their numbers. The tail
loads the byte at R0 of a map's value of N + 1 bytes. Linux accepts it exactly if it knows that R0
is one of 0 to N.
"""
import ctypes
import os
import platform
import re
import struct
from dataclasses import dataclass

from bpf_code import GREATEST, encoded, slot

SYSCALL_NUMBERS = {"x86_64": 321, "aarch64": 280}
MAP_CREATE, PROG_LOAD = 0, 5
MAP_TYPE_ARRAY, PROG_TYPE_SYSCALL, SLEEPABLE = 2, 31, 1 << 4
# The contents of the log: the refused path and statistics, or all paths with the registers at each
# instruction.
REFUSED_PATH, ALL_PATHS = 1 | 4, 2 | 4
ATTRIBUTES, LOG = 144, 1 << 24
# A line of the log with the register's state, which has nested parentheses.
COPY_OF_ITSELF = r"(\d+): \(bf\) r(\d+) = r\2\s+; (?:.* )?R\2(?:_\w+)?=(P?scalar\(.*?\)\)?|\S+)"
EXIT, JUMP = 0x95, 0x05


def release():
    """The kernel's version."""
    return platform.release()


class Missing(Exception):
    """Why bpf(2) can't be used here."""


@dataclass
class Answer:
    """Whether a program is accepted, and the lines of the log."""

    accepts: bool
    log: list[str]

    def word(self):
        """The last message of the log, before its statistics."""
        figures = ("verification time", "stack depth", "processed", "mark_precise")
        messages = [line for line in self.log if line and not line.startswith(figures)]
        return messages[-1] if messages else "no word"

    def processed(self):
        """The number of instructions followed, over all paths."""
        found = re.search(r"processed (\d+) insns", "\n".join(self.log[-5:]))
        return int(found[1]) if found else 0


class Linux:
    """The verifier of this machine's kernel."""

    def __init__(self):
        if platform.machine() not in SYSCALL_NUMBERS:
            raise Missing(f"the number of bpf(2) isn't known on {platform.machine()}")
        self.number = SYSCALL_NUMBERS[platform.machine()]
        self.libc = ctypes.CDLL(None, use_errno=True)
        self.log = ctypes.create_string_buffer(LOG)
        self.maps = {}
        if not self.judge(slot(0xB7) + slot(EXIT), 0).accepts:
            raise Missing("the kernel refuses `mov r0, 0 / exit` as a program of type syscall")

    def bpf(self, command, attributes):
        """The descriptor, or the negated error number."""
        given = ctypes.create_string_buffer(attributes, ATTRIBUTES)
        found = self.libc.syscall(self.number, command, given, ATTRIBUTES)
        return found if found >= 0 else -ctypes.get_errno()

    def choices(self, releases):
        """The map whose value has a byte for each choice."""
        if releases not in self.maps:
            made = self.bpf(MAP_CREATE, struct.pack("=IIII", MAP_TYPE_ARRAY, 4, releases + 1, 1))
            if made < 0:
                raise Missing(f"bpf(2) makes no map: {os.strerror(-made)}")
            self.maps[releases] = made
        return self.maps[releases]

    def judge(self, code, releases, level=REFUSED_PATH):
        """The answer for a program's bytes, if its app has `releases` releases."""
        given = ctypes.create_string_buffer(with_tail(code, self.choices(releases)))
        license = ctypes.create_string_buffer(b"GPL")
        self.log.value = b""
        places = [ctypes.addressof(it) for it in (given, license, self.log)]
        attributes = struct.pack("=IIQQ", PROG_TYPE_SYSCALL, len(given) // 8, *places[:2])
        attributes += struct.pack("=IIQII", level, LOG, places[2], 0, SLEEPABLE)
        made = self.bpf(PROG_LOAD, attributes)
        if made >= 0:
            os.close(made)
        return Answer(made >= 0, self.log.value.decode(errors="replace").split("\n"))


def with_tail(code, choices):
    """The program in the form that Linux gets."""
    slots = [code[at : at + 8] for at in range(0, len(code), 8)]
    for at, one in enumerate(slots):
        # The second half of a wide load begins with 0, so it isn't an EXIT.
        if one[0] == EXIT:
            slots[at] = slot(JUMP, off=len(slots) - at - 1)
    address = slot(0x18, dst=1, src=2, imm=choices) + slot(0)
    byte = slot(0x0F, dst=1, src=0) + slot(0x71, dst=0, src=1)
    return b"".join(slots) + address + byte + slot(0xB7) + slot(EXIT)


@dataclass(frozen=True)
class Known:
    """What is known about a number: its range, the bits that are set, and those that may be."""

    lo: int
    hi: int
    has: int
    may: int

    def joined(self, other):
        ends = min(self.lo, other.lo), max(self.hi, other.hi)
        return Known(*ends, self.has & other.has, self.may | other.may)


def known_of(text):
    """The meaning of a register's state in the log; None if it isn't a number."""
    text = text.removeprefix("P")
    if re.fullmatch(r"-?(0x[0-9a-f]+|\d+)", text):
        number = int(text, 0) & GREATEST
        return Known(number, number, number, number)
    if not text.startswith("scalar("):
        return None
    found = {"umin": 0, "umax": GREATEST, "value": 0, "mask": GREATEST}
    for names, number in re.findall(r"((?:[us](?:min|max)(?:32)?=)+)(-?\w+)", text):
        found |= {name: int(number, 0) & GREATEST for name in names.split("=") if name}
    if bits := re.search(r"var_off=\((\w+); (\w+)\)", text):
        found["value"], found["mask"] = (int(it, 16) for it in bits.groups())
    return Known(found["umin"], found["umax"], found["value"], found["value"] | found["mask"])


def copies_in(log):
    """What the log says about a register that is copied onto itself, by slot."""
    copies = {}
    for line in log:
        found = re.match(COPY_OF_ITSELF, line)
        if found and (known := known_of(found[3])):
            copies[int(found[1])] = known
    return copies
