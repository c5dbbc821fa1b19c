"""Rules in C, and the compilers of this machine that compile them."""
import functools
import re
import shutil
import struct
import subprocess
from dataclasses import dataclass
from pathlib import Path

from random_rules import random_rule

STUDIES = Path(__file__).resolve().parent
PROGRAMS, EXAMPLES = STUDIES / "programs", STUDIES.parent.parent / "examples" / "c"
WORDS = ["-w", "-ffreestanding", "-ffunction-sections", "-I", PROGRAMS, "-I", EXAMPLES, "-x", "c"]
CLANGS = ["clang"] + [f"clang-{version}" for version in range(14, 40)]
LEVELS = ["v1", "v2", "v3", "v4"]
HEADER = '#include "corpus.h"\n'

# ---- sources


@dataclass(frozen=True)
class Rule:
    """A C function, with its releases and arrays, and the fault that its comment announces."""

    name: str
    releases: int
    arrays: str
    fault: str | None


@dataclass(frozen=True)
class Source:
    """A C text with one or more rules, which is compiled as a whole."""

    name: str
    text: str

    @functools.cached_property
    def rules(self):
        form = r'(?:^/\* ([FIV]\d+): (?:(?!\*/)[\s\S])*\*/\n)?^RULE\((\w+), (\d+), "(.*)"\)'
        found = re.findall(form, self.text, re.M)
        return [Rule(name, int(most), arrays, fault or None) for fault, name, most, arrays in found]


def example(path):
    """A rule of examples/c; its comment has the options for `verify`."""
    text = path.read_text()
    most = re.search(r"--releases (\d+)", text)[1]
    arrays = re.search(r"--arrays (\S+)", text)
    rule = f'RULE({path.stem}, {most}, "{arrays[1] if arrays else ""}")'
    return text.replace("uint64_t rule(const struct context *app)", rule)


def by_hand():
    """The rules of bench/studies/programs and examples/c, one source for each file."""
    files = [file for file in sorted(PROGRAMS.glob("*.c")) if file.stem != "host"]
    examples = [Source(file.stem, example(file)) for file in sorted(EXAMPLES.glob("*.c"))]
    return [Source(file.stem, file.read_text()) for file in files] + examples


def at_random(count, seed):
    """Random rules, one source for each."""
    for number in range(count):
        name = f"random_{number}"
        yield Source(name, random_rule(name, f"{seed} {number}"))


# ---- compilers


@dataclass(frozen=True)
class Compiler:
    """A compiler for BPF with its options."""

    name: str
    words: tuple

    def of_clang(self):
        return self.name.startswith("clang")

    def compile(self, sources, option, folder):
        """The bytes of each rule's program, except for sources that the compiler refuses."""
        if not sources:
            return {}
        made = folder / "rules.o"
        text = HEADER + "".join(source.text for source in sources)
        words = [*self.words, *WORDS, f"-D{option}", "-c", "-", "-o", made]
        done = subprocess.run(words, input=text, capture_output=True, text=True)
        if done.returncode == 0:
            found = sections(made.read_bytes())
            rules = [rule for source in sources for rule in source.rules]
            return {rule.name: found[f".text.{rule.name}"] for rule in rules}
        if len(sources) == 1:
            return {}
        half = len(sources) // 2
        first = self.compile(sources[:half], option, folder)
        return first | self.compile(sources[half:], option, folder)


def sections(elf):
    """The sections of a 64-bit object file, by name (System V ABI, "Sections")."""
    (start,) = struct.unpack_from("<Q", elf, 0x28)
    size, count, names = struct.unpack_from("<HHH", elf, 0x3A)
    # For each section: the offset of its name, its offset in the file, and its size.
    headers = [struct.unpack_from("<I20xQQ", elf, start + size * it) for it in range(count)]
    texts = headers[names][1]
    named = [(elf[texts + name :].split(b"\0", 1)[0], at, size) for name, at, size in headers]
    return {name.decode(): elf[at : at + size] for name, at, size in named}


def version(command):
    done = subprocess.run([command, "--version"], capture_output=True, text=True, check=True)
    return re.search(r"\d+\.\d+\.\d+", done.stdout)[0]


def compilers():
    """The installed compilers: each clang at each level of the instruction set, and gcc."""
    clangs = {version(command): command for command in reversed(CLANGS) if shutil.which(command)}
    for number, command in sorted(clangs.items()):
        # The last level was added in 18.
        for level in LEVELS[: 4 if int(number.split(".")[0]) >= 18 else 3]:
            words = (command, "-O2", "-target", "bpf", f"-mcpu={level}")
            yield Compiler(f"clang {number} {level}", words)
    if shutil.which("bpf-gcc"):
        for level in ("-O1", "-O2"):
            # It defines the machine's macro only in upper case.
            yield Compiler(f"gcc {version('bpf-gcc')} {level}", ("bpf-gcc", level, "-D__bpf__"))


# ---- this machine


def host(sources, option, folder):
    """This machine's program for the rules, which traps if C leaves a result undefined."""
    made, text = folder / f"host_{option}", folder / "rules.c"
    text.write_text(HEADER + "".join(source.text for source in sources))
    checks = ["-fsanitize=undefined", "-fsanitize-undefined-trap-on-error"]
    words = ["gcc", "-O1", *checks, *WORDS, f"-D{option}", PROGRAMS / "host.c", text]
    subprocess.run([*words, "-rdynamic", "-o", made], check=True)
    return made
