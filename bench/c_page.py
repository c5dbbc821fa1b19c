"""Runs the commands of docs/C.md. Other transcripts of pages are rows of the gate
(docs/checking/transcripts.py).
"""
import re

from hosts import ROOT, needs
from operating import BUILT, Day

C_PAGE = ROOT / "docs" / "C.md"


def rule_in_c(folder, program=BUILT):
    """The rule of docs/C.md, by its commands, each of which prints what its comment says."""
    needs("clang", "llvm-readelf", "llvm-objcopy")
    day = Day(folder / "in-c", program)
    (day.folder / "examples").symlink_to(ROOT / "examples")
    rule, commands, *_ = re.findall(r"^```\w*\n(.*?)^```", C_PAGE.read_text(), re.M | re.S)
    (day.folder / "rule.c").write_text(rule)
    printed = day.run(commands.replace("./rollout", "rollout"))
    for it in re.findall(r"# (?:must say: )?(.*)", commands):
        if it not in printed:
            return f"no {it} in {printed}"


RULES_IN_C = {"the rule of docs/C.md": rule_in_c}
