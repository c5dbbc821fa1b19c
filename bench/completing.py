"""Checks the scripts and the page that `completion` prints: bash, zsh, fish and groff read them. It
also checks that no page of help is over 100 columns wide.

Each check returns nothing, or what was wrong. If a command isn't installed, the check is skipped
with that name.
"""
import re
import shlex
import subprocess

from hosts import ROOT, needs

ROLLOUT = str(ROOT / "rollout")
# The words after `rollout`, of which the last is completed, and what bash then offers in a folder
# with the file m.toml.
OFFERED = [
    (["ser"], ["serve"]),
    (["serve", "--op"], ["--operator"]),
    (["diff", "m.toml", "--fa"], ["--fail-on-lost"]),
    (["stage", "ha"], ["halt"]),
    (["stage", ""], ["halt", "resume", "raise", "back", "put", "status", "history"]),
    (["stage", "put", "m."], ["m.toml"]),
    (["completion", "z"], ["zsh"]),
    (["check", "m."], ["m.toml"]),
    (["simulate", "m.toml", "--against", "m."], ["m.toml"]),
    (["show", "--operator", "m"], []),
]
COMPLETE = """
COMP_WORDS=(rollout {words})
COMP_CWORD={place}
_rollout
printf '%s\\n' "${{COMPREPLY[@]}}"
"""


def printed(*words):
    return subprocess.run([ROLLOUT, *words], capture_output=True, text=True, check=True).stdout


def complaints(*command, text):
    """What a command prints to standard error about a text that it reads."""
    return subprocess.run(command, input=text, capture_output=True, text=True).stderr or None


def bash(folder):
    needs("bash")
    script = printed("completion", "bash")
    place = folder / "completed"
    place.mkdir()
    (place / "m.toml").touch()
    for words, wanted in OFFERED:
        ending = COMPLETE.format(words=shlex.join(words), place=len(words))
        done = subprocess.run(
            ["bash", "-c", script + ending], capture_output=True, text=True, cwd=place
        )
        if done.stdout.split() != wanted or done.stderr:
            return f"{words}: {done.stdout.split()} {done.stderr}"


def zsh(_):
    needs("zsh")
    return complaints("zsh", "-n", text=printed("completion", "zsh"))


def fish(_):
    needs("fish")
    script = printed("completion", "fish")
    found = subprocess.run(
        ["fish", "-c", script + "complete -C 'rollout ser'"], capture_output=True, text=True
    )
    if not found.stdout.startswith("serve\t"):
        return found.stdout + found.stderr


def manual(_):
    needs("groff")
    return complaints("groff", "-man", "-ww", "-Tutf8", text=printed("completion", "man"))


def widths(_):
    page = printed("--help")
    for name in re.findall(r"^  ([a-z]+)  +[A-Z]", page, re.M):
        page += printed(name, "--help")
    return "\n".join(it for it in page.splitlines() if len(it) > 100) or None


COMPLETIONS = {
    "completion bash": bash,
    "completion zsh": zsh,
    "completion fish": fish,
    "completion man": manual,
    "the widths of help": widths,
}
