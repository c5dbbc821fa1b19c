"""Runs the commands of docs/OPERATING.md and docs/INSTALL.md as a person pastes them: line by line,
in a shell that goes on after a failure, twice, in a folder that already has the names. Afterwards
each served file has to be what it was, or what the last step of `rollout stage` left. If no new
folder can be made, no served file may change.

Commands that concern the host, such as systemctl, are replaced by ones that only succeed, or fail.
"""
import re
import shutil
import subprocess

from hosts import PATIENCE, ROOT, needs
from operating import BUILT, PORTS, Day

HOST_COMMANDS = [
    "systemctl", "systemd-sysusers", "nginx", "ssh", "pgrep", "sha256sum", "ln", "curl", "git"
]
# Names that the blocks use, and that the folder already has.
TAKEN = ["next", "served", "current.toml.new", "request.json", "editor-a.toml", "rollout.svg"]
QUOTA = '\n[[array]]\nname = "{}"\nwidth = 64\nlength = 1\nquota = 1000\n'
ARRAYS = QUOTA.format("first") + QUOTA.format("other")
TAKES = "when version < 2.1 and bucket(7319492859585677826) < 500 and take(first, 0) offer 1;\n"
# A second app, which no block names.
VIEWER = '\n[[app]]\nappid = "viewer"\nrule = "viewer.rule"\n'
NONE = "otherwise none;\n"
SERVED = ("current.toml", "editor.rule", "viewer.rule")
COMMAND = re.compile(r"^(?:\w+=\$\(|(?:rollout|cd|cp|tar|systemctl|sha256sum|sed|for|grep|jq) )")
EDITED = re.compile(r"was edited|refused")


def sections(page):
    """The blocks of commands of each section, but for a server in the foreground."""
    text = (ROOT / "docs" / page).read_text()
    for part in re.split(r"^(?=##+ )", text, flags=re.M)[1:]:
        blocks = re.findall(r"^```\n(.*?)^```", part, re.M | re.S)
        found = [it for it in blocks if COMMAND.match(it) and "rollout serve" not in it]
        if found:
            yield part.splitlines()[0], found


class Shell:
    """A day with two apps, the first with a quota, and commands of the host that end with a
    status."""

    def __init__(self, folder, program):
        self.day = Day(folder, program)
        manifest = (folder / "current.toml").read_text().replace("\n\n", ARRAYS + "\n", 1)
        self.first = [manifest + VIEWER, TAKES + NONE, NONE]
        (folder / "log").mkdir()
        self.put_back()

    def put_back(self):
        """The first files, without steps, and folders and files with the names of the blocks."""
        folder = self.day.folder
        shutil.rmtree(folder / ".stage", ignore_errors=True)
        for it in TAKEN:
            shutil.rmtree(folder / it, ignore_errors=True)
            (folder / it).unlink(missing_ok=True)
        for it in ("next", "served"):
            (folder / it).mkdir()
        (folder / "server.log").touch()
        (folder / "request.json").write_text("{}\n")
        (folder / "editor-a.toml").write_text("\n")
        for name, text in zip(SERVED, self.first):
            (folder / name).write_text(text)

    def commands(self, status):
        for it in HOST_COMMANDS:
            place = self.day.folder / "bin" / it
            place.write_text(f"#!/bin/sh\nexit {status}\n")
            place.chmod(0o755)

    def paste(self, blocks, **environment):
        """Pastes the blocks into one shell, in the folder of the served files."""
        text = "\n".join(blocks)
        for it in ("/opt", "/srv", "/var/log/rollout", "~"):
            text = re.sub(rf"(?<![\w/.]){it}/", f"{self.day.folder}/log/", text)
        text = text.replace("/etc/rollout", str(self.day.folder))
        text = re.sub(r"(?<![\w/.])/(etc|var|run)/", rf"{self.day.folder}/host/\1/", text)
        words = self.day.words(text)
        how = self.day.place()
        how["env"] = {**how["env"], **environment}
        done = subprocess.run(["sh", "-s"], input=words[-1], stdout=subprocess.PIPE,
                              stderr=subprocess.STDOUT, text=True, timeout=20 * PATIENCE, **how)
        return done.stdout

    def served(self):
        return [(self.day.folder / it).read_text() for it in SERVED]


def wrong_without_room(shell, title, blocks):
    """A block alone, if mktemp fails and the host's commands fail: nothing served changes, but by
    a halt or a raise."""
    shell.commands(1)
    for it in blocks:
        if re.search(r"stage (halt|raise) ", it) and "mktemp" not in it:
            continue
        printed = shell.paste([it], TMPDIR=str(shell.day.folder / "none"))
        if shell.served() != shell.first:
            return f"{title}: without a new folder this changes what is served: {it}{printed}"


def wrong_twice(shell, title, blocks):
    shell.commands(0)
    printed = shell.paste([*blocks, *blocks])
    if shell.served() == shell.first:
        return
    status = shell.day.run("rollout stage status --operator 8081 || :")
    if "step" not in status or EDITED.search(status):
        return f"{title}: after it {status} {printed}"


def wrong_put(shell, title, block):
    """What a block makes of the served files can be put in place, with the app that it leaves."""
    if "stage put" not in block:
        block = f"{block.rstrip()} && rollout stage put current.toml --anyway --operator 8081"
    printed = shell.day.run(block.replace(" --dry-run", ""))
    manifest, _, viewer = shell.served()
    kept = manifest.endswith(VIEWER) and QUOTA.format("other") in manifest and viewer == NONE
    if not kept or not printed.endswith(f"server at {PORTS['8081']}: generation 2\n"):
        return f"{title}: put: {printed}{manifest}"


def pasted(folder, program=BUILT, only=""):
    """Each section's blocks, twice, while a server serves the folder."""
    needs("jq")
    shell = Shell(folder / "pasted", program)
    count = 0
    for page in ("OPERATING.md", "INSTALL.md"):
        for title, blocks in sections(page):
            if only not in title:
                continue
            count += len(blocks)
            with shell.day.served():
                wrong = wrong_without_room(shell, title, blocks)
                wrong = wrong or wrong_twice(shell, title, blocks)
                for it in HOST_COMMANDS:
                    (shell.day.folder / "bin" / it).unlink()
                if wrong:
                    return wrong
                shell.put_back()
            for it in blocks:
                if 'cp -r /etc/rollout' not in it:
                    continue
                with shell.day.served():
                    if wrong := wrong_put(shell, title, it):
                        return wrong
                shell.put_back()
    print(f"    {count} blocks")


PASTED = {"the commands of the pages, pasted twice": pasted}
