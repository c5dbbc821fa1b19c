"""Checks examples/deploy/rollout-halt-failing.sh, which halts an app by its page, over a `rollout`
that only notes its calls. `bench/page` tries it at pages that `report` wrote.
"""
import os
import subprocess
import time

from hosts import DEPLOY, PATIENCE, needs

SCRIPT = DEPLOY / "rollout-halt-failing.sh"
# Only the server at 8091 replies, if any, as after an upgrade. A halt ends with the status of a file.
FAKE = """#!/bin/sh
cd {folder}
case $1 in
state)
    [ "$3" = 8091 ] && [ ! -e silent ] || exit 1
    printf 'generation 1\\n' && cat halted && echo end
    ;;
stage)
    echo "$@" >> calls
    [ -e silent ] || echo "halted $3" > halted
    exit "$(cat status)"
    ;;
esac
"""
BEGINNING = "<!DOCTYPE html>\n<!-- A page of rollout report -->\n<body>\n"
END = "</body>\n</html>\n"


def heading(app, *versions):
    marks = "".join(f' <b class="bad"><span class="name">{it}</span> fails</b>' for it in versions)
    return f'<section><h2><span class="name">{app}</span>{marks}</h2>\n</section>\n'


def page(*headings):
    return BEGINNING + "".join(headings) + END


class Cron:
    """A folder with a page, the fake `rollout`, and what cron gives a script: nearly nothing."""

    def __init__(self, folder):
        self.folder, self.page = folder, folder / "index.html"
        (folder / "bin").mkdir(parents=True)
        (folder / "bin" / "rollout").write_text(FAKE.format(folder=folder))
        (folder / "bin" / "rollout").chmod(0o755)
        for name, text in {"calls": "", "halted": "", "status": "0\n"}.items():
            (folder / name).write_text(text)

    def call(self, app="editor", kept="kept"):
        """The script's status, the halts that it called, and what it printed."""
        before = len((self.folder / "calls").read_text().splitlines())
        words = [SCRIPT.resolve(), app, self.page, self.folder / kept]
        path = {"PATH": f"{self.folder / 'bin'}:/usr/bin:/bin"}
        done = subprocess.run(words, capture_output=True, text=True, env=path, cwd="/",
                              timeout=PATIENCE)
        calls = (self.folder / "calls").read_text().splitlines()[before:]
        return done.returncode, calls, done.stdout + done.stderr

    def halts(self, text, **how):
        """The status at this page, and whether it halts once, at the server that replies."""
        self.page.write_text(text)
        status, calls, _ = self.call(**how)
        return status, [it.split(" --by ")[0] for it in calls]


ONCE, NOT = (0, ["stage halt editor --operator 8091"]), (0, [])


def halts_once(cron):
    fails = page(heading("tool"), heading("editor", "2.1"))
    for title, text, wanted in [
        ("no version fails", page(heading("editor"), heading("tool", "2.1")), NOT),
        ("a version fails", fails, ONCE),
        ("it still fails", fails, NOT),
    ]:
        if (found := cron.halts(text)) != wanted:
            return f"{title}: {found}"
    (cron.folder / "halted").write_text("")
    for title, versions, wanted in [
        ("after resume", ["2.1"], NOT),
        ("another one", ["2.1", "2.2"], ONCE),
        ("that alone", ["2.2"], NOT),
        ("one that begins so", ["2.2.1"], ONCE),
    ]:
        if (found := cron.halts(page(heading("editor", *versions)))) != wanted:
            return f"{title}: {found}"
        (cron.folder / "halted").write_text("")


def halts_by_no_other_page(cron):
    fails = page(heading("editor", "2.1"))
    for title, text in {"an empty page": "", "a cut page": fails[:-9], "another file": fails[16:],
                        "a reply": "refused B3 File\n"}.items():
        if (found := cron.halts(text)) != (1, []):
            return f"{title}: {found}"
    cron.page.write_text(fails)
    os.utime(cron.page, times=(time.time() - 700,) * 2)
    if cron.call()[:2] != (1, []):
        return f"an old page: {cron.call()}"
    cron.page.unlink()
    if cron.call()[:2] != (1, []):
        return f"no page: {cron.call()}"


def halts_no_other_app(cron):
    for app in ("tool", "editorx", "xeditor", "e.itor", "&quot;editor"):
        if (found := cron.halts(page(heading(app, "2.1")))) != NOT:
            return f"{app} fails: {found}"
    if (found := cron.halts(page(heading("editor", "2.1")), app="edito.")) != NOT:
        return f"edito.: {found}"
    for app in ("", "-x", "a b", "a/b", "$(id)"):
        if (found := cron.halts(page(heading("editor", "2.1")), app=app)) != (2, []):
            return f"the app {app!r}: {found}"


def takes_any_version(cron):
    """A version is a client's text, of which a step's reason has only plain characters."""
    hostile = "$(touch x)`touch x`\\n; &lt;\u202e&#39;&quot;*"
    cron.page.write_text(page(heading("editor", hostile)))
    status, calls, _ = cron.call()
    reason = calls[0].split(" --because ")[1] if calls else ""
    if status or not reason.isascii() or set(reason) & set("$`\\;&<'\"*()"):
        return f"{hostile}: {status} {calls}"
    if cron.call()[:2] != (0, []):
        return f"{hostile}, again: {cron.call()}"


def keeps_what_others_halted(cron):
    (cron.folder / "halted").write_text("halted editor\n")
    fails = page(heading("editor", "2.1"))
    if (found := cron.halts(fails)) != NOT:
        return f"halted already: {found}"
    (cron.folder / "halted").write_text("")
    if (found := cron.halts(fails)) != NOT:
        return f"resumed by an operator: {found}"


def tries_again(cron):
    """A halt that fails is called again, until a server has halted the app."""
    (cron.folder / "silent").touch()
    (cron.folder / "status").write_text("1\n")
    fails, down = page(heading("editor", "2.1")), (1, ["stage halt editor --operator 8081"])
    if (found := [cron.halts(fails) for _ in range(2)]) != [down] * 2:
        return f"no server replies: {found}"
    (cron.folder / "silent").unlink()
    if (found := [cron.halts(fails) for _ in range(3)]) != [(1, ONCE[1]), NOT, NOT]:
        return f"the files aren't halted: {found}"
    (cron.folder / "status").write_text("0\n")
    (cron.folder / "halted").write_text("")
    cron.page.write_text(fails)
    status, calls, printed = cron.call(kept="none/kept")
    if status or not calls or "can't be written" not in printed:
        return f"without a file: {status} {calls} {printed}"


def halting(folder):
    needs("flock", "awk")
    for check in (halts_once, halts_by_no_other_page, halts_no_other_app, takes_any_version,
                  keeps_what_others_halted, tries_again):
        if wrong := check(Cron(folder / f"cron-{check.__name__}")):
            return wrong


HALTING = {"examples/deploy: a halt by the page": halting}
