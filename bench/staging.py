"""Checks `rollout stage` on a folder and its servers: what it changes, what it leaves, where it
stops, and what it says. Each check is a way in which a script that edited manifests did harm.
"""
import contextlib
import fcntl
import os
import socket
import socketserver
import subprocess
import threading
import time

from hosts import awaited, needs
from operating import BUILT, NOTHING, OFFERED, POSTED, Day

RELEASE = """[[app.release]]
version = "2.1"
codebase = "https://dl.example/"
[[app.release.package]]
name = "editor.zip"
hash_sha256 = "0af387e17bfc44803fbc51b0f76031f72440893adc9803b6990e84ba9542ecb2"
size = 48231044
required = true
"""
QUOTA = '[[array]]\nname = "first"\nwidth = 64\nlength = 1\nquota = 2\n'
REQUEST = '{"request":{"protocol":"3.1","app":[{"appid":"%s","version":"1.9","updatecheck":{}}]}}'
RULE = "when version < 2.1 and bucket(3) < %s offer 1;\notherwise none;\n"
NONE = "otherwise none;\n"
# `mov r0, 1` and `exit`; and with 0.
PROGRAM = bytes([0xB7, 0, 0, 0, 1, 0, 0, 0, 0x95, 0, 0, 0, 0, 0, 0, 0])
HALTED = bytes([0xB7, 0, 0, 0, 0, 0, 0, 0, 0x95, 0, 0, 0, 0, 0, 0, 0])
SAME = "the same for every machine\n"


def manifest(apps, arrays=""):
    """A manifest of apps: the line of each appid, and the line of its file."""
    return 'server = "prod"\n' + arrays + "".join(f"{app}\n{file}\n{RELEASE}" for app, file in apps)


EDITOR = ('[[app]]\nappid = "editor"', 'rule = "editor.rule"')


class Stage(Day):
    """A folder with a manifest and these files, and calls of `stage` in it."""

    def __init__(self, folder, apps=(EDITOR,), arrays="", program=BUILT, **files):
        super().__init__(folder, program)
        self.write("current.toml", manifest(apps, arrays))
        for name, text in ({"editor.rule": RULE % 500} | files).items():
            self.write(name, text)

    def write(self, name, text):
        (self.folder / name).parent.mkdir(exist_ok=True)
        (self.folder / name).write_bytes(text if isinstance(text, bytes) else text.encode())

    def bytes(self, name):
        return (self.folder / name).read_bytes()

    def text(self, name):
        return self.bytes(name).decode()

    def stage(self, words):
        """The output of a call, and then its status and errors if it isn't 0."""
        return self.run(f"rollout stage {words} --folder /etc/rollout")

    def all(self):
        """Each file of the folder with its bytes, but for programs and records."""
        found = (it for it in self.folder.iterdir() if it.is_file() and not it.is_symlink())
        return {it.name: it.read_bytes() for it in found}


def alone(it, words):
    return it.stage(f"{words} --no-load")


def steps(folder):
    """A raise, the same once more, a halt, and the way back; with a server and without."""
    it = Stage(folder / "stage")
    with it.served():
        calls = [
            ("raise editor 2500", ["none       2.1", "replaced editor.rule\n", "generation 2\n"]),
            ("raise editor 2500", ["the files are so already\n", "generation 3\n"]),
            ("halt editor", ["4, editor is halted\nreplaced editor", "5, halted: editor\n"]),
            ("halt editor", ["5, editor is halted\nthe files are so", "6, halted: editor\n"]),
            ("raise editor 5000", ["1 stage: editor.rule isn't raised: it halts the app"]),
            ("status", ["done step 2 of", "HALTED since", "generation 6, what is in place"]),
            ("back", ["1 stage: this lifts the halt of editor (--anyway continues);"]),
            ("back --anyway", ["none       2.1", "undone step 2 of", "editor is offered again\n"]),
            ("raise editor 100", ["lost", "1 stage: a row is lost"]),
            ("raise editor 100 --anyway --dry-run", ["would replace editor.rule\n"]),
            ("back", ["lost", "1 stage: a row is lost"]),
            ("back --anyway", ["undone step 1 of", "generation 9\n"]),
            ("back", ["1 stage: no step is left to be undone; nothing has changed\n"]),
            ("halt nobody", ["B8 App", "stage: current.toml has no app nobody, only editor;"]),
        ]
        for words, wanted in calls:
            printed = it.stage(f"{words} --operator 8081")
            if lost := [text for text in wanted if text not in printed]:
                return f"{words}: {printed!r} lacks {lost}"
    if it.bytes("editor.rule") != (RULE % 500).encode():
        return "back: the rule isn't as before"
    printed = it.stage("halt editor --operator 8081")
    if "not loaded at 18098" not in printed or it.bytes("editor.rule") != NONE.encode():
        return f"without a server: {printed!r}"


def halts_any_rule(folder):
    """A rule by day and attribute is halted, as is a program, whatever the form of its TOML."""
    needs("curl")
    rule = 'when today >= 7000 and attr ap is "" and bucket mod 4 < 4 offer 1;\notherwise none;\n'
    apps = [("[[ app ]]\nappid = 'editor'", 'rule = "editor.rule"')]
    apps += [('[[app]]\n"appid" = "agent"', 'program="a/agent.bin"')]
    it = Stage(folder / "any", apps, **{"editor.rule": rule, "a/agent.bin": PROGRAM})
    with it.served():
        for app in ("editor", "agent"):
            if OFFERED not in (printed := it.run(POSTED, REQUEST % app)):
                return f"before: {printed}"
            if "generation" not in (printed := it.stage(f"halt {app} --operator 8081")):
                return f"halt {app}: {printed}"
            if NOTHING not in (printed := it.run(POSTED, REQUEST % app)):
                return f"after halt {app}: {printed}"
    if (it.bytes("editor.rule"), it.bytes("a/agent.bin")) != (NONE.encode(), HALTED):
        return "a file isn't the halting one"


def both_servers(folder):
    """Two servers of one folder are halted by one call, and one of them by a second call."""
    needs("curl")
    it = Stage(folder / "both", **{"editor.rule": RULE % 10000})
    ask = POSTED.replace("8080", "18107")
    words = it.words("exec rollout serve current.toml --port 18107 --operator 18108 --workers 1")
    with it.served(), subprocess.Popen(words, stdout=subprocess.DEVNULL, **it.place()) as second:
        try:
            if not awaited(lambda: OFFERED in it.run(f"{ask} || :", REQUEST % "editor")):
                return "the second server doesn't offer"
            for ports in ("--operator 8081", "--operator 8081 --operator 18108"):
                printed = it.stage(f"halt editor {ports}")
                if printed.count("generation") != 2 * ports.count("--"):
                    return f"{ports}: {printed}"
            if NOTHING not in (printed := it.run(ask, REQUEST % "editor")):
                return f"the second server: {printed}"
            printed = it.stage("halt editor --operator 18199 --operator 18108")
            parts = ("not loaded at 18199;", "server at 18108: generation")
            if not all(part in printed for part in parts):
                return f"one server doesn't reply: {printed}"
            if "other apps" in (printed := it.stage("status --operator 18108")):
                return f"status: {printed}"
        finally:
            second.kill()


def wrong_served(it, calls):
    """The first of these calls whose status isn't the wanted one, or whose output lacks a text."""
    for words, status, wanted in calls:
        printed = it.run(f"rollout {words}")
        has_failed = "\n1 " in printed or printed.startswith("1 ")
        if wanted not in printed or has_failed != (status == 1):
            return f"{words}: {printed!r}, not {wanted!r}"
    return None


def what_is_served(folder):
    """A status knows whether a server has what is in place, and else which step's files."""
    it = Stage(folder / "served")
    with it.served():
        calls = (
            ("stage status", 0, "generation 1, what is in place\n"),
            ("stage raise editor 2500", 0, "generation 2\n"),
            ("stage raise editor 4000 --no-load", 0, "replaced editor.rule\n"),
            ("stage status", 1, "generation 2, step 1, not what is in place: load it\n"),
            ("load /etc/rollout/current.toml", 0, "generation 3\n"),
            ("stage status", 0, "generation 3, what is in place\n"),
            ("stage status --log server.log", 0, "what is in place was loaded last\n"),
            ("stage put /etc/rollout/current.toml", 0, "generation 4\n"),
        )
        return wrong_served(it, [(f"{words} --operator 8081", *more) for words, *more in calls])


@contextlib.contextmanager
def older(lacking=(b"state", b"halt", b"resume"), refusal=b"refused B1 Word\n"):
    """The operator's port of a server without some words: the others are those of the server at
    18098."""

    class Handler(socketserver.StreamRequestHandler):
        def handle(self):
            line = self.rfile.readline()
            if line.split()[0] in lacking:
                self.wfile.write(refusal)
                return
            with socket.create_connection(("127.0.0.1", 18098)) as server:
                server.sendall(line)
                while reply := server.recv(65536):
                    self.wfile.write(reply)

    with socketserver.ThreadingTCPServer(("127.0.0.1", 0), Handler) as server:
        threading.Thread(target=server.serve_forever, daemon=True).start()
        try:
            yield server.server_address[1]
        finally:
            server.shutdown()


def older_server(folder):
    """Of an older server a status knows the last load by `stage`. If another command loaded, the
    status says so, and the server's log decides. A halt is there by its load. A page of a report
    has its counters only."""
    it = Stage(folder / "older")
    it.write("agent.toml", manifest([('[[app]]\nappid = "agent"', 'rule = "editor.rule"')]))
    unsure = "the apps in place; only its log shows which rules it loaded (--log LOG)\n"
    with it.served(), older() as port:
        calls = (
            ("stage status", 1, f"generation 1, {unsure}"),
            ("stage raise editor 2500", 0, "generation 2\n"),
            ("stage status", 0, "generation 2, what is in place unless restarted since\n"),
            ("stage raise editor 4000 --no-load", 0, "replaced editor.rule\n"),
            ("stage status", 1, "generation 2, not what is in place: load it\n"),
            ("load /etc/rollout/current.toml", 0, "generation 3\n"),
            ("stage status", 1, f"generation 3, {unsure}"),
            ("stage status --log server.log", 0, "what is in place was loaded last\n"),
            ("stage halt editor 2>&1", 0, "it is older, and halts editor by a load alone\n"),
            ("load /etc/rollout/agent.toml", 0, "generation 5\n"),
            ("stage status", 1, "generation 5, other apps than those in place: load it\n"),
            ("report server.log --html page.html", 0, ""),
        )
        if w := wrong_served(it, [(f"{words} --operator {port}", *more) for words, *more in calls]):
            return w
        if f"at {port} is an older one, and says only its counters. " not in it.text("page.html"):
            return "the page doesn't say that the server is older"


def halts_left(folder):
    """A server that loads the files, but doesn't end the app's halt, is named."""
    it = Stage(folder / "left")
    with it.served(), older([b"resume"], b"refused B8 App\n") as port:
        it.stage(f"halt editor --operator {port}")
        printed = it.stage(f"resume editor --operator {port}")
        wanted = "refused B8 App: editor may stay halted there: call rollout resume editor\n"
        if f"1 server at {port}: {wanted}" not in printed:
            return printed


def unread_files(folder):
    """A page says how many apps' files aren't read, once those before have over 64 MiB in all."""
    apps = [(f'[[app]]\nappid = "a{n}"', 'rule = "long.rule"') for n in range(12)]
    it = Stage(folder / "long", apps, **{"long.rule": bytes(1 << 23), "some.log": ""})
    it.run(f"rollout report some.log --html page.html --folder {it.folder}")
    if "of 3 further apps aren&#39;t read: those before are too long" not in it.text("page.html"):
        return "the page doesn't say which files aren't read"


def other_manifest(folder):
    """A server of another manifest is loaded only by --other-server. The load says which apps are
    gone. Its port is that of ROLLOUT_OPERATOR, if no option names one. Usage has the launcher's
    name."""
    it = Stage(folder / "other", [('[[app]]\nappid = "agent"', 'rule = "editor.rule"')])
    served = Stage(folder / "editors")
    with served.served():
        printed = it.run("ROLLOUT_OPERATOR=8081 rollout stage halt agent")
        parts = ("not loaded, it is another one: it serves editor", "\n1 ")
        if not all(part in printed for part in parts):
            return f"another server: {printed!r}"
        printed = it.run("rollout stage put current.toml --operator 8081")
        if "1 stage: server at 18098 is another one: it serves editor, loaded" not in printed:
            return f"another server, by a put: {printed!r}"
        printed = it.run("ROLLOUT_OPERATOR=8081 rollout stage halt agent --other-server 2>&1")
        if "generation 2\n" not in printed or "server at 18098: apps gone: editor\n" not in printed:
            return f"ROLLOUT_OPERATOR: {printed!r}"
        printed = it.run("ROLLOUT_OPERATOR=1 rollout stage status --operator 8081")
        if "generation 2, what is in place\n" not in printed:
            return f"--operator: {printed!r}"
        if "server at 1:" in printed:
            return f"ROLLOUT_OPERATOR beside --operator: {printed!r}"
        it.write("wrong.toml", "server = 1\n")
        printed = it.run("rollout load /etc/rollout/wrong.toml --operator 8081")
        hint = f"rollout check {it.folder}/wrong.toml prints the place and the reason"
        if printed != f"1 refused M2 Field\n{hint}\n":
            return f"a refused load: {printed!r}"
        with older([b"load"], b"refused B3 File\n") as port:
            printed = it.run(f"rollout load /etc/rollout/current.toml --operator {port}")
        if printed != "1 refused B3 File\nthe server's user can't read what this one can\n":
            return f"a load that only the server's user can't read: {printed!r}"
    if "Usage: rollout stage " not in (printed := it.run("rollout stage --help")):
        return printed


def used_quota(folder):
    """A quota that is used up is named, and that a raise gives nobody more."""
    needs("curl")
    rule = "when version < 2.1 and bucket(3) < 5000 and take(first, 0) offer 1;\notherwise none;\n"
    it = Stage(folder / "quota", arrays=QUOTA, **{"editor.rule": rule})
    with it.served():
        for bucket in range(0, 10000, 400):
            body = REQUEST.replace('"version"', f'"cohort":"b:{bucket:04}","version"')
            it.run(POSTED, body % "editor")
        printed = it.stage("raise editor 10000 --operator 8081")
        if ": used up\n" not in printed or SAME not in printed or "lost" in printed:
            return printed
        if " of 2: used up\n" not in (printed := it.stage("status --operator 8081")):
            return f"status: {printed}"


def lifted(folder):
    """A manifest from elsewhere that would lift a halt stops by its name; one that halts, too,
    doesn't, and one that differs replaces what differs, the manifest last."""
    it = Stage(folder / "lifted")
    elsewhere = Stage(folder / "elsewhere", **{"editor.rule": RULE % 2500})
    put = f"put {elsewhere.folder}/current.toml"
    alone(it, "halt editor")
    before = it.all()
    if "1 stage: this lifts the halt of editor" not in (printed := alone(it, put)):
        return printed
    if it.all() != before:
        return "a stopped put has changed a file"
    elsewhere.write("editor.rule", NONE)
    if "the files are so already\n" not in (printed := alone(it, put)):
        return f"with a halt: {printed}"
    elsewhere.write("editor.rule", RULE % 2500)
    if "replaced editor.rule\n" not in (printed := alone(it, f"{put} --anyway")):
        return f"--anyway: {printed}"
    elsewhere.write("current.toml", manifest([EDITOR], "# a comment\n"))
    elsewhere.write("editor.rule", RULE % 5000)
    if "replaced editor.rule\nreplaced current.toml\n" not in (printed := alone(it, put)):
        return f"two files: {printed}"
    alone(it, "back --anyway")
    if it.bytes("editor.rule") != (RULE % 2500).encode() or b"# a" in it.bytes("current.toml"):
        return "back hasn't restored both files"


def elsewhere_stays(folder):
    """A folder that isn't there stops the call, and the working folder stays as it is."""
    it = Stage(folder / "here")
    before = it.all()
    for words in ("halt editor", "raise editor 2500", "back", f"put {it.folder}/current.toml"):
        printed = it.run(f"rollout stage {words} --no-load --folder /etc/rolloutt")
        if "1 stage:" not in printed or "no such folder" not in printed:
            return f"{words}: {printed}"
    if it.all() != before or (it.folder / ".stage").exists():
        return "the working folder has changed"


def other_files_stay(folder):
    """No file is changed but the app's own, whatever it is called; a dry run changes none."""
    apps = [("[[app]]\nappid = 'editor'", "rule = 'stage-2.rule'")]
    apps += [("[[app]]\nappid = 'editor: beta'", "rule = 'x=1.rule'")]
    texts = 'when attr ap is "#1" and bucket < 500 offer 1;\nwhen bucket < 300 offer 1;\n' + NONE
    files = {"stage-2.rule": RULE % 500, "x=1.rule": RULE % 700, "stage-1.toml": "old"}
    it = Stage(folder / "files", apps, **files)
    before = it.all()
    for words in ("raise editor 2500", "halt 'editor: beta'"):
        alone(it, f"{words} --dry-run")
        if it.all() != before:
            return f"{words} --dry-run has changed a file"
    for words, name, text in (
        ("halt editor", "stage-2.rule", NONE),
        ("raise 'editor: beta' 2500", "x=1.rule", RULE % 2500),
    ):
        printed = alone(it, words)
        before[name] = text.encode()
        if it.all() != before:
            return f"{words}: {printed}"
    it.write("x=1.rule", texts)
    if "isn't as step 2 left it" not in (printed := alone(it, "raise 'editor: beta' 2500")):
        return f"edited: {printed}"
    if "several tests" not in (printed := alone(it, "raise 'editor: beta' 2500 --anyway")):
        return f"two tests: {printed}"


def links_stay(folder):
    """Nothing is written through a link: not through an app's file, a folder or the records."""
    it = Stage(folder / "links", [("[[app]]\nappid = 'editor'", "rule = 'linked/editor.rule'")])
    outside = folder / "outside"
    outside.mkdir()
    (outside / "editor.rule").write_text(RULE % 500)
    (it.folder / "linked").symlink_to(outside)
    for words in ("halt editor", "raise editor 2500"):
        if "1 stage:" not in (printed := alone(it, words)) or "link" not in printed:
            return f"{words}: {printed}"
    it.write("current.toml", manifest([EDITOR]))
    (it.folder / ".stage").symlink_to(outside)
    printed = alone(it, "halt editor")
    if "1 stage:" not in printed or len(list(outside.iterdir())) != 1:
        return f".stage: {printed}"
    if (outside / "editor.rule").read_text() != RULE % 500:
        return "a linked file has changed"


def one_at_a_time(folder):
    """A second call is refused while the first is at work, but a halt waits for it; one file of two
    apps is named."""
    it = Stage(folder / "lock")
    alone(it, "raise editor 600")
    (it.folder / ".stage" / "at_work").write_text("put a.toml by anna, pid 4711, since 12:04")
    held = os.open(it.folder, os.O_RDONLY)
    fcntl.flock(held, fcntl.LOCK_EX)
    printed = alone(it, "raise editor 700")
    parts = ("at work here", "(put a.toml by anna, pid 4711, since 12:04);")
    if not all(part in printed for part in parts):
        return printed
    words = it.words("rollout stage halt editor --folder /etc/rollout --no-load")
    with subprocess.Popen(words, stdout=subprocess.PIPE, text=True, **it.place()) as halt:
        time.sleep(1)
        os.close(held)
        if "replaced editor.rule\n" not in (printed := halt.communicate()[0]):
            return f"a halt that waits: {printed}"
    if (it.folder / ".stage" / "at_work").read_text():
        return "the note stays after the call"
    alone(it, "back --anyway")
    twice = [EDITOR, ('[[app]]\nappid = "other"', 'rule = "./editor.rule"')]
    it.write("current.toml", manifest(twice))
    for words in ("halt editor", "raise editor 2500"):
        if "the file of app other, too" not in (printed := alone(it, words)):
            return f"{words}: {printed}"
    if "replaced editor.rule\n" not in (printed := alone(it, "halt editor --anyway")):
        return f"--anyway: {printed}"


def in_the_way(it, name):
    """No new file can be made next to this one: the names that a new one gets are taken."""
    for number in range(100):
        it.write(f"{name}.{number}.new", "")


def stops_truly(folder):
    """A stop that says that nothing has changed is right; one after a change says what to do."""
    apps = [EDITOR, ('[[app]]\nappid = "other"', 'rule = "other.rule"')]
    it = Stage(folder / "stops", apps, **{"other.rule": RULE % 500})
    next_one = Stage(folder / "next", apps, **{"other.rule": RULE % 900, "editor.rule": RULE % 900})
    in_the_way(it, "other.rule")
    printed = alone(it, f"put {next_one.folder}/current.toml")
    if "1 stage: the step stopped at other.rule: " not in printed:
        return f"the second file: {printed}"
    if it.bytes("editor.rule") != (RULE % 900).encode():
        return "the first file isn't replaced"
    if "stopped step 1 of" not in (printed := alone(it, "status")):
        return f"status: {printed}"
    for number in range(100):
        (it.folder / f"other.rule.{number}.new").unlink()
    printed = alone(it, f"put {next_one.folder}/current.toml")
    if "isn't as step 1 left it" not in printed:
        return f"again: {printed}"
    rest = f"put {next_one.folder}/current.toml --anyway"
    if "replaced other.rule\n" not in (printed := alone(it, rest)):
        return f"the rest: {printed}"
    printed = alone(it, "status")
    if "stopped step 1 of" not in printed or "done step 2 of" not in printed:
        return f"status of both: {printed}"
    in_the_way(it, ".stage/2.json")
    printed = alone(it, "back --anyway")
    if "\nstage: the files are restored, but .stage can't be written: " not in printed:
        return f"the record: {printed}"
    if "nothing has changed" in printed or it.bytes("other.rule") != (RULE % 500).encode():
        return f"the file isn't restored: {printed}"
    for number in range(100):
        (it.folder / f".stage/2.json.{number}.new").unlink()
    if "undone step 2 of" not in (printed := alone(it, "back --anyway")):
        return f"back again: {printed}"


def halts_in_trouble(folder):
    """The servers halt an app though the folder refuses the step, or they refuse its manifest."""
    needs("curl")
    apps = [EDITOR, ('[[app]]\nappid = "other"', 'rule = "other.rule"')]
    it = Stage(folder / "trouble", apps, **{"other.rule": RULE % 9, "editor.rule": RULE % 10000})

    def wrong(case, wanted):
        printed = it.stage("halt editor --operator 8081")
        if ", editor is halted\n" not in printed or "\n1 " not in printed or wanted not in printed:
            return f"{case}: {printed}"
        if NOTHING not in (printed := it.run(POSTED, REQUEST % "editor")):
            return f"{case}: offered: {printed}"
        it.run("rollout resume editor --operator 8081")
        if OFFERED not in (printed := it.run(POSTED, REQUEST % "editor")):
            return f"{case}: not offered again: {printed}"
        return None

    with it.served():
        held = os.open(it.folder, os.O_RDONLY)
        fcntl.flock(held, fcntl.LOCK_EX)
        locked = wrong("another call", "wait until it has ended; no file has changed\n")
        os.close(held)
        in_the_way(it, "editor.rule")
        full = wrong("a stopped step", "stage: halted until rollout resume at 18098")
        for number in range(100):
            (it.folder / f"editor.rule.{number}.new").unlink()
        it.write("other.rule", "no rule")
        refused = wrong("another app's rule", "is halted there all the same (--anyway loads it")
        it.write("other.rule", RULE % 9)
        it.stage("back --anyway --no-load")
    return locked or full or refused


def drifts(folder):
    """An action stops if a server serves an earlier step, or something of no step, or if a file was
    edited since; rows begin with what is served."""
    it = Stage(folder / "drifts")
    mends = "rollout load"
    with it.served():
        alone(it, "raise editor 2500")
        printed = it.stage("raise editor 5000 --operator 8081")
        if "1 stage: server at 18098 serves what was there before the first step" not in printed:
            return f"an earlier step: {printed}"
        if mends not in printed or it.bytes("editor.rule") != (RULE % 2500).encode():
            return f"nothing has changed: {printed}"
        printed = it.stage("raise editor 5000 --operator 8081 --anyway")
        if "from what the server at 18098 serves" not in printed or ">= 500 and" not in printed:
            return f"--anyway: {printed}"
        it.write("editor.rule", RULE % 9000)
        printed = it.stage("raise editor 9500 --operator 8081")
        if "1 stage: editor.rule was edited since step 2" not in printed:
            return f"an edited file: {printed}"
        other = Stage(folder / "drifted", **{"editor.rule": RULE % 6000})
        printed = it.stage(f"put {other.folder}/current.toml --operator 8081")
        if ">= 5000 and bucket(3) < 6000" not in printed or "lost" in printed:
            return f"a put: {printed}"
        it.run(f"rollout load {other.folder}/current.toml --operator 8081")
        other.write("editor.rule", RULE % 6500)
        it.run(f"rollout load {other.folder}/current.toml --operator 8081")
        printed = it.stage("raise editor 7000 --operator 8081")
        today = time.strftime("%Y-%m-%dT", time.gmtime())
        known = "serves what no step is known to have left, loaded"
        if f"1 stage: server at 18098 {known} {today}" not in printed:
            return f"of no step: {printed}"


def resumes(folder):
    """A halted app is resumed by the rule before its halt, cut to a share, at servers and in the
    files; and a lone halt at a server isn't lifted."""
    needs("curl")
    rule = RULE.replace("(3)", "")
    it = Stage(folder / "resumes", **{"editor.rule": rule % 10000})
    with it.served():
        it.stage("halt editor --operator 8081")
        printed = it.stage("resume editor 1% --operator 8081")
        wanted = ["none       2.1", "from before the halt:\n", "replaced editor.rule\n"]
        wanted += ["editor is offered again\n"]
        if lost := [text for text in wanted if text not in printed]:
            return f"resume: {printed!r} lacks {lost}"
        if it.bytes("editor.rule") != (rule % 100).encode():
            return "the rule isn't cut"
        body = REQUEST.replace('"version"', '"cohort":"b:0000","version"')
        if OFFERED not in (printed := it.run(POSTED, body % "editor")):
            return f"not offered: {printed}"
        if "1 stage: editor isn't halted by a step" not in (printed := alone(it, "resume editor")):
            return f"resume again: {printed}"
        printed = it.run("rollout halt editor --operator 8081 2>&1")
        if "unless it has --counters: rollout stage halt editor keeps it\n" not in printed:
            return f"a halt without its note: {printed}"
        printed = it.stage("raise editor 200 --operator 8081")
        if NOTHING not in (printed := it.run(POSTED, body % "editor")):
            return f"a server's halt is lifted: {printed}"


STAGES = {
    "stage: raise, halt, back": steps,
    "stage: any rule and program is halted": halts_any_rule,
    "stage: both servers of a folder": both_servers,
    "stage: a halt in trouble": halts_in_trouble,
    "stage: servers that serve something else": drifts,
    "stage: resume": resumes,
    "stage: what a server serves": what_is_served,
    "stage: an older server": older_server,
    "stage: a server that doesn't end a halt": halts_left,
    "stage: files that aren't read": unread_files,
    "stage: a server of another manifest": other_manifest,
    "stage: a quota that is used up": used_quota,
    "stage: a halt isn't lifted": lifted,
    "stage: a stop says whether anything has changed": stops_truly,
    "stage: a folder that isn't there": elsewhere_stays,
    "stage: other files stay": other_files_stay,
    "stage: links": links_stay,
    "stage: one call at a time, one file an app": one_at_a_time,
}
