"""A folder of `stage` with the releases of the bad night (`page_logs.py`), its steps, and a server
of it whose quota is used up. And what a page has to say of them.
"""
import contextlib
import json
import socket
import time

from asking import Server, app, array, manifest, post, request
from page_logs import BAD_NIGHT_ENDS

QUOTA = 20
RULES = {
    "editor.rule": "when version < 2.1 and bucket(731) < 500 offer 1;\n"
    "when version < 2.0 offer 2;\notherwise none;\n",
    "viewer.rule": "when version < 5.1 and take(first, 0) offer 1;\notherwise none;\n",
}
# The minute of each step, and what its record has besides.
STEPS = [
    (510, {"action": {"put": "next.toml"}, "user": "ben", "because": "viewer 5.1: <20 machines>"}),
    (560, {"action": {"raise": {"appid": "editor", "buckets": 500}}, "user": "anna",
           "because": "2.1 to the first 5 %"}),
]
# What a page lists as offered, its quotas, and its steps but for their times, the newest first.
OFFERED = ["2.1 to 5 % of machines below 2.1", "else 2.0 to all below 2.0",
           "5.1 to all where version < 5.1 and take(first, 0)"]
GRANTED = ["first[0]", f"{QUOTA} of {QUOTA}", ""]
TAKEN = [["2", "raise editor 500", "anna", "2.1 to the first 5 %", "done"],
         ["1", "put next.toml", "ben", "viewer 5.1: <20 machines>", "done"]]
# The load whose digest is neither in place nor a step's, but for its time.
MARKED = ["6", "/tmp/m.toml no step explains it", "1"]


def made(folder):
    """Writes the folder, whose steps are as old as the bad night's minutes are."""
    two = app("editor", "editor.rule", "2.1")
    two += two[two.index("[[app.release]]"):].replace("2.1", "2.0")
    viewer = app("viewer", "viewer.rule", "5.1")
    (folder / ".stage").mkdir(parents=True, mode=0o700)
    text = manifest("prod-eu", array("first", 64, 1, QUOTA), two, viewer)
    for name, it in {**RULES, "current.toml": text}.items():
        (folder / name).write_text(it)
    for number, (minute, more) in enumerate(STEPS, 1):
        moment = int(time.time()) - 60 * (BAD_NIGHT_ENDS - minute)
        record = {"number": number, "time": moment, "version": 2, "files": [], "undone": False}
        (folder / ".stage" / f"{number}.json").write_text(json.dumps(record | more) + "\n")


def is_free(port):
    with contextlib.suppress(OSError), socket.create_server(("127.0.0.1", port)):
        return True
    return False


class Night(Server):
    """A server of the folder, at the usual port for operators if that is free."""

    def __init__(self, program, folder):
        made(folder)
        super().__init__(program, "current.toml", 1, cwd=folder)
        if is_free(8081):
            self.words[self.words.index(str(self.operator))] = "8081"
            self.operator = 8081
        self.options = ["--folder", folder, "--operator", str(self.operator)]

    def __enter__(self):
        super().__enter__()
        for _ in range(QUOTA):
            self.exchange(post(request("viewer")))
        return self


def misshown(dom, port):
    """What a page says otherwise than the folder and its server."""
    rows = dom.rows
    steps = [[it[0], *it[2:]] for it in rows if len(it) == 6]
    loads = [it[1:] for it in rows if len(it) == 4]
    for wanted, found in ((OFFERED, dom.items), ([GRANTED], [it for it in rows if len(it) == 3]),
                          (TAKEN, steps), ([MARKED], loads)):
        if missing := [it for it in wanted if it not in found]:
            return f"{missing} isn't in {found}"
    if f"rollout stage halt editor --operator {port}" not in dom.commands[:1]:
        return f"its commands are {dom.commands}"
    if f"The server at {port} serves generation 1" not in dom.facts:
        return f"its facts are {dom.facts}"
