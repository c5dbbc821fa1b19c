"""What operators do, drawn at random: manifests, rules, calls of `stage`."""
from nightly.calls import Call
from nightly.rules import NOTHING, PROGRAMS, RELEASES, App, manifest, rule

SHARES = ("1%", "100", "5%", "500", "10%", "2500", "50%", "10000")
EDITOR, TOOL = App("editor", "editor.rule"), App("tool", "tool.rule")
AGENT, MORE = App("agent", "agent.bin", "program"), App("extra", "rules/extra.rule")
WORDS = ("raise", "raise", "put", "put", "halt", "halt", "resume", "back", "back")


def draw_rule(chance):
    n, more = chance.choice((100, 500, 2500, 10000)), chance.choice((200, 5000))
    return chance.choice((
        rule((f"version < 2.1 and bucket < {n}", 1)),
        rule((f"version < 2.1 and bucket < {n}", 1)),
        rule((f"bucket < {n} and version < 3.0", 2), ("version < 2.1", 1)),
        rule((f"version < 3.0 and bucket < {n}", 2), (f"version < 2.1 and bucket < {more}", 1)),
        rule(("version < 2.1", 1)),
        rule(("version == 3.0", 1), (f"version < 2.1 and bucket < {n}", 1)),
        NOTHING["rule"],
    ))


def draw_file(chance, kind):
    return draw_rule(chance) if kind == "rule" else chance.choice([*PROGRAMS])


def draw_manifest(chance):
    """The files of a manifest, by their names."""
    apps = [EDITOR, TOOL, AGENT][: chance.choice((1, 2, 2, 3, 3))]
    apps += [MORE] if chance.random() < 0.15 else []
    if chance.random() < 0.05 and TOOL in apps:
        apps[apps.index(TOOL)] = App("tool", "editor.rule")
    files = {it.file: draw_file(chance, it.kind) for it in apps}
    return files | {"current.toml": manifest(apps, chance.choice(("", "", "a", "b")))}


def near_manifest(night):
    """The files in place with one of them drawn anew."""
    load = night.load()
    if load is None:
        return draw_manifest(night.chance)
    files = {it.file: text for it, text in zip(load.apps, load.files)}
    app = night.chance.choice(load.apps)
    files[app.file] = draw_file(night.chance, app.kind)
    return files | {"current.toml": load.text}


def put_elsewhere(night, files):
    """The path of a manifest with these files in a folder of its own."""
    number = len(list(night.room.glob("next-*")))
    folder = night.room / f"next-{number}"
    for name, text in files.items():
        (folder / name).parent.mkdir(parents=True, exist_ok=True)
        (folder / name).write_bytes(text)
    return folder / "current.toml"


def draw_call(night):
    chance = night.chance
    load = night.load_without_faults()
    apps = load.appids() if load else ["editor"]
    word = chance.choice(WORDS)
    halted = [it.appid for it in night.steps if it.is_halt()]
    it = Call(word, by=chance.choice(("anna", "ben")))
    if word in ("raise", "halt", "resume"):
        likely = halted if word == "resume" and halted else apps
        it.appid = chance.choice(likely) if chance.random() < 0.95 else "nobody"
    if word == "raise" or word == "resume" and chance.random() < 0.5:
        it.share = chance.choice(SHARES)
    if word == "halt" and chance.random() < 0.35:
        it.version = chance.choice((*RELEASES, *RELEASES, "3.0.0"))
    if word == "put":
        draw_source(night, it)
    it.servers = list(night.servers)
    if len(it.servers) == 2 and chance.random() < 0.25:
        it.servers = [chance.choice(it.servers)]
    it.anyway, it.no_load = chance.random() < 0.45, chance.random() < 0.12
    it.dry_run, it.other_server = chance.random() < 0.1, chance.random() < 0.1
    it.because = chance.choice(("", "", "crash at start"))
    return it


def draw_source(night, call):
    """What a put is of: a manifest from elsewhere, what is in place, or what a server has."""
    drawn = night.chance.random()
    up = [it.load for it in night.servers if it.is_up]
    if drawn < 0.15 and "current.toml" in night.files:
        call.source, call.path = dict(night.files), str(night.folder / "current.toml")
        return
    if drawn < 0.3 and up:
        load = night.chance.choice(up)
        call.source = {it.file: text for it, text in zip(load.apps, load.files)}
        call.source["current.toml"] = load.text
    else:
        call.source = near_manifest(night) if drawn < 0.75 else draw_manifest(night.chance)
    call.path = str(put_elsewhere(night, call.source))
