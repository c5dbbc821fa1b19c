"""Other hands: edits of files, commands to a server, restarts, damaged records; and looks."""
import json

from nightly.draws import draw_file, draw_manifest, put_elsewhere
from nightly.night import NUMBERED
from nightly.rules import NOTHING, load_of
from nightly.served import untrue_words
from nightly.servers import run

BAD = {"rule": b"no rule\n", "program": b"12345"}


def looks(night):
    """`status` says which server serves what is in place, and what is halted."""
    ports = [f"--operator={it.operator}" for it in night.servers]
    words = ["stage", "status", "--folder", str(night.folder), *ports]
    status, output, errors = run(night, [str(night.programs / "rollout-tools"), *words])
    night.note("\n".join(f"    {it}" for it in f"status = {status}\n{output}{errors}".splitlines()))
    load, is_same = night.load(), True
    for it in night.servers:
        halts = f", halted: {', '.join(it.halts)}" if it.halts else ""
        line = f"server at {it.operator}: generation {it.generation}, what is in place{halts}\n"
        is_served = it.is_up and load is not None and it.load == load
        is_same = is_same and is_served
        if is_served != (line in output):
            night.wrong(f"status: {'no' if is_served else 'untrue'} {line}")
    if any(it.is_damaged for it in night.steps):
        return
    for text in untrue_words(night, output + errors):
        night.wrong(text)
    is_as_left = night.is_as_left()
    if status != (0 if is_same and is_as_left else 1):
        night.wrong(f"status: {status}, though served is what is in place: {is_same}, "
                    f"and the last step's files are as it left them: {is_as_left}")
    for app in load.apps if load else ():
        is_halted = load.file_of(app.appid) == NOTHING[app.kind]
        is_step = any(it.action == f"halt {app.appid}" and not it.is_undone for it in night.steps)
        lines = [it for it in output.splitlines() if it.split(" ")[0] == app.appid]
        if len(lines) != 1 or ("HALTED since" in lines[0]) != (is_halted and is_step):
            night.wrong(f"status of {app.appid}: {lines}, though halted: {is_halted}")
    words = ["stage", "history", "--folder", str(night.folder), "--no-load"]
    _, history, errors = run(night, [str(night.programs / "rollout-tools"), *words])
    if NUMBERED.sub(r"\1\2: \3", history).splitlines() != [night.line_of(it) for it in night.steps]:
        night.wrong(f"history: {history}{errors}")
    for it in night.steps[-3:]:
        if night.line_of(it) not in NUMBERED.sub(r"\1\2: \3", output):
            night.wrong(f"status lacks {night.line_of(it)}")


def edits(night):
    """Somebody edits a file by hand."""
    load, chance = night.load_without_faults(), night.chance
    if load is None or chance.random() < 0.15:
        files = draw_manifest(chance)
        for name, text in files.items():
            night.write(name, text)
        return night.note(f"edit: {sorted(files)}")
    app = chance.choice(load.apps)
    text = draw_file(chance, app.kind) if chance.random() < 0.75 else BAD[app.kind]
    night.write(app.file, text)
    return night.note(f"edit: {app.file} is {text!r}")


def restores(night):
    """Somebody mends what is in place, by what a server has, or by new files."""
    up = [it.load for it in night.servers if it.is_up]
    if night.load() is not None:
        return night.note("nothing has to be mended")
    files = draw_manifest(night.chance)
    if up:
        files = {it.file: text for it, text in zip(up[0].apps, up[0].files)}
        files["current.toml"] = up[0].text
    for name, text in files.items():
        night.write(name, text)
    return night.note("edit: files that are right")


def halts_or_resumes(night):
    """`rollout halt` and `rollout resume` at one server."""
    server = night.chance.choice(night.servers)
    load = night.load_without_faults()
    app = night.chance.choice(load.appids() if load else ["editor"])
    word = night.chance.choice(("halt", "halt", "resume"))
    words = [word, app, "--operator", str(server.operator)]
    status, output, errors = run(night, [str(night.programs / "rollout"), *words])
    night.note(f"rollout {' '.join(words)}\n    = {status} {output}{errors}")
    if not server.is_up:
        wanted = (1, "")
    elif app not in (*server.load.appids(), *server.halts):
        wanted = (1, "")
        if "refused B8 App" not in errors:
            night.wrong(f"no B8: {errors}")
    else:
        if (word == "halt") != (app in server.halts):
            server.generation += 1
            server.halts = [app, *server.halts] if word == "halt" else [
                it for it in server.halts if it != app]
        wanted = (0, f"generation {server.generation}\n")
    if (status, output) != wanted:
        night.wrong(f"{word}: {status} {output!r}, not {wanted}")


def loads(night):
    """`rollout load` of what is in place, or of a manifest from elsewhere, at one server."""
    server = night.chance.choice(night.servers)
    files, path = night.files, night.folder / "current.toml"
    if night.chance.random() < 0.4:
        files = draw_manifest(night.chance)
        path = put_elsewhere(night, files)
    words = ["load", str(path), "--operator", str(server.operator)]
    status, output, errors = run(night, [str(night.programs / "rollout"), *words])
    night.note(f"rollout {' '.join(words)}\n    = {status} {output}{errors}")
    load, wanted = load_of(files), (1, "")
    if server.is_up and load:
        server.load, server.path, server.generation = load, path, server.generation + 1
        wanted = (0, f"generation {server.generation}\n")
    if (status, output) != wanted:
        night.wrong(f"load: {status} {output!r}, not {wanted}")


def restarts(night):
    """A server is stopped or killed, and mostly started again."""
    server = night.chance.choice(night.servers)
    is_killed = night.chance.random() < 0.5
    night.note(f"server at {server.operator} is {'killed' if is_killed else 'stopped'}")
    server.end(is_killed)
    if night.chance.random() < 0.8:
        starts(night)


def starts(night):
    for server in night.servers:
        if not server.is_up:
            server.begin()
            night.note(f"server at {server.operator} starts: {server.is_up}")


def damages(night):
    """A record is cut, or written as an older version wrote it; a cut one is mended later."""
    cut = [it for it in night.steps if it.is_damaged]
    if not night.steps:
        return night.note("no record is there")
    step = cut[0] if cut else night.chance.choice(night.steps)
    path = night.folder / ".stage" / f"{step.number}.json"
    if cut:
        path.write_text(step.kept)
        step.is_damaged = False
        return night.note(f"record {step.number} is mended")
    step.kept = path.read_text()
    if night.chance.random() < 0.5:
        path.write_text(step.kept[: night.chance.randrange(len(step.kept) - 1)])
        step.is_damaged = True
        return night.note(f"record {step.number} is cut")
    older = json.loads(step.kept)
    for name in ("user", "because", "version"):
        older.pop(name, None)
    if {"resume", "halt_release"} & {*older["action"]}:
        return night.note("older versions know no such step")
    path.write_text(json.dumps(older, separators=(",", ":")) + "\n")
    step.by = step.because = ""
    return night.note(f"record {step.number} is as an older version wrote it")
