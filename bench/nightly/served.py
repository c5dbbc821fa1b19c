"""What servers serve, by the steps that left it. And whether it is so what is printed of servers,
and of files that were edited."""
import re

from nightly.rules import KNOWN, load_of

SERVES = re.compile(
    r"^(?:stage: )?server at (\d+)(?: serves|: generation \d+,|: not loaded, it serves) "
    r"(step \d+|what was there before the first step|what stage loaded last|"
    r"what no step is known to have left)\b",
    re.M,
)
FIRST, UNDONE, OTHER = (
    "what was there before the first step", "what stage loaded last",
    "what no step is known to have left",
)
SINCE = re.compile(r"(\S+) was edited since step (\d+), which the server at (\d+) serves")
UNLIKE = re.compile(r"(\S+) isn't as step (\d+) left it")
STATES = re.compile(r"(\S+) of step (\d+) (isn't replaced yet|was edited since)")


def left_by_steps(night):
    """The files as the last step left them, whatever was edited since."""
    files = dict(night.files)
    for step in reversed(night.steps):
        files |= step.before
    for step in night.steps:
        files |= {} if step.is_undone else step.after
    return {name: text for name, text in files.items() if text is not None}


def known_apps(night, plan):
    """The apps in place before a call and after it."""
    texts = [night.files.get("current.toml"), plan.files.get("current.toml")]
    return {it.appid for text in texts for it in KNOWN.get(text, ())}


def left_by_each(night):
    """What was in place before the first step and after each, by the records of those that aren't
    undone: a file is as the next step found it that has it, or else as the last one left it."""
    done = [it for it in night.steps if not it.is_undone and not it.is_damaged]
    for place in range(len(done) + 1):
        files = dict(night.files)
        for step in done[:place]:
            files |= step.after
        for step in reversed(done[place:]):
            files |= step.before
        yield load_of({name: text for name, text in files.items() if text is not None})


def is_other(night, known, server):
    """Whether a server has an app that isn't known in this folder, and serves what no step left;
    None if a step left it that is undone, or before a file was edited that no step has."""
    if not set(server.load.appids()) - known or server.load in left_by_each(night):
        return False
    return None if server.load in night.left else True


def steps_served(night, server):
    """How a server is described that doesn't serve what is in place: each way that is so. What
    `stage` loaded last, and no step that isn't undone left, has words of its own."""
    numbers = [it.number for it in night.steps if not it.is_undone]
    words = [FIRST, *(f"step {it}" for it in numbers)]
    found = [it for it, load in zip(words, left_by_each(night)) if load == server.load]
    if found:
        return found
    return [UNDONE, OTHER] if server.load in night.left else [OTHER]


def untrue_servers(night, text):
    """What is printed of servers that don't serve what is in place, and isn't so."""
    for port, words in SERVES.findall(text):
        server = next(it for it in night.servers if str(it.operator) == port)
        wanted = steps_served(night, server)
        if server.load == night.load():
            yield f"server at {port} serves what is in place, not {words}"
        elif words not in wanted:
            yield f"server at {port} serves {' or '.join(wanted)}, not {words}"


def state_left(night, name, number):
    """How a file is now, compared with a step; None if another step is the last one that replaced
    the file and isn't undone."""
    steps = [it for it in night.steps if not it.is_undone and name in it.after]
    if not steps or steps[-1].number != int(number):
        return None
    found, step = night.files.get(name), steps[-1]
    return {step.before[name]: "before", step.after[name]: "after"}.get(found, "edited")


def untrue_edits(night, text):
    """What is printed of files that aren't as a step left them, and isn't so."""
    for name, number in UNLIKE.findall(text):
        if state_left(night, name, number) not in ("before", "edited"):
            yield f"{name} is as step {number} left it, or it isn't about that step"
    for name, number, port in SINCE.findall(text):
        server = next(it for it in night.servers if str(it.operator) == port)
        if f"step {number}" not in steps_served(night, server):
            yield f"server at {port} doesn't serve step {number}"
    wanted = {"isn't replaced yet": "before", "was edited since": "edited"}
    for name, number, words in STATES.findall(text):
        if state_left(night, name, number) != wanted[words]:
            yield f"{name} of step {number} {words}"


def untrue_words(night, text):
    """What is printed of servers and files before anything is changed, and isn't so."""
    if not any(it.is_damaged for it in night.steps):
        yield from untrue_servers(night, text)
        yield from untrue_edits(night, text)
