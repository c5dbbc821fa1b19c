"""Goes on by a call of `stage` that nothing was in the way of: what it has to print, and what the
files, the steps and the servers have to be from then on."""
import re

from nightly.calls import STOPS
from nightly.night import KEPT, UNCHANGED
from nightly.plans import plan_of
from nightly.rows import untrue_rows
from nightly.served import is_other, known_apps, untrue_words
from nightly.servers import generations

# What is printed of a halt from before that of a release, which doesn't end it.
EARLIER = "was halted there before"


def expect(night, call, result, is_loose=False):
    """Yields what a call printed that isn't so. If `is_loose`, another call was at work: the
    servers were halted before, and the lines about servers and the status aren't compared."""
    status, output, errors = result
    plan = plan_of(night, call)
    has_stopped = UNCHANGED in errors or KEPT in errors
    yield from untrue_rows(night, plan, call, output)
    if not is_loose:
        yield from untrue_words(night, errors)
    lines, missing = ([], []) if is_loose else halt_servers(night, call, errors)
    yield from missing
    if plan.stops and not has_stopped:
        yield f"it has to stop by {sorted(plan.stops)}"
        return
    if has_stopped and not plan.stops | plan.perhaps:
        yield "it has to go on"
        return
    if has_stopped:
        yield from untrue_stop(plan, call, output, errors)
        is_bad = True
    else:
        yield from untrue_files(plan, call, output)
        known = known_apps(night, plan)
        if not call.dry_run:
            take(night, plan)
        more, is_bad = load_servers(night, call, plan, known, output)
        lines += more
    printed = [it for it in output.splitlines() if it.startswith("server at") and EARLIER not in it]
    if not is_loose and printed != lines:
        yield f"servers: {printed}, not {lines}"
    if not is_loose and status != (1 if is_bad else 0):
        yield f"the status isn't {1 if is_bad else 0}"


def untrue_stop(plan, call, output, errors):
    """What a stop says that isn't so."""
    reasons = plan.stops | plan.perhaps
    if not any(re.search(STOPS[it], errors) for it in reasons):
        yield f"a stop of another reason than {sorted(reasons)}"
    if KEPT in errors and call.word != "halt":
        yield "only a halt may leave changed servers"
    if re.search("^replaced|^undone", output, re.M):
        yield "a stop after a file was replaced"


def untrue_files(plan, call, output):
    """What a call says of files that isn't so."""
    if plan.undone:
        word = "would undo" if call.dry_run else "undone"
        if f"{word} step {plan.undone.number} of " not in output:
            yield f"{word} step {plan.undone.number}"
        return
    verb = "would replace" if call.dry_run else "replaced"
    lines = [f"{verb} {it}" for it in plan.files]
    if [it for it in output.splitlines() if re.match("would replace|replaced", it)] != lines:
        yield f"it replaces {list(plan.files)}"
    if not plan.files and "the files are so already" not in output:
        yield "the files are so already"


def take(night, plan):
    """The files and steps after a call that went on."""
    night.left += [plan.now, plan.then]
    for name, text in plan.files.items():
        if text is None:
            night.files.pop(name, None)
        else:
            night.files[name] = text
    if plan.undone:
        plan.undone.is_undone = True
    if plan.step:
        night.steps.append(plan.step)


def halt_servers(night, call, errors):
    """The lines of a halt's servers, which come first; and what is missing among the errors."""
    lines, missing, call.halted = [], [], []
    if call.word != "halt" or call.no_load or call.dry_run:
        return lines, missing
    for it in call.servers:
        place = f"server at {it.operator}"
        if not it.is_up:
            if f"{place}: refused B5 Connect" not in errors:
                missing.append(f"{it.operator} doesn't reply")
        elif call.appid not in (*it.load.appids(), *it.halts):
            if f"{place}: refused B8 App" not in errors:
                missing.append(f"{it.operator} has no app {call.appid}")
        else:
            if call.appid not in it.halts:
                call.halted.append(it)
                it.halts.insert(0, call.appid)
                it.generation += 1
            lines.append(f"{place}: generation {it.generation}, {call.appid} is halted")
    return lines, missing


def is_loaded(night, call, plan, known, server, output):
    """Whether a server is loaded after the files were replaced. A halt leaves one alone that serves
    something else than was or is in place, if a load changes more than the halt; of one where it
    changes the halted app alone, in another way, no page speaks."""
    if not server.is_up or plan.then is None:
        return False
    is_strange = is_other(night, known, server)
    if is_strange:
        return call.other_server
    is_cut = set(server.load.appids()) - known and any(it.is_damaged for it in night.steps)
    if is_strange is None or is_cut:
        # Perhaps only the cut record knows what it serves: then it is another one, unless `stage`
        # loaded it last.
        halted = call.word == "halt" and call.appid in server.halts
        return len(generations(output, server.operator)) > halted
    if call.word != "halt" or call.anyway or server.load in (plan.now, plan.then):
        return True
    loads = [it for it in (plan.now, plan.then) if it]
    if any(it.is_but_for(call.appid, server.load) for it in loads):
        return len(generations(output, server.operator)) > 1
    return False


def load_servers(night, call, plan, known, output):
    """The lines of servers that load, and whether one of them isn't loaded."""
    lines, is_bad = [], False
    for it in () if call.no_load or call.dry_run else call.servers:
        if not is_loaded(night, call, plan, known, it, output):
            is_bad = True
            continue
        it.load, it.path = plan.then, night.folder / "current.toml"
        it.generation += 1
        more = f", halted: {', '.join(it.halts)}" if it.halts else ""
        lines.append(f"server at {it.operator}: generation {it.generation}{more}")
        lifted = list(plan.lifted)
        lifted += [it for it in plan.maybe_lifted if f", {it} is offered again\n" in output]
        if call.version and it in call.halted:
            lifted.append(call.appid)
        elif call.version and call.appid in it.halts and EARLIER not in output:
            lines.append(f"{call.appid} {EARLIER} at {it.operator}")
        for app in dict.fromkeys(lifted):
            # One that doesn't halt it by its own word offers it by its load.
            if app in it.halts:
                it.halts.remove(app)
                it.generation += 1
                more = f", {app} is offered again"
                lines.append(f"server at {it.operator}: generation {it.generation}{more}")
    return lines, is_bad
