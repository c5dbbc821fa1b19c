"""What a call of `stage` has to do, by docs/OPERATING.md and docs/SPECIFICATION.md: which files it
replaces, which step it records, which halts it lifts, and which stops are right."""
from dataclasses import dataclass, field

from nightly.calls import Step
from nightly.rules import (
    NOTHING, RELEASES, choice, load_of, loses, offers, with_share, without,
)
from nightly.served import is_other, known_apps, left_by_each, left_by_steps


@dataclass
class Plan:
    """What a call has to do, unless `stops` has a reason. A call may stop for each reason of
    `perhaps`, of which the pages say nothing."""

    stops: set = field(default_factory=set)
    perhaps: set = field(default_factory=set)
    files: dict = field(default_factory=dict)
    step: Step = None
    undone: Step = None
    lifted: list = field(default_factory=list)
    # Apps that halt by their files, though not by the last step that has them: a halt of theirs
    # that was resumed, and not undone, may still count.
    maybe_lifted: list = field(default_factory=list)
    now: object = None
    then: object = None


def remaining(night):
    """The steps that aren't undone."""
    return [it for it in night.steps if not it.is_undone]


def having(night, file):
    """The steps that replaced a file and aren't undone."""
    return [it for it in remaining(night) if file in it.after]


def is_in_force(night, appid, file, or_of_a_release=False):
    """Whether the last step that has this file is a halt of the app, and the file halts it still;
    None if a halt was overwritten by hand."""
    last = (having(night, file) or [None])[-1]
    if not last or not last.is_halt() or last.appid != appid:
        return False
    if last.version and not or_of_a_release:
        return False
    return True if last.after[file] == night.files.get(file) else None


def lifts_a_release(night, app, text):
    """Whether a halt of one release of an app is lifted if its file has this text; None if that
    halt may be over: somebody resumed the app or edited its file, or the release was offered
    since."""
    may, steps = False, having(night, app.file)
    for place, step in enumerate(steps if text is not None else []):
        if step.version and step.appid == app.appid and offers(text, step.version):
            later = [(it.action, it.after[app.file]) for it in steps[place:]]
            is_over = any(action.startswith("resume ") or offers(bytes_after, step.version)
                          for action, bytes_after in later)
            if not is_over and later[-1][1] == night.files.get(app.file):
                return True
            may = None
    return may


def may_be_in_force(night, app):
    """Whether a halt of an app that isn't undone may count, since its file halts it again."""
    is_halted = night.files.get(app.file) == NOTHING[app.kind]
    halts = (it for it in night.steps if it.action == f"halt {app.appid}")
    return is_halted and any(not it.is_undone for it in halts)


def is_halted_by_a_step(night, appid):
    return any(it.action == f"halt {appid}" for it in remaining(night))


def app_in(load, appid):
    return next((it for it in load.apps if it.appid == appid), None)


def is_edited(night, call):
    """Whether a file isn't as the last step left it that replaced it. `back` looks at the files of
    the step that it undoes by itself."""
    seen, done = set(), [it for it in night.steps if not it.is_undone and not it.is_damaged]
    for place, step in enumerate(reversed(done)):
        if call.word != "back" or place > 0:
            if any(night.files.get(it) != step.after[it] for it in step.after if it not in seen):
                return True
        seen |= set(step.after)
    return False


def drifts(night, call, plan):
    """The reasons for which a server stops an action: it serves something else than is in place.
    If no server says what it serves, an edited file stops it."""
    if call.no_load or not any(it.is_up for it in call.servers):
        if not call.anyway and is_edited(night, call):
            plan.stops.add("drift")
        return
    for server in call.servers:
        if not server.is_up:
            continue
        if plan.now and server.load == plan.now:
            continue
        is_strange = is_other(night, known_apps(night, plan), server)
        if is_strange is not False and not call.other_server:
            (plan.stops if is_strange else plan.perhaps).add("other")
        if call.anyway:
            continue
        if is_strange and call.other_server:
            plan.perhaps.add("drift")
            continue
        if call.word in ("put", "back") and plan.then == server.load:
            plan.perhaps.add("drift")
        elif call.word == "back" and server.load in [*left_by_each(night)][-2:-1]:
            # It serves the step before, whatever was edited since.
            plan.perhaps.add("drift")
        elif call.word == "put" and load_of(left_by_steps(night)) == server.load:
            plan.perhaps.add("drift")
        elif (call.word == "back" and load_of(left_by_steps(night)) == server.load
              and not is_edited(night, call) and (left := remaining(night))):
            # The files of the step are compared when it is undone.
            if any(it.is_damaged for it in left):
                plan.perhaps.add("drift")
        else:
            plan.stops.add("drift")


def compares(night, call, plan):
    """Whether the rows stop a call: from what is served, or from what is in place."""
    up = [it.load for it in call.servers if it.is_up and not call.no_load] or [plan.now]
    if call.anyway or not plan.files or None in (*up, plan.then):
        return
    if any(loses(it, plan.then) for it in up):
        plan.stops.add("lost")
    if plan.now and loses(plan.now, plan.then):
        plan.perhaps.add("lost")


def loaded_file(night, call, plan):
    """The app of a halt, a raise or a resume, once it is found."""
    load = plan.now or night.load_without_faults()
    if load is None:
        plan.stops.add("refused")
        return None
    app = app_in(load, call.appid)
    if app is None:
        plan.stops.add("app")
        return None
    if any(it.file == app.file and it is not app for it in load.apps):
        if not call.anyway:
            plan.stops.add("shared")
    return app


def plan_release_halt(night, call, plan):
    if (app := loaded_file(night, call, plan)) is None:
        return
    text = night.files.get(app.file, b"")
    if plan.now is None:
        plan.perhaps.add("refused")
    if call.version not in RELEASES:
        plan.stops.add("version")
    if app.kind == "program":
        plan.stops.add("test")
    elif choice("rule", text, "0", 0) is None:
        plan.stops.add("refused")
    elif text == NOTHING["rule"]:
        # If no halt wrote it, no page says whether it counts as one.
        is_whole = is_in_force(night, call.appid, app.file)
        (plan.stops if is_whole else plan.perhaps).add("whole")
    elif not plan.stops:
        plan.files = {app.file: without(text, call.version)}


def plan_halt(night, call, plan):
    if call.version:
        return plan_release_halt(night, call, plan)
    text = night.files.get("current.toml")
    if (app := loaded_file(night, call, plan)):
        plan.files = {app.file: NOTHING[app.kind]}
        if app.file not in night.files or text is None:
            plan.perhaps.add("refused")
    return None


def plan_raise(night, call, plan):
    if (app := loaded_file(night, call, plan)) is None:
        return
    text = night.files.get(app.file, b"")
    if plan.now is None:
        plan.perhaps |= {"refused", "test"}
    if app.kind == "program":
        plan.stops.add("test")
    elif text == NOTHING["rule"]:
        plan.stops.add("halted")
    elif (raised := with_share(text, call.buckets())) is None:
        plan.stops.add("test")
    else:
        plan.files = {app.file: raised}


def plan_resume(night, call, plan):
    if (app := loaded_file(night, call, plan)) is None:
        return
    if plan.now is None:
        plan.perhaps |= {"refused", "test"}
    force = is_in_force(night, call.appid, app.file, or_of_a_release=True)
    last = (having(night, app.file) or [None])[-1]
    if force is False or force is None and not last.version:
        plan.stops |= {"unhalted", "again"}
        return
    before = last.before[app.file]
    if lifts_a_release(night, app, before) is not False:
        # An earlier halt, of another release, may still count.
        plan.perhaps.add("unhalted")
    if call.share and app.kind == "program":
        plan.stops.add("test")
        return
    if call.share and choice("rule", before, "0", 0) is None:
        plan.stops.add("refused")
        return
    if call.share and (before := with_share(before, call.buckets())) is None:
        plan.stops.add("test")
        return
    plan.files, plan.lifted = {app.file: before}, [call.appid]


def plan_put(night, call, plan):
    if load_of(call.source) is None:
        plan.stops.add("refused")
        return
    plan.files = {it: call.source[it] for it in [*dict.fromkeys(
        app.file for app in load_of(call.source).apps), "current.toml"]}
    present = night.load_without_faults()
    for app in present.apps if present else ():
        force = is_in_force(night, app.appid, app.file)
        after = app_in(load_of(call.source), app.appid)
        if after and plan.files[after.file] == NOTHING[after.kind]:
            continue
        if force is False:
            if may_be_in_force(night, app):
                plan.perhaps.add("lifts")
                plan.maybe_lifted.append(app.appid)
            continue
        if force and after:
            plan.lifted.append(app.appid)
            if not call.anyway:
                plan.stops.add("lifts")
        elif not call.anyway:
            plan.perhaps.add("lifts")
    for app in present.apps if present else ():
        after = app_in(load_of(call.source), app.appid)
        may = lifts_a_release(night, app, plan.files[after.file]) if after else False
        if may is not False:
            plan.maybe_lifted.append(app.appid)
            if not call.anyway:
                (plan.stops if may and app.file == after.file else plan.perhaps).add("lifts")
    lifts_of_absent(night, call, plan, load_of(call.source), plan.files)
    if plan.now is None and "current.toml" in night.files:
        plan.perhaps |= {"lost", "refused", "lifts"}


def lifts_of_absent(night, call, plan, then, files):
    """An app that the manifest in place doesn't have isn't offered, so its halt by a step is in
    force."""
    for app in then.apps if then else ():
        text = files.get(app.file)
        if text in (None, NOTHING[app.kind]) or not is_halted_by_a_step(night, app.appid):
            continue
        if plan.now is None:
            plan.maybe_lifted.append(app.appid)
        elif not app_in(plan.now, app.appid):
            plan.lifted.append(app.appid)
            if not call.anyway:
                plan.stops.add("lifts")


def plan_back(night, call, plan):
    left = remaining(night)
    if not left:
        plan.stops.add("none")
        return
    step = left[-1]
    for name, before in step.before.items():
        if night.files.get(name) not in (before, step.after[name]):
            # A dry run doesn't look at this; no page says that it does.
            (plan.perhaps if call.dry_run else plan.stops).add("edited")
    plan.undone, plan.files = step, dict(step.before)
    if step.is_halt():
        # A halt that stopped before its file was replaced isn't in force.
        is_done = plan.files and any(night.files.get(n) == step.after[n] for n in plan.files)
        is_whole = is_done and not step.version
        (plan.lifted if is_whole else plan.maybe_lifted).append(step.appid)
        if not call.anyway:
            (plan.stops if is_done else plan.perhaps).add("lifts")
    elif plan.now is None and not call.anyway:
        plan.perhaps.add("lifts")
    for app in plan.now.apps if plan.now else ():
        if app.file in step.before and app.appid not in plan.lifted and may_be_in_force(night, app):
            plan.perhaps.add("lifts")
            plan.maybe_lifted.append(app.appid)
        if lifts_a_release(night, app, step.before.get(app.file)) is not False:
            plan.perhaps.add("lifts")
            plan.maybe_lifted.append(app.appid)
    files = {n: text for n, text in (night.files | step.before).items() if text is not None}
    lifts_of_absent(night, call, plan, load_of(files), files)


PLANS = {
    "halt": plan_halt, "raise": plan_raise, "resume": plan_resume, "put": plan_put,
    "back": plan_back,
}


def plan_of(night, call):
    """What a call has to do, with nothing in its way."""
    plan = Plan(now=night.load())
    PLANS[call.word](night, call, plan)
    plan.files = {n: text for n, text in plan.files.items() if night.files.get(n) != text}
    files = night.files | plan.files
    plan.then = load_of({n: text for n, text in files.items() if text is not None})
    if call.word in ("raise", "resume") and plan.files and plan.then is None:
        plan.stops.add("refused")
    if call.word != "halt":
        if any(it.is_damaged for it in night.steps):
            plan.stops.add("record")
            # Without that step a server that still serves it is another one.
            plan.perhaps.add("other")
        drifts(night, call, plan)
        compares(night, call, plan)
    if call.anyway:
        plan.perhaps -= {"lifts", "lost", "drift"}
    if plan.files and plan.undone is None:
        before = {it: night.files.get(it) for it in plan.files}
        number = max((it.number for it in night.steps), default=0) + 1
        plan.step = Step(number, call.action(), call.appid, before, dict(plan.files), call.by,
                         call.because, call.version)
    return plan
