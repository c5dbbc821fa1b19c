"""How a page describes types, constants, and what contracts know about a value."""
import re


def is_law(item):
    """Whether it takes no arguments and returns nothing, so that it is only its contract."""
    return item.kind == "fn" and item.front()[0].endswith("()")


def constants(items):
    """Constants and statics with their comments."""
    return "\n".join("\n".join([*item.head, *item.lines]) for item in items)


def own(impls):
    """The constants of a type, with their comments."""
    inner = [it for trait_name, impl, _ in impls if not trait_name for it in impl.inner()]
    return constants(it for it in inner if it.kind == "const" and it.is_pub)


def declaration(item):
    """A type as in its source, without its private parts and the parts described separately."""
    if item.kind == "trait":
        return trait(item)
    if item.kind != "struct" or len(item.lines) == 1:
        return re.sub(r"\((?!pub )[^()]*\);$", "(..);", "\n".join(item.lines))
    front = item.front()
    shown, head, is_shown, hides = [], [], False, False
    for line in item.lines[len(front):-1]:
        word = line.strip()
        if word.startswith(("//", "#[")):
            head.append(line)
            continue
        if line.startswith("    ") and line[4:5].strip() not in ("}", ")", ">", ""):
            is_shown = word.startswith("pub ")
            hides = hides or not is_shown
        if is_shown:
            shown += [*head, line]
        head = []
    inside = [*shown, *(["    .."] if hides else [])]
    return "\n".join([*front[:-1], front[-1] + " {", *inside, "}"])


def trait(item):
    """A trait's ghosts and types; its functions are described separately."""
    inside = []
    for it in item.inner():
        if it.kind in ("ghost", "type") and it.name != "use":
            inside += [f"    {line}" for line in (*it.head, *it.lines)]
    front = item.front()
    return "\n".join([*front[:-1], front[-1] + " {", *inside, "    ..", "}"])


def view(impls):
    """The ghosts with which a type implements a trait; for `Model`, what a contract reads in its
    values."""
    lines = []
    for trait_name, impl, _ in impls:
        ghosts = [it for it in impl.inner() if it.kind == "ghost" and it.name != "use"]
        if trait_name and ghosts:
            lines += [*impl.front(), *(f"    {line}" for it in ghosts for line in it.lines)]
    return "\n".join(lines)
