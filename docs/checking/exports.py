"""What a crate exports: the items that its `lib.rt` names, by the files that define them. Also the
functions with a comment on what is open, exported or not."""
import re
from dataclasses import dataclass, field
from functools import cache

from checking.markdown import lost_sections
from checking.places import CRATES, crates
from checking.sources import first_lines, implements, items, method

PASSED_ON = re.compile(r"^pub use ([\w:]+?)(?:::(\w+)|::\{([^}]*)\});", re.M)
MODULE = re.compile(r"^pub mod (\w+);", re.M)
CITED = re.compile(r"ghost use Rattle\.(\w+)\.specs\.([\w.]+?)(?:\.\{([^}]*)\}| as (\w+));")
TYPES = ("struct", "enum", "trait", "type")


@dataclass
class Module:
    """A source file, the items of it that a page describes, by name, and which of them aren't
    exported."""

    path: object
    items: list
    first: str
    told: dict = field(default_factory=dict)
    inside: set = field(default_factory=set)

    def terms(self, text):
        """The definitions of this repository's crates that a text of this file names."""
        names, others = {}, {}
        for crate, spec, listed, other in CITED.findall(self.path.read_text()):
            if "declared" in spec.split(".") or not (CRATES / crate).is_dir():
                continue
            if other:
                others[other] = (crate, spec)
            for it in filter(None, map(str.strip, listed.split(","))):
                names[it.split(" as ")[-1]] = (crate, spec, it.split(" as ")[0])
        found = {}
        for word in re.findall(r"[\w◌]+(?:\.\w+)*", text):
            first, _, rest = word.partition(".")
            if first in names:
                found[names[first]] = None
            elif first in others and rest:
                found[(*others[first], rest.split(".")[0])] = None
        return list(found)


class Crate:
    def __init__(self, name):
        self.name = name
        self.folder = CRATES / name
        self.source = self.folder / "src"
        self.lib = self.source / "lib.rt"
        self.root = self.lib if self.lib.is_file() else self.source / "main.rt"
        lines = self.root.read_text().splitlines()
        self.first, self.method = first_lines(lines), method(lines)
        self.modules = {}
        for path in sorted(self.source.glob("**/*.rt")):
            lines = path.read_text().splitlines()
            found = [it for it in items(lines) if not it.is_test()]
            self.modules[path] = Module(path, found, first_lines(lines))
        self.passed_on, self.lost = {}, []
        if self.root == self.lib:
            self.take_exports()
        self.take_open()

    def take_exports(self):
        text = self.lib.read_text()
        own = set(re.findall(r"^(?:pub )?mod (\w+);", text, re.M))
        for way, one, listed in PASSED_ON.findall(text):
            for name in re.findall(r"\w+", one or listed):
                if way.split("::")[0] not in own:
                    self.passed_on.setdefault(way.split("::")[0], []).append(name)
                else:
                    self.export(name)
        for name in MODULE.findall(text):
            module = self.modules[self.source / f"{name}.rt"]
            for item in module.items:
                if item.is_pub and item.kind not in ("use", "mod", "impl"):
                    module.told[f"{name}::{item.name}"] = item

    def export(self, name):
        for module in self.modules.values():
            for item in module.items:
                if item.is_pub and item.name == name and item.kind not in ("use", "mod", "impl"):
                    module.told[name] = item
                    return
        self.lost.append(name)

    def take_open(self):
        """Takes functions that aren't exported, and have a comment on what is open."""
        for module in self.modules.values():
            told = {id(it) for it in module.told.values()}
            for item in module.items:
                if item.kind == "fn" and item.open() and id(item) not in told:
                    module.told[item.name] = item
                    module.inside.add(item.name)

    def impls(self, name):
        """The `impl` items of a type, each with its trait and its file's module."""
        for module in self.modules.values():
            for item in module.items:
                if item.kind == "impl" and implements(item)[1] == name:
                    yield implements(item)[0], item, module

    def calls(self):
        """Each function that a page describes, with its name and its module."""
        for module in self.modules.values():
            for name, item in ordered(module):
                if item.kind == "fn":
                    yield name, item, module
                elif item.kind in TYPES:
                    yield from calls_of(name, item, module, list(self.impls(item.name)))

    def untold(self):
        """Exported items without a comment."""
        for module in self.modules.values():
            for name, item in module.told.items():
                if item.kind != "fn" and not item.doc():
                    yield name
        yield from (name for name, item, _ in self.calls() if not item.doc())


def calls_of(name, item, module, impls):
    """The functions of a type or trait. In a trait's `impl`, only those with a comment on what is
    open."""
    if item.kind == "trait":
        yield from ((f"{name}::{it.name}", it, module) for it in item.inner() if it.kind == "fn")
    for trait, impl, home in impls:
        for it in impl.inner():
            told = it.open() if trait else it.is_pub
            if it.kind == "fn" and told and not it.is_test():
                yield f"{name}::{it.name}", it, home


def ordered(module):
    """The described items of a module, in the order of its file."""
    places = {id(it): k for k, it in enumerate(module.items)}
    return sorted(module.told.items(), key=lambda it: places[id(it[1])])


@cache
def told_crates():
    return [Crate(it) for it in crates() if (CRATES / it).is_dir()]


def lost_comments():
    """Exported items without a comment, and items that a crate names but doesn't have."""
    for crate in told_crates():
        yield from (f"{crate.name}: lib.rt hands out {it}, which no file has" for it in crate.lost)
        yield from (f"{crate.name}: no /// line of {it}" for it in crate.untold())
        yield from (f"{crate.name}: lib.rt names {it}" for it in lost_sections(crate.first))
