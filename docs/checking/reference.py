"""The reference, a page for each crate, made from its sources: its exports with their contracts,
and its definitions. The links to sources and to pages by hand work from `docs/reference`."""
import os
import sys

from checking.crates_page import index
from checking.definitions import SpecFile, prose, titled
from checking.exports import TYPES, calls_of, ordered, told_crates
from checking.markdown import Headings, fenced, linked, slug
from checking.places import REFERENCE
from checking.telling import constants, declaration, is_law, own, view

MARK = "<!-- docs/check.py --reference FOLDER wrote this page from the sources. -->\n\n"
ALL = "[All crates](README.md)"


class Page:
    """A page as its headings, each with its level and its text."""

    def __init__(self, crate):
        self.crate = crate
        self.parts = Headings()
        modules = [it for it in crate.modules.values() if it.told]
        for module in sorted(modules, key=lambda it: all(map(is_law, it.told.values()))):
            self.tell_module(module)
        for path in sorted((crate.folder / "specs").glob("**/*.antt")):
            self.tell_definitions(path, SpecFile(path))

    def is_empty(self):
        return not any(it.told for it in self.crate.modules.values())

    def title(self, path):
        name = path.relative_to(self.crate.folder).with_suffix("")
        return f"[{name}]({os.path.relpath(path, REFERENCE)})"

    def tell_module(self, module):
        first = module.first if module.path != self.crate.root else ""
        self.parts.add(2, self.title(module.path), first, kind="module")
        numbers = [it for it in ordered(module) if it[1].kind in ("const", "static")]
        if numbers:
            names = ", ".join(f"`{name}`" for name, _ in numbers)
            self.parts.add(3, names, fenced(constants(it for _, it in numbers)), kind="Constants")
        for name, item in ordered(module):
            if item.kind == "fn":
                kind = "Laws" if is_law(item) else "Functions"
                kind = "Inside the crate" if name in module.inside else kind
                self.tell_call(3, name, item, module, kind)
            elif item.kind in TYPES:
                self.tell_type(name, item, module)

    def tell_call(self, level, name, item, module, kind):
        contract = "\n".join(item.front())
        told = f"**Open:** {item.open()}" if item.open() else ""
        terms = self.terms(module, contract)
        self.parts.add(level, f"`{name}`", item.doc(), fenced(contract), told, terms, kind=kind)

    def terms(self, module, text):
        """Links to the definitions that a contract names."""
        links = []
        for crate, spec, name in module.terms(text):
            page = "" if crate == self.crate.name else f"{crate}.md"
            links.append(f"[`{name}`]({page}#{slug('specs/' + spec.replace('.', '/'))})")
        return f"Terms: {', '.join(links)}" if links else ""

    def tell_type(self, name, item, module):
        impls = list(self.crate.impls(item.name))
        known, numbers = view(impls), own(impls)
        blocks = [item.doc(), fenced(declaration(item))]
        if numbers:
            blocks += ["Its constants:", fenced(numbers)]
        if known:
            blocks += ["In contracts:", fenced(known)]
        kind = "Traits" if item.kind == "trait" else "Types"
        self.parts.add(3, f"`{name}`", *blocks, self.terms(module, known), kind=kind)
        for call, it, home in calls_of(name, item, module, impls):
            self.tell_call(4, call, it, home, "")

    def tell_definitions(self, path, spec):
        if not spec.has_definitions:
            return
        blocks = [prose(spec.first)]
        for title, parts in spec.sections:
            blocks += [titled(title), fenced("\n\n".join(parts)) if parts else ""]
        self.parts.add(2, self.title(path), *blocks, kind="Definitions")

    def text(self):
        crate = self.crate
        head = [f"# {crate.name}", ALL, linked(crate.first)]
        passed = [
            f"- It hands on {', '.join(f'`{it}`' for it in names)} of [`{home}`]({home}.md)."
            for home, names in crate.passed_on.items()
        ]
        contents = "\n".join([*self.parts.contents(), *passed])
        blocks = [*head, contents, crate.method, *self.parts.blocks()]
        return "\n\n".join(it.strip("\n") for it in blocks if it) + "\n"


def texts():
    """The text of each page by name."""
    pages = {it.name: Page(it) for it in told_crates()}
    written = {name: page.text() for name, page in pages.items() if not page.is_empty()}
    return {"README": index(written), **written}


def write(folder):
    """Writes all pages into a folder. Replaces the pages of an earlier call, and nothing else."""
    folder.mkdir(parents=True, exist_ok=True)
    there = [*folder.iterdir()]
    for it in there:
        if not it.is_file() or not it.read_bytes().startswith(MARK.encode()):
            sys.exit(f"{it}: no page of the reference, so nothing is written")
    for it in there:
        it.unlink()
    for name, text in texts().items():
        (folder / f"{name}.md").write_text(MARK + text)
