"""Parts that the generated pages share: headings with their anchors, fences, and links to sections
of other pages."""
import re

from checking.places import DOCS

KINDS = ("Types", "Traits", "Functions", "Constants", "Laws", "Inside the crate", "Definitions")
# A section of a page, in the form in which sources name it.
SECTION = re.compile(r'docs/((?:\w+/)*(\w+)\.md), "([^"]+)"')


def slug(title):
    """The anchor of a heading on GitHub."""
    text = re.sub(r"\[([^]]*)\]\([^)]*\)", r"\1", title)
    return re.sub(r"[^\w\- ]", "", text.lower()).replace(" ", "-")


def fenced(text):
    return f"```\n{text}\n```"


def section(page, name):
    """The anchor of a section of a page, by its heading or the heading's words before a colon."""
    path = DOCS / page
    lines = path.read_text().splitlines() if path.is_file() else []
    for title in (it.lstrip("# ") for it in lines if it.startswith("##")):
        if name in (title.replace("`", ""), title.replace("`", "").split(":")[0]):
            return slug(title)
    return None


def linked(text):
    """A text in which the names of sections are links."""
    def link(named):
        page, short, name = named.groups()
        return f'[{short}, "{name}"](../{page}#{section(page, name)})'

    return SECTION.sub(link, text)


def lost_sections(text):
    for page, _, name in SECTION.findall(text):
        if section(page, name) is None:
            yield f'no section "{name}" of docs/{page}'


class Headings:
    """The parts of a page below its title. If two headings have the same anchor, the later one is
    numbered."""

    def __init__(self):
        self.parts = []
        self.seen = {}

    def add(self, level, title, *below, kind):
        place = slug(title)
        count = self.seen.get(place, 0)
        self.seen[place] = count + 1
        place = f"{place}-{count}" if count else place
        self.parts.append((level, title, place, kind, [it for it in below if it]))

    def contents(self):
        """A line for each kind of part on the page, with links. Items exported in a module are
        linked by the module."""
        lines, home = {}, None
        for _, title, place, kind, _ in self.parts:
            name = re.sub(r"\[(?:specs/|src/)?([^]]*)\]\([^)]*\)", r"\1", title)
            if kind == "module":
                home = f"[`{name}`](#{place})"
            elif kind:
                link = home if "::" in name else f"[{name}](#{place})"
                lines.setdefault(kind, {})[link] = None
        return [f"- {it}: {', '.join(lines[it])}" for it in KINDS if it in lines]

    def blocks(self):
        for level, title, _, _, below in self.parts:
            yield f"{'#' * level} {title}"
            yield from below
