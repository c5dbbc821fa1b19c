"""A source file: its first comment, and its items with their comments. It relies on the layout of
`rt fmt`: an item begins at the left, and so does the `{` or `}` that ends a part."""
import re
import textwrap
from dataclasses import dataclass, field

HEAD = re.compile(
    r"(?P<pub>pub )?(?:pub\([^)]*\) )?(?:const (?=fn)|unsafe )?"
    r"(?P<kind>fn|struct|enum|trait|impl|const|static|type|mod|use|ghost)\b ?(?P<name>\w*)"
)
GOES_ON = ("{", "}", ")", "]", ">", "where")
OPEN = "// open: "


@dataclass
class Item:
    """A part of a file: its comments and attributes, and its lines from its first word on."""

    kind: str
    name: str
    is_pub: bool
    head: list
    lines: list = field(default_factory=list)

    def doc(self):
        return "\n".join(it[4:] for it in self.head if it.startswith("///"))

    def attributes(self):
        return [it for it in self.head if it.startswith("#[")]

    def is_test(self):
        return any(it.startswith(("#[cfg(test)]", "#[test]")) for it in self.attributes())

    def open(self):
        """What no clause determines about it, as the comment after `open:` says."""
        text = [it for it in self.head if it.startswith("//") and not it.startswith("///")]
        begins = next((k for k, it in enumerate(text) if it.startswith(OPEN)), None)
        if begins is None:
            return ""
        return " ".join([text[begins][len(OPEN):], *(it[3:] for it in text[begins + 1:])])

    def front(self):
        """Its lines up to its body; for a function, the signature and the contract."""
        front = []
        for line in self.lines:
            if line[:1].strip() and line.endswith(("{", "{}")):
                front += [line.removesuffix("{}").removesuffix("{").rstrip()]
                break
            front.append(line)
        while not front[-1].strip():
            front.pop()
        if self.kind == "fn":
            front[-1] = front[-1].removesuffix(";")
        return front

    def inner(self):
        """The items between its braces."""
        first = next((k for k, it in enumerate(self.lines) if it.endswith("{")), None)
        if first is None:
            return []
        return items(textwrap.dedent("\n".join(self.lines[first + 1:-1])).splitlines())


def items(lines):
    """The items among lines that begin at the left."""
    found, head = [], []
    for line in lines:
        word = line[:1].strip()
        begins = HEAD.match(line)
        if word and (line.startswith(("//", "#[")) or head and head[-1][-1] in "(,"):
            head.append(line)
        elif begins:
            kind, name = begins["kind"], begins["name"]
            found.append(Item(kind, name, bool(begins["pub"]), head, [line]))
            head = []
        elif head and not line and not head[-1].startswith("///"):
            head = []  # a separate comment
        elif found and not head and (not word or line.startswith(GOES_ON)):
            found[-1].lines.append(line)
    for item in found:
        while not item.lines[-1].strip():
            item.lines.pop()
    return found


def first_lines(lines):
    """The text of a file's `//!` lines."""
    return "\n".join(it[4:] for it in lines if it.startswith("//!"))


def method(lines):
    """The text of the separate comment after a file's first lines."""
    text = []
    for line in lines:
        if line.startswith("// ") or line == "//":
            text.append(line[3:])
        elif text and not line:
            text.append("")
        elif text or line and not line.startswith(("//!", "#!")):
            break
    # A comment next to an item, without a blank line between them, belongs to the item.
    return "\n".join(text).rstrip() if text and not text[-1] else ""


def past_generics(text):
    """The rest of a text after the angle brackets at its beginning."""
    depth = 0
    for k, letter in enumerate(text):
        depth += (letter == "<") - (letter == ">" and text[k - 1] not in "-=")
        if depth == 0:
            return text[k + (letter == ">"):].lstrip()
    return text


def implements(item):
    """For an `impl`, the trait, if there is one, and the type's name."""
    text = past_generics(" ".join(item.front()).removeprefix("impl"))
    text = text.split(" where ")[0].strip()
    trait, _, target = text.rpartition(" for ")
    return trait, re.match(r"(?:\w+::)*(\w*)", target)[1]
