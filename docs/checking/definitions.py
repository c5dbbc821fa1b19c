"""A file of definitions: its first comment, and its definitions with their comments."""
import re
import textwrap

SECTION = "-- ---- "
DEFINES = re.compile(r"^ *(?:abbrev |unfoldable )?pub (?!use\b|mod\b)", re.M)


def text_of(comment):
    """The text of a comment's lines."""
    return "\n".join(re.sub(r"^ *-- ?", "", it) for it in comment)


def is_comment(line):
    return line.lstrip().startswith("--")


class SpecFile:
    """A file's first comment, and its sections: a title, which may be empty, and definitions."""

    def __init__(self, path):
        lines = path.read_text().splitlines()
        first = next((k for k, it in enumerate(lines) if not is_comment(it)), len(lines))
        self.first = text_of(lines[:first])
        rest = [it for it in lines[first:] if not re.match(r" *(?:pub )?(?:use|mod) ", it)]
        self.has_definitions = bool(DEFINES.search("\n".join(rest)))
        self.sections = [("", [])]
        for part in re.split(r"\n(?:[ ]*\n)+", "\n".join(rest).strip("\n")):
            self.take(part.splitlines())

    def take(self, part):
        if part and part[0].startswith(SECTION):
            # The title continues in the lines of its comment.
            behind = next((k for k, it in enumerate(part) if not is_comment(it)), len(part))
            self.sections.append((text_of(part[:behind]).removeprefix("---- "), []))
            part = part[behind:]
        if part:
            self.sections[-1][1].append("\n".join(part))


def titled(title):
    """A section's title, or its text if that has several lines."""
    text = title[:1].upper() + title[1:]
    return f"**{text}**" if text and "\n" not in text else text


def prose(text):
    """A comment's text for a page; indented text is kept as it is."""
    blocks = []
    for block in text.split("\n\n"):
        lines = block.splitlines()
        if lines and all(it.startswith("  ") for it in lines):
            blocks.append(f"```\n{textwrap.dedent(block)}\n```")
        else:
            blocks.append(block)
    return "\n\n".join(blocks)
