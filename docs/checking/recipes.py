"""CONTRIBUTING's recipes: each file that a recipe names exists, and each file that its search finds
is in the recipe or among its exceptions. The search and the exceptions, which are crates or files,
are in a comment below the recipe's heading: `<!-- search PATTERN; not CRATE CRATE/src/FILE -->`.
The lines that the page's exercise keeps or takes out are in their files."""
import re

from checking.places import CRATES, ROOT, crates

PAGE = ROOT / "CONTRIBUTING.md"
RECIPE = re.compile(r"^### \d+\. (.+)\n((?:(?!#).*\n)+)", re.M)
SEARCH = re.compile(r"<!-- search (\S+)(?:; not ([^>]+?))? -->")
NAMED = re.compile(r"`([^`\s]+)`")
FOLDERS = ("src", "specs", "proofs")
DIFF = re.compile(r"^--- a/(.+)\n((?:(?!---|```).*\n)+)", re.M)


def path_of(folder, name):
    suffix = "" if name.endswith((".rt", ".antt")) else ".antt"
    return f"{folder}/{name}{suffix}"


def files_named(text):
    """The files that a recipe names, as CRATE/FOLDER/FILE. A name with a folder is of the crate
    named last, and one that follows a file in a list is in that file's folder."""
    known, crate, folder, end = {*crates()}, None, None, 0
    for found in NAMED.finditer(text):
        name, between = found[1], text[end:found.start()]
        first, _, rest = name.partition("/")
        follows = folder and between in (", ", " and ", " or ")
        end = found.end()
        if name in known:
            crate, folder = name, None
        elif "NAME" in name:
            folder = None
        elif first in known and rest.startswith(FOLDERS):
            folder = name.rpartition("/")[0]
            yield path_of(first, rest)
        elif crate and first in FOLDERS and rest:
            folder = f"{crate}/{name.rpartition('/')[0]}"
            yield path_of(crate, name)
        elif follows and re.fullmatch(r"\w+\.rt|[A-Z]\w*", name):
            yield path_of(folder, name)
        else:
            folder = None


def files_found(pattern):
    """The files of crates that have a pattern."""
    for folder in FOLDERS:
        for file in CRATES.glob(f"*/{folder}/**/*"):
            if file.is_file() and re.search(pattern, file.read_text()):
                yield str(file.relative_to(CRATES))


def is_excepted(file, exceptions):
    return any(file == it or file.startswith(f"{it}/") for it in exceptions)


def lost_files():
    recipes = RECIPE.findall(PAGE.read_text())
    if not recipes:
        yield f"{PAGE.name}: no recipe is found"
    for title, text in recipes:
        named = {*files_named(text)}
        for it in sorted(named):
            if not (CRATES / it).is_file():
                yield f"{PAGE.name}: {title}: no file {it}"
        search = SEARCH.search(text)
        if not search:
            yield f"{PAGE.name}: {title}: it has no search"
            continue
        found, exceptions = {*files_found(search[1])}, (search[2] or "").split()
        if not found:
            yield f"{PAGE.name}: {title}: nothing has {search[1]}"
        for it in sorted(found - named):
            if not is_excepted(it, exceptions):
                yield f"{PAGE.name}: {title}: {it} has {search[1]}, and the recipe doesn't name it"
        for it in exceptions:
            if not any(is_excepted(file, [it]) for file in found - named):
                yield f"{PAGE.name}: {title}: its exception {it} has no {search[1]}"


def lost_lines():
    for path, lines in DIFF.findall(PAGE.read_text()):
        kept = (ROOT / path).read_text().splitlines()
        # Once the exercise is made, the lines that it takes out are gone.
        added = re.findall(r"^\+(?!\+\+ )(.+)$", lines, re.M)
        marks = " " if all(it in kept for it in added) else "[ -]"
        for it in re.findall(rf"^{marks}(.+)$", lines, re.M):
            if it not in kept:
                yield f"{PAGE.name}: {path} has no line {it.strip()}"
