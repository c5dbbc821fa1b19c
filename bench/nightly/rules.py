"""Manifests, rules and programs for `nights`: their bytes, and what they offer. The meaning is
written from docs/RULES.md and docs/SPECIFICATION.md, and shares no code with the program."""
import hashlib
import re
from dataclasses import dataclass

from asking import HASH

# What `stage halt` leaves in a file: `otherwise none;`, and `mov r0, 0` and `exit`.
EXIT = bytes([0x95, 0, 0, 0, 0, 0, 0, 0])
NOTHING = {"rule": b"otherwise none;\n", "program": bytes([0xB7, 0, 0, 0, 0, 0, 0, 0]) + EXIT}
# `mov r0, 1`, also with another instruction before it.
PROGRAMS = {
    NOTHING["program"]: 0,
    bytes([0xB7, 0, 0, 0, 1, 0, 0, 0]) + EXIT: 1,
    bytes([0xB7, 0, 0, 0, 0, 0, 0, 0, 0xB7, 0, 0, 0, 1, 0, 0, 0]) + EXIT: 1,
}
# Each app has the same releases in all manifests, so that only rules and files differ.
RELEASES = ("2.1", "3.0")
LINE = re.compile(r"when (.+) offer (\d+);")
TEST = re.compile(r"(version|bucket) (<|>=|==) ([\d.]+)")
ONE_BUCKET = re.compile(r"\bbucket < (\d+)\b")


def number(version):
    """A version that compares as numbers: 2.1 is 2.1.0.0."""
    parts = [int(it) for it in version.split(".")]
    return tuple(parts + [0] * (4 - len(parts)))


def holds(test, version, bucket):
    name, way, wanted = TEST.fullmatch(test).groups()
    have, than = (number(version), number(wanted)) if name == "version" else (bucket, int(wanted))
    return {"<": have < than, ">=": have >= than, "==": have == than}[way]


def all_hold(condition, version, bucket):
    return condition == "everybody" or all(
        holds(it, version, bucket) for it in condition.split(" and ")
    )


def choice(kind, text, version, bucket):
    """The release that a file of an app offers to a machine, from 1 on, or 0. None: it is no file
    of this kind."""
    if kind == "program":
        return PROGRAMS.get(text)
    *lines, last = text.decode().splitlines() or [""]
    found = [LINE.fullmatch(it) for it in lines if it]
    if last != "otherwise none;" or None in found:
        return None
    return next((int(it[2]) for it in found if all_hold(it[1], version, bucket)), 0)


def rule(*lines):
    """A rule's bytes, from pairs of a condition and a release."""
    return "".join(f"when {it} offer {n};\n" for it, n in lines).encode() + NOTHING["rule"]


def with_share(text, buckets):
    """A rule whose one test `bucket < N` has another number, or None."""
    found = ONE_BUCKET.findall(text.decode(errors="replace"))
    if len(found) != 1:
        return None
    return ONE_BUCKET.sub(f"bucket < {buckets}", text.decode()).encode()


def offers(text, version):
    """Whether a statement of a rule offers a release of this version."""
    found = LINE.findall(text.decode(errors="replace"))
    return any(RELEASES[int(number) - 1] == version for _, number in found)


def without(text, version):
    """A rule without the statements that offer this version: only their line ends stay."""
    lines = text.decode().splitlines(keepends=True)
    return "".join("\n" if offers(it.encode(), version) else it for it in lines).encode()


@dataclass(frozen=True)
class App:
    """An app of a manifest, and its file."""

    appid: str
    file: str
    kind: str = "rule"

    def table(self):
        releases = "".join(
            f'[[app.release]]\nversion = "{it}"\ncodebase = "http://dl.example/"\n'
            f'[[app.release.package]]\nname = "x.bin"\nhash_sha256 = "{HASH}"\nsize = 3\n'
            "required = true\n"
            for it in RELEASES
        )
        return f'[[app]]\nappid = "{self.appid}"\n{self.kind} = "{self.file}"\n{releases}'


# The apps of each manifest that was written, by its bytes.
KNOWN = {}


def manifest(apps, comment=""):
    """A manifest's bytes."""
    head = f"# {comment}\n" if comment else ""
    text = (f'{head}server = "night"\n' + "".join(it.table() for it in apps)).encode()
    KNOWN[text] = tuple(apps)
    return text


@dataclass(frozen=True)
class Load:
    """What a server has of a manifest: its bytes, its apps, and their files' bytes."""

    text: bytes
    apps: tuple
    files: tuple

    def digest(self):
        """SHA-256 of the manifest and its files, each after its length in eight bytes."""
        pieces = [self.text, *self.files]
        whole = b"".join(len(it).to_bytes(8, "big") + it for it in pieces)
        return hashlib.sha256(whole).hexdigest()

    def file_of(self, appid):
        found = (file for it, file in zip(self.apps, self.files) if it.appid == appid)
        return next(found, None)

    def kind_of(self, appid):
        return next((it.kind for it in self.apps if it.appid == appid), None)

    def appids(self):
        return [it.appid for it in self.apps]

    def is_but_for(self, appid, other):
        """Whether another load differs at most in the file of this app."""
        return self.text == other.text and all(
            it.appid == appid or self.file_of(it.appid) == other.file_of(it.appid)
            for it in self.apps
        )

    def offer(self, appid, version, bucket):
        """The version that a machine is offered, or None."""
        chosen = choice(self.kind_of(appid), self.file_of(appid), version, bucket)
        return RELEASES[chosen - 1] if chosen else None


def load_of(files, name="current.toml"):
    """What a server gets from files by their names, or None if it refuses them."""
    text = files.get(name)
    apps = KNOWN.get(text)
    if apps is None or any(it.file not in files for it in apps):
        return None
    kept = tuple(files[it.file] for it in apps)
    if any(choice(it.kind, file, "0", 0) is None for it, file in zip(apps, kept)):
        return None
    return Load(text, apps, kept)


def machines(*loads):
    """Machines of which each rule of these loads treats some alike: versions and buckets on both
    sides of each number."""
    versions, buckets = {"0", "1.9", "2.5", "9"}, {0, 9999}
    for text in (file for it in loads for file in it.files if file not in PROGRAMS):
        for name, _, value in TEST.findall(text.decode()):
            if name == "version":
                versions |= {value, value + ".1"}
            else:
                buckets |= {max(0, int(value) - 1), min(9999, int(value))}
    return [(v, b) for v in sorted(versions) for b in sorted(buckets)]


def loses(now, then):
    """Whether a machine may lose its release from one load to the next: one is offered none or a
    lower version, its app is gone, or it isn't compared."""
    for app in now.apps:
        one = (app.kind, now.file_of(app.appid))
        other = (then.kind_of(app.appid), then.file_of(app.appid))
        if one == other:
            continue
        if other[0] is None or "program" in (one[0], other[0]):
            return True
        for version, bucket in machines(now, then):
            had = now.offer(app.appid, version, bucket)
            has = other[0] and then.offer(app.appid, version, bucket)
            if had and (not has or number(has) < number(had)):
                return True
    return False
