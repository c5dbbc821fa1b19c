"""Archives of an install. The same commit gives the same bytes everywhere."""
import gzip
import hashlib
import os
import shutil
import subprocess
import sys
import tarfile
import tempfile
from pathlib import Path

from building.crates import ROOT, say
from building.install import copy_all, open_to_all
from building.version import first_line, number

DEBIAN = ROOT / "packaging"
DEPLOY = ROOT / "examples" / "deploy"
UNITS = ["rollout.service", "rollout@.service", "rollout-nft.service"]
# The folders of the manifests and of the unit's log, which dpkg makes.
FOLDERS = ["etc/rollout", "var/log/rollout"]


def moment():
    """The time of all files in an archive: that of the commit, if there is one."""
    given = os.environ.get("SOURCE_DATE_EPOCH") or first_line("git", "log", "-1", "--format=%ct")
    return int(given or 0)


def pack(folder, name, file):
    def plain(it):
        it.uid = it.gid = 0
        it.uname = it.gname = "root"
        it.mtime = moment()
        return it

    with open(file, "wb") as out, gzip.GzipFile("", "wb", fileobj=out, mtime=0) as zipped:
        with tarfile.open(fileobj=zipped, mode="w") as tar:
            for path in sorted(folder.rglob("*")):
                tar.add(path, f"{name}/{path.relative_to(folder)}", recursive=False, filter=plain)


def set_in_place(new, place):
    """Writes a file and its SHA-256 into the requested folder. It writes through no link there."""
    place.parent.mkdir(parents=True, exist_ok=True)
    found = hashlib.sha256(new.read_bytes()).hexdigest()
    with tempfile.TemporaryDirectory(dir=place.parent, prefix=".rollout-") as room:
        made, sums = (Path(room) / f"{place.name}{end}" for end in ("", ".sha256"))
        shutil.copyfile(new, made)
        sums.write_text(f"{found}  {place.name}\n")
        for it in (made, sums):
            it.replace(place.with_name(it.name))
    say(f"wrote {place} and its SHA-256")


def write_archive(folder):
    name = f"rollout-{number()}-x86_64-linux"
    with tempfile.TemporaryDirectory() as room:
        tree, file = Path(room) / name, Path(room) / f"{name}.tar.gz"
        copy_all(tree)
        pack(tree, name, file)
        set_in_place(file, folder / file.name)


def below_usr(text):
    return text.replace("/opt/rollout/", "/usr/")


def unit(name):
    """A unit with the package's paths, and without what the package does at its install."""
    text = (DEPLOY / name).read_text()
    done = ("#   install ", "#   cp rollout")
    lines = [it for it in text.splitlines() if not it.startswith(done)]
    text = "\n".join(lines) + "\n"
    return below_usr(text.replace("#   systemctl daemon-reload && ", "#   "))


def lay_out(tree):
    """The files of the package at their places, and the files for dpkg."""
    copy_all(tree / "usr")
    for it in (tree / "usr" / "share" / "rollout" / "examples" / "deploy").iterdir():
        # An image has an install at its own place.
        if it.name != "Dockerfile":
            it.write_text(below_usr(it.read_text()))
    for it in FOLDERS:
        (tree / it).mkdir(parents=True)
    texts = {it.name: it.read_text() for it in DEBIAN.iterdir()}
    places = {
        **{f"usr/lib/systemd/system/{name}": unit(name) for name in UNITS},
        "usr/share/doc/rollout/copyright": texts.pop("copyright"),
        "etc/logrotate.d/rollout": (DEPLOY / "rollout.logrotate").read_text(),
        **{f"DEBIAN/{name}": text for name, text in texts.items()},
    }
    for name, text in places.items():
        (tree / name).parent.mkdir(parents=True, exist_ok=True)
        (tree / name).write_text(text.replace("@VERSION@", number()))
        if text.startswith("#!"):
            (tree / name).chmod(0o755)
    open_to_all(tree)


def write_deb(folder):
    if not shutil.which("dpkg-deb"):
        sys.exit("rollout: there is no command dpkg-deb, which makes a package for Debian")
    with tempfile.TemporaryDirectory() as room:
        tree, file = Path(room) / "tree", Path(room) / f"rollout_{number()}_amd64.deb"
        lay_out(tree)
        # One thread and one block, so that the bytes are the same on any machine.
        words = ["dpkg-deb", "--root-owner-group", "-Zgzip", "--build", tree, file]
        given = {**os.environ, "SOURCE_DATE_EPOCH": str(moment())}
        done = subprocess.run(words, env=given, capture_output=True, text=True)
        if done.returncode:
            sys.exit(f"rollout: dpkg-deb: {done.stderr.strip()}")
        set_in_place(file, folder / file.name)
