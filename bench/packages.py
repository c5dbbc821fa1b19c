"""Checks what ./build delivers: an install, an archive and a Debian package, made from scratch
repositories whose toolchain proves nothing. It also installs this repository's package in a
copy-on-write root over this host's files.

Each check returns nothing, or what was wrong. If a command isn't installed, the check is skipped
with that name.
"""
import contextlib
import os
import re
import shutil
import socket
import subprocess
import sys
import tarfile
from pathlib import Path

from asking import program_of
from hosts import DEPLOY, Skipped, called, needs, needs_root
from launching import BARE, BUILT_FROM, HELP, ROOT, Repository

SHARED = ["README.md", "CHANGELOG.md", "VERSION", "built-from"]
SHARED += ["docs/internals/TRAPS.md", "docs/reference/README.md"]
SHARED += ["examples/one.rule", *(f"examples/deploy/{it.name}" for it in DEPLOY.iterdir())]
INSTALLED = {"bin/rollout", "libexec/rollout", "libexec/rollout-tools"}
INSTALLED |= {f"share/rollout/{it}" for it in SHARED}
INSTALLED |= {"share/bash-completion/completions/rollout", "share/zsh/vendor-completions/_rollout"}
INSTALLED |= {"share/fish/vendor_completions.d/rollout.fish", "share/man/man1/rollout.1"}
# Words, and what an install prints.
RUNS = [(["stop", ""], "<rollout><stop><>"), (["ask"], "<rollout-tools><ask>")]
RUNS += [(["frob"], "<rollout><frob>"), ([], "<rollout>"), (["--version"], BUILT_FROM)]
RUNS += [(["-V"], BUILT_FROM), (["verbose"], "1\n")]
PORTS = [18098, 18099]
FOLDERS = ["etc/rollout", "var/log/rollout"]
UNITS = ["rollout.service", "rollout@.service", "rollout-nft.service"]
UNITS = [f"usr/lib/systemd/system/{it}" for it in UNITS]
# What else a purge removes.
MADE = ["usr/bin/rollout", "usr/share/rollout", "var/log/rollout"]
MADE += ["etc/systemd/system/multi-user.target.wants/rollout.service"]
NO_LOGIN = ["/", "/usr/sbin/nologin\n"]


def tree(folder):
    """All paths in a folder, with the files' texts."""
    return {
        str(it.relative_to(folder)): it.read_text() if it.is_file() else None
        for it in folder.rglob("*")
    }


def files(folder):
    return {name for name, text in tree(folder).items() if text is not None}


def installs(folder):
    """./build --install: whole, over an earlier one, or not at all."""
    one = Repository(folder / "install")
    place = one.away / "place"
    if one.build("--install", "place")[0] != 1 or place.exists():
        return "installed without rt and without a program"
    for path in (one.with_rt(), BARE):
        status, _, lines = one.build("--install", "place", path=path)
        wanted = INSTALLED | ({"share/rollout/own"} if path == BARE else set())
        if status != 0 or files(place) != wanted:
            return f"{status} {lines} {files(place)}"
        if any(it.is_symlink() for it in place.rglob("*")):
            return "a link into the repository"
        short = str(one.away / "short")
        Path(short).unlink(missing_ok=True)
        Path(short).symlink_to("place/bin/rollout")
        for words, printed in RUNS:
            if one.call(short, *words) != (0, printed, []):
                return f"{words}: another program"
        for it in re.findall(r"^  (\w+) ", HELP, re.M):
            wanted = (0, f"<{program_of(it).name}><{it}>", [])
            if not one.call(str(one.away / "link"), it) == one.call(short, it) == wanted:
                return f"{it}: another program"
        # An earlier install, with a page that no longer exists, and a file of the operator's.
        (place / "share" / "rollout" / "docs" / "gone.md").touch()
        (place / "share" / "rollout" / "own").touch()
    return not_installed(one, place)


def not_installed(one, place):
    (place / "libexec" / "rollout").unlink()
    (place / "libexec" / "rollout").mkdir()
    (one.away / "file").touch()
    before = tree(one.away)
    for words in ("place", "file", "file/place", "no reference"):
        if words == "no reference":
            (one.top / "docs" / "check.py").write_text("raise SystemExit(1)\n")
        status, _, lines = one.build("--install", words)
        if status != 1 or len(lines) != 1 or "nothing is installed" not in lines[0]:
            return f"where it can't be written: {status} {lines}"
        if tree(one.away) != before:
            return f"{words}: something is left"


def archives(folder):
    """./build --archive and --deb: the same bytes from two folders, and their contents."""
    needs("dpkg-deb")
    made = []
    for name in ("one", "another place"):
        one = Repository(folder / name)
        for kind in ("--archive", "--deb"):
            status, _, lines = one.build(kind, "made", path=one.with_rt())
            if status != 0:
                return f"{kind}: {lines}"
        made.append({it.name: it.read_bytes() for it in (one.away / "made").iterdir()})
    if made[0] != made[1]:
        return "two folders make two archives"
    archive, package = "rollout-0.9.0-x86_64-linux.tar.gz", "rollout_0.9.0_amd64.deb"
    if sorted(made[0]) != sorted(f"{it}{end}" for it in (archive, package) for end in ("", ".sha256")):
        return f"{sorted(made[0])}"
    place = one.away / "made"
    for it in (archive, package):
        if called("sha256sum", "-c", f"{it}.sha256", cwd=place)[0] != 0:
            return f"{it}: another sum"
    with tarfile.open(place / archive) as packed:
        packed.extractall(place)
    if files(place / archive[: -len(".tar.gz")]) != INSTALLED:
        return f"{files(place)}"
    called("dpkg-deb", "--extract", str(place / package), str(place / "deb"))
    more = {it.removeprefix("usr/") for it in UNITS} | {"share/doc/rollout/copyright"}
    if files(place / "deb" / "usr") != INSTALLED | more:
        return f"{files(place / 'deb')}"
    odd = [it for it, text in tree(place / "deb").items() if "/opt/rollout" in (text or "")]
    if odd != ["usr/share/rollout/examples/deploy/Dockerfile"]:
        return f"for another place: {odd}"


def request(port):
    body = '{"request":{"protocol":"3.1","app":[{"appid":"editor","version":"1.9","updatecheck":{}}]}}'
    with socket.create_connection(("127.0.0.1", port), timeout=30) as stream:
        head = f"POST /service/update2/json HTTP/1.1\r\nContent-Length: {len(body)}\r\n\r\n"
        stream.sendall((head + body).encode())
        return stream.makefile().read()


# Makes of the empty folder $1 a copy-on-write root over this host's files, without the commands of
# systemd that make users and folders.
ROOT_OF_ITS_OWN = """
mount -t tmpfs tmpfs "$1" && mkdir "$1/up" "$1/work" "$1/new"
mount -t overlay -o lowerdir=/,upperdir="$1/up",workdir="$1/work" overlay "$1/new"
cd "$1/new"
for it in dev proc sys; do mount --rbind /$it $it; done
mount -t tmpfs tmpfs run && mount -t tmpfs -o mode=1777 tmpfs tmp
rm -rf etc/rollout var/log/rollout usr/bin/systemd-sysusers usr/bin/systemd-tmpfiles
exec chroot . sh -c 'echo ready && exec sleep 600'
"""


@contextlib.contextmanager
def root_of_its_own(folder):
    """The words that run a command in this root, and the root's path from outside."""
    words = ["unshare", "--mount", "sh", "-ec", ROOT_OF_ITS_OWN, "root", str(folder)]
    folder.mkdir()
    with subprocess.Popen(words, stdout=subprocess.PIPE, stderr=subprocess.PIPE, text=True) as it:
        try:
            if it.stdout.readline() != "ready\n":
                raise Skipped(f"no root of its own: {it.stderr.read().strip()}")
            into = ["nsenter", "-t", str(it.pid), "-m", "-r", "-w", "env", "-i"]
            yield [*into, "PATH=/usr/sbin:/usr/bin:/sbin:/bin"], Path(f"/proc/{it.pid}/root")
        finally:
            it.kill()


def served(into, manifest):
    """What is wrong with the installed programs, run as the package's user."""
    user = [*into, "setpriv", "--reuid=rollout", "--regid=rollout", "--clear-groups"]
    checked = called(*user, "rollout", "check", manifest)
    if checked[0] != 0 or "\ndigest " not in checked[1]:
        return f"{checked}"
    words = ["rollout", "serve", manifest, "--port", str(PORTS[0]), "--operator", str(PORTS[1])]
    server = subprocess.Popen(
        [*user, *words, "--workers", "2"], stdout=subprocess.PIPE, text=True
    )
    try:
        if server.stdout.readline() != "serving generation 1\n":
            return "it doesn't serve"
        found = request(PORTS[0])
        stop = called(*into, "rollout", "stop", "--operator", str(PORTS[1]), "--wait")
        if '"version":"2.0.4"' not in found or stop != (0, "stopping\n") or server.wait(30) != 0:
            return f"{found} {stop}"
    finally:
        server.kill()
        server.wait()


def wrong_package(into, root):
    """What is wrong with the installed package: its user, its folders, its units, its server."""
    for it in FOLDERS:
        if not (root / it).is_dir():
            return f"no folder {it}"
    if called(*into, "getent", "passwd", "rollout")[1].split(":")[-2:] != NO_LOGIN:
        return f"no user: {called(*into, 'getent', 'passwd', 'rollout')}"
    # The third unit's command may not be installed here.
    found = called(*into, "systemd-analyze", "verify", "--man=no", *(f"/{it}" for it in UNITS[:2]))
    if found != (0, "") or called(*into, "systemctl", "enable", "rollout")[0] != 0:
        return f"its units: {found}"
    for it in (ROOT / "examples" / "staged").iterdir():
        shutil.copy(it, root / "etc" / "rollout")
    return served(into, "/etc/rollout/manifest.toml")


def package(folder):
    """The package of this repository, without systemd: installed, served from, installed again, and
    purged, which leaves the manifests."""
    needs("dpkg", "dpkg-deb", "unshare", "nsenter", "setpriv", "systemctl")
    needs_root()
    built = called(sys.executable, str(ROOT / "build"), "--deb", str(folder))
    if built[0] != 0:
        return f"not built: {built}"
    [file] = folder.glob("rollout_*_amd64.deb")
    with root_of_its_own(folder / "root") as (into, root):
        shutil.copy(file, root / "tmp" / "rollout.deb")
        for _ in range(2):
            if (found := called(*into, "dpkg", "--install", "/tmp/rollout.deb"))[0] != 0:
                return f"not installed: {found}"
            if wrong := wrong_package(into, root):
                return wrong
        if (found := called(*into, "dpkg", "--purge", "rollout"))[0] != 0:
            return f"not removed: {found}"
        left = [it for it in [*UNITS, *MADE] if os.path.lexists(root / it)]
        if left or not (root / "etc" / "rollout" / "manifest.toml").exists():
            return f"left behind: {left}, or no manifest is left"


PACKAGES = {
    "./build --install": installs,
    "./build --archive and --deb": archives,
    "the package, without systemd": package,
}
