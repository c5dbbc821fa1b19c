"""What is wrong with a page of `report --html`: in its text, in a browser, and on a disk that is
full. Each check returns nothing, or what was wrong.
"""
import base64
import hashlib
import os
import re
import shutil
import subprocess
import xml.dom.minidom

from asking import ROOT
from browsing import PASSWORD, Dom, fetched, served
from page_logs import NAMES, WAITED, rows_of, shown_name, statuses_of

COLUMNS = 7
# The versions that occur first have a row.
MOST_VERSIONS = 256
# The pages of the bad night, on which a release fails.
FAILING = {"bad-night", "continued", "whole"}
WIDTHS = (360, 400, 720, 1040, 1280, 2000)


# ---- the text


def known():
    """The names of elements, attributes and classes that the crate `markup` has."""
    texts = [(ROOT / "crates/markup/specs" / f).read_text() for f in ("Names.antt", "Classes.antt")]
    return set(re.findall(r'codes "([^"]+)"', "".join(texts)))


def elements_of(node):
    """A node's elements in their order, each with its attributes, and the texts."""
    for child in node.childNodes:
        if child.nodeType == child.TEXT_NODE and child.data.strip():
            yield child.data
        if child.nodeType == child.ELEMENT_NODE:
            attrs = sorted((name.lower(), value) for name, value in child.attributes.items())
            yield child.tagName.lower(), attrs
            yield from elements_of(child)


def fault_of(page):
    """What is wrong with a page's text."""
    try:
        document = xml.dom.minidom.parseString(page.encode())
    except Exception as error:
        return f"isn't well-formed: {error}"
    style = re.search(r"<style>(.*?)</style>", page, re.S).group(1)
    wanted = base64.b64encode(hashlib.sha256(style.encode()).digest()).decode()
    if f"style-src 'sha256-{wanted}'" not in page:
        return f"its policy lacks 'sha256-{wanted}'"
    names = known()
    for element in document.getElementsByTagName("body")[0].getElementsByTagName("*"):
        classes = element.getAttribute("class").split()
        for word in (element.tagName, *element.attributes.keys(), *classes):
            if word not in names and word != "class":
                return f"has {word} in {element.tagName}"
    if [*elements_of(document)] != Dom(page).parts:
        return "is another document as HTML than as XML"


def refusal_of(page):
    """What xmllint or tidy report."""
    tidy = ["tidy", "-q", "-e", "-utf8", "--drop-empty-elements", "no"]
    for words in (["xmllint", "--noout", "--huge"], tidy):
        if shutil.which(words[0]):
            done = subprocess.run([*words, page], capture_output=True, text=True)
            if done.returncode or done.stdout or done.stderr:
                return f"{words[0]}: {(done.stdout + done.stderr).splitlines()[:3]}"


def oversized(page, lines):
    """A page of three apps has at most 100 KB, and any other 2 MB: one of 256 apps, too, and one at
    a report's limits."""
    apps = {app["appid"] for line in lines for app in line.get("apps", [])}
    most = 100_000 if len(apps) <= 3 else 2_000_000
    if (size := len(page.encode())) > most:
        return f"{size} bytes of {len(apps)} apps"


def shown(report):
    """The text of a report as a page shows it: without a server's counters."""
    text = report.partition("counters\nnumber\t")[0].replace("\t", "    ")
    return re.sub("[\ufffe\uffff]", "?", text)


def misread(dom, name, lines, report):
    """What a page says otherwise than its log or its report."""
    if dom.whole != shown(report):
        pairs = zip(dom.whole.splitlines(), shown(report).splitlines())
        return f"the whole report differs: {[it for it in pairs if it[0] != it[1]][:1]}"
    if name == "hostile":
        missing = [it for it in NAMES if shown_name(it) not in dom.names]
        return f"names aren't shown: {missing}" if missing else None
    rows, wanted = [it for it in dom.rows if len(it) == COLUMNS], rows_of(lines)
    cut = len(wanted) > MOST_VERSIONS and len(rows) == MOST_VERSIONS
    if not all(it in wanted for it in rows) if cut else rows != wanted:
        return f"its versions are {[it for it in rows if it not in wanted][:2]} of {len(rows)}"
    if missing := [it for it in statuses_of(lines) if it not in dom.rows]:
        return f"replies aren't there: {missing}"
    if any(it.startswith(WAITED) for it in dom.items) != (name in FAILING):
        return f"its findings are {dom.items}"


# ---- in a browser


def misbrowsed(browser, page, lines, report):
    """What is wrong in a browser, behind nginx with a password."""
    with served(page.folder, page.path) as url:
        if (fetched(None)[0], fetched("wrong")[0]) != (401, 401):
            return "nginx serves it without the password"
        status, headers = fetched(PASSWORD)
        if status != 200 or headers["Content-Type"] != "text/html; charset=utf-8":
            return f"nginx: {status} {headers}"
        if fetched(PASSWORD, "DELETE")[0] != 403:
            return "nginx allows DELETE"
        browser.open(url)
        dom = Dom(browser.value("document.documentElement.outerHTML"))
        wide = too_wide(browser)
        if messages := browser.messages():
            return f"the console says {messages[:2]}"
    if dom.parts != Dom(page.path.read_text()).parts:
        return "the browser makes another document of it"
    return wide or page.misread(dom, lines, report)


def too_wide(browser):
    """At which width of the window or of paper one has to scroll sideways, with all unfolded."""
    browser.value("document.querySelectorAll('details').forEach(it => it.open = true)")
    for medium in ("screen", "print"):
        for width in WIDTHS:
            browser.look(width, medium=medium)
            if (found := browser.value("document.documentElement.scrollWidth")) > width:
                return f"{medium}: {found} pixels wide in a window of {width}"


def has_message(browser, folder, page):
    """Whether a page that breaks its policy has a message, so that silence means something."""
    loud = folder / "loud.html"
    loud.write_text(page.read_text().replace("</body>", "<script>1</script></body>"))
    browser.open(loud.as_uri())
    if not browser.messages():
        return "a page that breaks its policy has no message in the console"


def ageless(browser, _folder, page):
    """A page says after a minute that it is old, and not before."""
    browser.open(page.as_uri())
    found = []
    for milliseconds in (59_000, 61_000):
        browser.value(f"document.getAnimations().forEach(it => it.currentTime = {milliseconds})")
        found.append(browser.value(
            "getComputedStyle(document.querySelector('p.facts'), '::after').visibility"))
    if found != ["hidden", "visible"]:
        return f"its age is {found} before and after a minute"


def unstyled(browser, folder, page):
    """A page with another hash in its policy looks as one without a style."""
    text = page.read_text()
    style = re.search(r"<style>.*?</style>", text, re.S)[0]
    pages = {"right": text, "wrong": text.replace("'sha256-", "'sha256-A", 1),
             "none": text.replace(style, "")}
    found = {}
    for name, it in pages.items():
        path = folder / f"style-{name}.html"
        path.write_text(it)
        browser.open(path.as_uri())
        browser.look(1280)
        found[name] = browser.picture(800)
    if found["wrong"] != found["none"] or found["right"] == found["none"]:
        return "a wrong hash doesn't take the style away"


# ---- a disk that is full


def full_disks(page):
    """A disk that takes no more, in each of two ways, leaves the page as it was."""
    before, beside = page.path.read_bytes(), sorted(page.folder.iterdir())
    limit = ["sh", "-c", "trap '' XFSZ; ulimit -f 4; exec \"$@\"", "limit"]
    done = page.write(page.path, *limit)
    same = page.path.read_bytes() == before and sorted(page.folder.iterdir()) == beside
    if done.returncode != 1 or done.stdout or not same:
        return f"a file that may not grow: {done.returncode} {done.stderr}"
    return full_device(page, len(before))


def full_device(page, size):
    """A small file system in memory, which has place for this page and no other."""
    if os.geteuid() != 0 or not shutil.which("unshare"):
        return None
    disk = page.folder / "disk"
    script = f"""mount -t tmpfs -o size={size // 4096 * 4096 + 8192} none {disk} &&
cp {page.path} {disk}/page.html || exit 9
"$@"
status=$?
cmp {page.path} {disk}/page.html && [ "$(ls {disk})" = page.html ] && exit $status"""
    disk.mkdir()
    done = page.write(disk / "page.html", "unshare", "-m", "sh", "-c", script, "full")
    disk.rmdir()
    if done.returncode != 1 or done.stdout:
        return f"a full device: {done.returncode} {done.stdout} {done.stderr}"
