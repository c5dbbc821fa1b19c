"""A page in Chromium without a window, by its DevTools protocol over two pipes: its document, its
messages, its width, and pictures of it.
"""
import base64
import contextlib
import fcntl
import json
import os
import select
import shutil
import subprocess
import tempfile
import time
from pathlib import Path

PATIENCE = 60
WORDS = ["chromium", "--headless=new", "--no-sandbox", "--disable-gpu", "--hide-scrollbars",
         "--no-first-run", "--remote-debugging-pipe"]


class Failed(Exception):
    """Chromium refuses a call, or doesn't reply in time."""


def passed(ours, theirs):
    """Gives a child the first pipe's end as its descriptor 3, and the second's as 4."""
    high = [fcntl.fcntl(it, fcntl.F_DUPFD, 10) for it in (ours, theirs)]
    for number, it in zip((3, 4), high):
        os.dup2(it, number)


class Browser:
    """Chromium with one page, until the end of a `with`."""

    def __enter__(self):
        self.room = Path(tempfile.mkdtemp())
        reads, self.to = os.pipe()
        self.come, writes = os.pipe()
        words = [*WORDS, f"--user-data-dir={self.room}", "about:blank"]
        self.process = subprocess.Popen(words, preexec_fn=lambda: passed(reads, writes),
                                        pass_fds=(3, 4), stdin=subprocess.DEVNULL,
                                        stdout=subprocess.DEVNULL, stderr=subprocess.DEVNULL)
        os.close(reads)
        os.close(writes)
        self.number, self.rest, self.events, self.session = 0, b"", [], None
        targets = self.call("Target.getTargets")["targetInfos"]
        [page] = [it["targetId"] for it in targets if it["type"] == "page"]
        attached = self.call("Target.attachToTarget", targetId=page, flatten=True)
        self.session = attached["sessionId"]
        for part in ("Page", "Log", "Runtime"):
            self.call(f"{part}.enable")
        return self

    def __exit__(self, *_):
        os.close(self.to)
        os.close(self.come)
        with contextlib.suppress(subprocess.TimeoutExpired):
            self.process.wait(10)
        self.process.kill()
        self.process.wait()
        shutil.rmtree(self.room, ignore_errors=True)

    def call(self, method, **parameters):
        """The result of a method."""
        self.number += 1
        message = {"id": self.number, "method": method, "params": parameters}
        if self.session:
            message["sessionId"] = self.session
        os.write(self.to, json.dumps(message).encode() + b"\0")
        reply = self.awaited(lambda it: it.get("id") == self.number)
        if "error" in reply:
            raise Failed(f"{method}: {reply['error']}")
        return reply["result"]

    def awaited(self, is_it):
        """The first message of this kind; the others are kept as events."""
        until = time.monotonic() + PATIENCE
        while True:
            while b"\0" in self.rest:
                text, self.rest = self.rest.split(b"\0", 1)
                message = json.loads(text)
                if is_it(message):
                    return message
                self.events.append(message)
            ready, _, _ = select.select([self.come], [], [], max(0, until - time.monotonic()))
            piece = os.read(self.come, 1 << 20) if ready else b""
            if not piece:
                raise Failed("no reply")
            self.rest += piece

    def open(self, url):
        """Loads a page."""
        self.events.clear()
        found = self.call("Page.navigate", url=url)
        if "errorText" in found:
            raise Failed(f"{url}: {found['errorText']}")
        loads = [it for it in self.events if it.get("method") == "Page.loadEventFired"]
        if not loads:
            self.events.append(self.awaited(lambda it: it.get("method") == "Page.loadEventFired"))

    def messages(self):
        """What the console has so far, of the page that was opened last."""
        self.call("Runtime.evaluate", expression="0")
        kinds = ("Log.entryAdded", "Runtime.consoleAPICalled", "Runtime.exceptionThrown")
        return [it["params"] for it in self.events if it.get("method") in kinds]

    def value(self, expression):
        """The value of an expression in the page."""
        found = self.call("Runtime.evaluate", expression=expression, returnByValue=True)
        if "exceptionDetails" in found:
            raise Failed(f"{expression}: {found['exceptionDetails']}")
        return found["result"].get("value")

    def look(self, width, height=800, scheme="light", medium=""):
        """Shows the page as wide as this, in light or dark colours, or as paper (`print`)."""
        self.call("Emulation.setDeviceMetricsOverride", width=width, height=height,
                  deviceScaleFactor=1, mobile=False)
        self.call("Emulation.setEmulatedMedia", media=medium,
                  features=[{"name": "prefers-color-scheme", "value": scheme}])

    def picture(self, height=None):
        """The page as PNG: its first `height` pixels, or all."""
        width, whole = self.value("[innerWidth, document.documentElement.scrollHeight]")
        size = {"width": width, "height": height or min(whole, 12000), "scale": 1}
        found = self.call("Page.captureScreenshot", format="png", captureBeyondViewport=True,
                          clip={"x": 0, "y": 0, **size})
        return base64.b64decode(found["data"])
