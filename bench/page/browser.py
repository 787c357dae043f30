"""Chromium without a window, for bench/page/look: it is asked over two pipes, in the words of its DevTools."""
import base64
import fcntl
import json
import os
import select
import shutil
import subprocess
import tempfile
from pathlib import Path

# (an answer of a page comes once it has drawn)
DRAWN = "new Promise((done) => requestAnimationFrame(() => requestAnimationFrame(done)))"
# What says that a page did something wrong.
WRONG = ("Runtime.exceptionThrown", "Runtime.consoleAPICalled", "Log.entryAdded")


def install():
    """Sees that Chromium is there: root gets Debian's package."""
    if not shutil.which("chromium") and os.getuid() == 0:
        subprocess.run(["apt-get", "install", "-y", "--no-install-recommends", "chromium"], stdout=subprocess.DEVNULL, check=False)
    if not shutil.which("chromium"):
        raise SystemExit("page: Chromium isn't installed: apt-get install chromium")


class Browser:
    def __init__(self):
        install()
        # (their numbers are none of those that the browser wants)
        theirs, self.out, self.back, answers = (fcntl.fcntl(it, fcntl.F_DUPFD_CLOEXEC, 20) for it in (*os.pipe(), *os.pipe()))
        self.folder = tempfile.TemporaryDirectory()
        words = ["chromium", "--headless", "--disable-gpu", "--remote-debugging-pipe", f"--user-data-dir={self.folder.name}"]
        words += ["--window-size=1400,950", *(["--no-sandbox"] if os.getuid() == 0 else []), "about:blank"]
        redirected, quiet = f'exec "$@" 3<&{theirs} 4>&{answers}', {"stdout": subprocess.DEVNULL, "stderr": subprocess.DEVNULL}
        self.process = subprocess.Popen(["bash", "-c", redirected, "chromium", *words], pass_fds=(theirs, answers), **quiet)
        os.close(theirs)
        os.close(answers)
        self.asked, self.read, self.session, self.events = 0, b"", {}, []
        target = self.ask("Target.createTarget", url="about:blank")["targetId"]
        self.session = {"sessionId": self.ask("Target.attachToTarget", targetId=target, flatten=True)["sessionId"]}
        for domain in ("Page", "Runtime", "Log", "Network"):
            self.ask(f"{domain}.enable")

    def hear(self):
        """The next message; it is kept, if it is an event."""
        while b"\0" not in self.read:
            if not select.select([self.back], [], [], 120)[0]:
                self.process.kill()
                raise SystemExit("page: the browser doesn't answer")
            if not (more := os.read(self.back, 1 << 20)):
                raise SystemExit("page: the browser ended")
            self.read += more
        message, _, self.read = self.read.partition(b"\0")
        it = json.loads(message)
        if "method" in it:
            self.events.append(it)
        return it

    def ask(self, method, **params):
        self.asked += 1
        message = {"id": self.asked, "method": method, "params": params, **self.session}
        os.write(self.out, json.dumps(message).encode() + b"\0")
        while (it := self.hear()).get("id") != self.asked:
            pass
        if "error" in it:
            raise SystemExit(f"page: {method}: {it['error']}")
        return it["result"]

    def open(self, path):
        self.events = []
        self.ask("Page.navigate", url=f"file://{path}")
        while not any(it["method"] == "Page.loadEventFired" for it in self.events):
            self.hear()

    def value(self, text):
        """The value of an expression in the page."""
        it = self.ask("Runtime.evaluate", expression=text, returnByValue=True, awaitPromise=True)
        return it.get("exceptionDetails") or it["result"].get("value")

    def drawn(self, text):
        """The same, of a page that has drawn what it had to."""
        self.value(DRAWN)
        return self.value(text)

    def press(self, key):
        self.ask("Input.dispatchKeyEvent", type="keyDown", key=key, **({"text": key} if len(key) == 1 else {}))
        self.ask("Input.dispatchKeyEvent", type="keyUp", key=key)

    def click(self, x, y):
        for kind in ("mousePressed", "mouseReleased"):
            self.ask("Input.dispatchMouseEvent", type=kind, x=x, y=y, button="left", clickCount=1)

    def resize(self, width, height):
        self.ask("Emulation.setDeviceMetricsOverride", width=width, height=height, deviceScaleFactor=1, mobile=False)

    def prefer(self, scheme):
        """Says whether it is day or night: light or dark."""
        self.ask("Emulation.setEmulatedMedia", features=[{"name": "prefers-color-scheme", "value": scheme}])

    def shoot(self, path):
        self.value(DRAWN)
        Path(path).write_bytes(base64.b64decode(self.ask("Page.captureScreenshot")["data"]))

    def faults(self, path):
        """What the page did that it mustn't: an error, a message, a request for another file."""
        for it in self.events:
            url = it["params"].get("request", {}).get("url", f"file://{path}")
            if it["method"] in WRONG or url != f"file://{path}":
                yield str(it)[:400]

    def end(self):
        self.ask("Browser.close")
        self.process.wait()
