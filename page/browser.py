"""A headless Chromium that opens one page, by its DevTools protocol over two pipes. It wants nothing but Python."""

import base64
import json
import os
import select
import shutil
import subprocess
import tempfile

PATIENCE = 120  # seconds without a message before the browser is given up
NAMES = ("chromium", "chromium-browser", "google-chrome", "chrome")


class Failed(Exception):
    """The browser did not do what it was asked to."""


def found():
    """The path of a Chromium on this machine."""
    for name in NAMES:
        path = shutil.which(name)
        if path:
            return path
    raise Failed("no Chromium: tried " + ", ".join(NAMES))


class Browser:
    """A browser with one page, to be used in a `with`."""

    def __init__(self, width=1280, height=900):
        self.size = (width, height)
        self.number = 0
        self.pending = b""
        self.session = None
        self.messages = []

    def __enter__(self):
        self.folder = tempfile.TemporaryDirectory(prefix="page-")
        to_browser, self.to = os.pipe()
        self.back, from_browser = os.pipe()

        def pass_pipes():
            os.dup2(to_browser, 10)
            os.dup2(from_browser, 11)
            os.dup2(10, 3)
            os.dup2(11, 4)
            os.closerange(5, 64)

        words = [found(), "--headless=new", "--no-sandbox", "--disable-gpu", "--no-first-run", "--remote-debugging-pipe",
                 "--disable-background-networking", f"--user-data-dir={self.folder.name}",
                 f"--window-size={self.size[0]},{self.size[1]}", "about:blank"]
        self.process = subprocess.Popen(words, preexec_fn=pass_pipes, close_fds=False, stdin=subprocess.DEVNULL,
                                        stdout=subprocess.DEVNULL, stderr=subprocess.DEVNULL)
        os.close(to_browser)
        os.close(from_browser)
        target = next(it for it in self.ask("Target.getTargets")["targetInfos"] if it["type"] == "page")
        self.session = self.ask("Target.attachToTarget", targetId=target["targetId"], flatten=True)["sessionId"]
        self.ask("Page.enable")
        self.ask("Runtime.enable")
        return self

    def __exit__(self, *_):
        self.session = None
        try:
            self.ask("Browser.close")
        except (Failed, OSError):
            self.process.kill()
        self.process.wait()
        os.close(self.to)
        os.close(self.back)
        self.folder.cleanup()

    def ask(self, method, **how):
        """Sends a command and waits for its answer. Events that come before it are kept in `messages`."""
        self.number += 1
        asked = {"id": self.number, "method": method, "params": how}
        if self.session:
            asked["sessionId"] = self.session
        data = json.dumps(asked).encode() + b"\0"
        while data:
            data = data[os.write(self.to, data):]
        while True:
            told = self.next_message()
            if told.get("id") == self.number:
                if "error" in told:
                    raise Failed(f"{method}: {told['error']['message']}")
                return told["result"]
            self.messages.append(told)

    def next_message(self):
        """The next message of the browser."""
        while b"\0" not in self.pending:
            if not select.select([self.back], [], [], PATIENCE)[0]:
                raise Failed("the browser says nothing")
            data = os.read(self.back, 1 << 20)
            if not data:
                raise Failed("the browser ended")
            self.pending += data
        told, _, self.pending = self.pending.partition(b"\0")
        return json.loads(told)

    def wait_for(self, method):
        """Waits for an event."""
        while not any(told.get("method") == method for told in self.messages):
            self.messages.append(self.next_message())
        self.messages = [told for told in self.messages if told.get("method") != method]

    def open(self, path, fragment=""):
        """Opens a file anew, at a fragment, and waits until it is loaded."""
        self.ask("Page.navigate", url="about:blank")
        self.wait_for("Page.loadEventFired")
        self.ask("Page.navigate", url=f"file://{os.path.abspath(path)}{fragment}")
        self.wait_for("Page.loadEventFired")

    def evaluate(self, text):
        """The value of an expression in the page; of a promise what comes of it."""
        told = self.ask("Runtime.evaluate", expression=text, awaitPromise=True, returnByValue=True)
        if "exceptionDetails" in told:
            details = told["exceptionDetails"]
            raise Failed(details.get("exception", {}).get("description") or details["text"])
        return told["result"].get("value")

    def show_as(self, scheme="light", width=1280, height=900):
        """Shows the page in a colour scheme and a size."""
        self.ask("Emulation.setEmulatedMedia", features=[{"name": "prefers-color-scheme", "value": scheme}])
        self.ask("Emulation.setScrollbarsHidden", hidden=True)
        self.ask("Emulation.setDeviceMetricsOverride", width=width, height=height, deviceScaleFactor=1, mobile=False)

    def picture(self, path, whole=True):
        """Takes a picture of the page, the whole of it or what the window shows."""
        told = self.ask("Page.captureScreenshot", format="png", captureBeyondViewport=whole)
        with open(path, "wb") as file:
            file.write(base64.b64decode(told["data"]))

    def logged(self):
        """What the page wrote to its console, and the errors that nothing caught."""
        found = []
        for told in self.messages:
            if told.get("method") == "Runtime.consoleAPICalled":
                found.append(" ".join(str(it.get("value", it.get("description"))) for it in told["params"]["args"]))
            if told.get("method") == "Runtime.exceptionThrown":
                found.append(json.dumps(told["params"]["exceptionDetails"])[:600])
        return found
