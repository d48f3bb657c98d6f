"""A Chromium without a window, told what to do through a pipe (the DevTools protocol)."""
import base64
import contextlib
import json
import os
import shutil
import subprocess
import tempfile
import time

NAMES = ("chromium", "chromium-browser", "google-chrome")
WORDS = ("--headless=new", "--no-sandbox", "--disable-gpu", "--no-first-run", "--hide-scrollbars", "--remote-debugging-pipe", "--lang=en")
KEYS = {"ArrowLeft": 37, "ArrowRight": 39, "Home": 36, "End": 35, "Tab": 9, "Enter": 13}
CONTROL = 2


class Wrong(Exception):
    """What the page did, or did not do."""


def found():
    """The browser's path, or None."""
    return next(filter(None, map(shutil.which, NAMES)), None)


class Browser:
    """A browser with one page open."""

    def __init__(self, process, to, of):
        self.process, self.to, self.of = process, to, of
        self.count, self.rest, self.errors, self.session = 0, b"", [], None

    def message(self):
        """The next message of the browser."""
        while b"\0" not in self.rest:
            part = os.read(self.of, 1 << 20)
            if not part:
                raise Wrong("the browser has ended")
            self.rest += part
        text, self.rest = self.rest.split(b"\0", 1)
        return json.loads(text)

    def call(self, method, **parameters):
        """Sends a command, and returns its result. What the page complains about meanwhile is kept in `errors`."""
        self.count += 1
        command = {"id": self.count, "method": method, "params": parameters}
        if self.session:
            command["sessionId"] = self.session
        os.write(self.to, json.dumps(command).encode("utf-8") + b"\0")
        while (answer := self.message()).get("id") != self.count:
            self.note(answer)
        if "error" in answer:
            raise Wrong(f"{method}: {answer['error']['message']}")
        return answer["result"]

    def note(self, event):
        """Keeps what a page complains about."""
        what = event.get("params", {})
        if event.get("method") == "Runtime.exceptionThrown":
            self.errors.append(what["exceptionDetails"].get("exception", {}).get("description", "an exception"))
        elif event.get("method") == "Log.entryAdded" and what["entry"]["level"] == "error":
            self.errors.append(f"{what['entry']['text']} {what['entry'].get('url', '')}")

    def attach(self):
        """Takes the page that the browser has opened."""
        target = next(one for one in self.call("Target.getTargets")["targetInfos"] if one["type"] == "page")
        self.session = self.call("Target.attachToTarget", targetId=target["targetId"], flatten=True)["sessionId"]
        for part in ("Page", "Runtime", "Log"):
            self.call(f"{part}.enable")

    def open(self, address):
        self.call("Page.navigate", url=address)

    def value(self, expression):
        """The value of an expression of JavaScript, or of what it promises."""
        done = self.call("Runtime.evaluate", expression=expression, awaitPromise=True, returnByValue=True)
        if "exceptionDetails" in done:
            raise Wrong(f"{expression}: {done['exceptionDetails']['exception'].get('description', '')}")
        return done["result"].get("value")

    def wait(self, expression, seconds=60):
        """Waits until an expression is true."""
        end = time.monotonic() + seconds
        while not self.value(f"Boolean({expression})"):
            if time.monotonic() > end:
                raise Wrong(f"it is not so after {seconds} seconds: {expression}")
            time.sleep(0.05)

    def key(self, key, modifiers=0):
        """Presses a key."""
        for kind in ("keyDown", "keyUp"):
            self.call("Input.dispatchKeyEvent", type=kind, key=key, code=key, windowsVirtualKeyCode=KEYS[key], modifiers=modifiers)

    def type(self, text):
        self.call("Input.insertText", text=text)

    def look(self, width, height, scheme="light"):
        """Sets the size of the window, and whether it is dark."""
        self.call("Emulation.setDeviceMetricsOverride", width=width, height=height, deviceScaleFactor=1, mobile=False)
        self.call("Emulation.setEmulatedMedia", features=[{"name": "prefers-color-scheme", "value": scheme}])

    def picture(self):
        """What the window shows, as a PNG."""
        return base64.b64decode(self.call("Page.captureScreenshot", format="png")["data"])


@contextlib.contextmanager
def browsing(program):
    """Starts the browser, with a folder of its own, and ends it."""
    to_read, to_write = os.pipe()
    of_read, of_write = os.pipe()
    with tempfile.TemporaryDirectory(ignore_cleanup_errors=True) as folder:
        command = ["sh", "-c", f'exec "$0" "$@" 3<&{to_read} 4>&{of_write}', program, *WORDS, f"--user-data-dir={folder}", "about:blank"]
        process = subprocess.Popen(command, pass_fds=(to_read, of_write), stdout=subprocess.DEVNULL, stderr=subprocess.DEVNULL)
        os.close(to_read)
        os.close(of_write)
        try:
            browser = Browser(process, to_write, of_read)
            browser.attach()
            yield browser
        finally:
            with contextlib.suppress(Wrong, OSError):
                browser.session = None
                browser.call("Browser.close")
            with contextlib.suppress(subprocess.TimeoutExpired):
                process.wait(10)
            process.kill()
            os.close(to_write)
            os.close(of_read)
