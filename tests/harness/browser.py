"""Chromium without a window, driven over pipes by its own protocol: JSON messages that end with a zero byte."""
import base64
import contextlib
import itertools
import json
import os
import select
import shutil
import signal
import subprocess
import tempfile
import time

NAMES = ("chromium", "chromium-browser", "google-chrome")
# Root may not use the sandbox, and /dev/shm is small in containers; nothing is fetched by the browser itself.
WORDS = (
    *("--headless=new", "--no-sandbox", "--disable-dev-shm-usage", "--disable-gpu", "--remote-debugging-pipe", "--no-first-run"),
    *("--disable-background-networking", "--disable-component-update", "--disable-sync", "--disable-extensions", "--hide-scrollbars"),
    *("--force-color-profile=srgb", "--force-device-scale-factor=1", "--password-store=basic"),
)


def find():
    return next(filter(None, map(shutil.which, NAMES)), None)


class Fault(Exception):
    """The browser refused a command, or a script of the test failed in the page."""


class Browser:
    """A browser of its own, with a folder of its own; one page at a time."""

    def __init__(self, limit=300):
        self.limit = limit
        self.folder = tempfile.TemporaryDirectory()
        to_browser, self.writer = os.pipe()
        self.reader, from_browser = os.pipe()

        def hand_over():
            # Over higher numbers first, since the pipes may have 3 and 4 themselves.
            high = [os.dup(to_browser), os.dup(from_browser)]
            os.dup2(high[0], 3)
            os.dup2(high[1], 4)

        self.process = subprocess.Popen(
            [find(), *WORDS, f"--user-data-dir={self.folder.name}", "about:blank"],
            preexec_fn=hand_over,
            close_fds=False,
            stdin=subprocess.DEVNULL,
            stdout=subprocess.DEVNULL,
            stderr=subprocess.DEVNULL,
            start_new_session=True,
        )
        os.close(to_browser)
        os.close(from_browser)
        self.numbers = itertools.count(1)
        self.rest = b""
        self.events = []
        self.session = None
        target = self.send("Target.createTarget", url="about:blank")["targetId"]
        self.session = self.send("Target.attachToTarget", targetId=target, flatten=True)["sessionId"]
        for domain in ("Page", "Runtime", "Network", "Log"):
            self.send(f"{domain}.enable")

    def send(self, method, **words):
        """Asks the browser for something, and waits for its answer; what it tells meanwhile is kept in `events`."""
        number = next(self.numbers)
        message = {"id": number, "method": method, "params": words}
        if self.session is not None:
            message["sessionId"] = self.session
        self.write(json.dumps(message).encode() + b"\0")
        until = time.monotonic() + self.limit
        while True:
            answer = self.receive(until, method)
            if answer.get("id") != number:
                self.events.append(answer)
            elif "error" in answer:
                raise Fault(f"{method}: {answer['error']}")
            else:
                return answer["result"]

    def write(self, data):
        while data:
            data = data[os.write(self.writer, data) :]

    def receive(self, until, method):
        while b"\0" not in self.rest:
            ready, _, _ = select.select([self.reader], [], [], max(0, until - time.monotonic()))
            chunk = os.read(self.reader, 1 << 20) if ready else b""
            if not chunk:
                raise Fault(f"{method}: no answer from the browser")
            self.rest += chunk
        message, self.rest = self.rest.split(b"\0", 1)
        return json.loads(message)

    def wait_for(self, name):
        """Waits until the browser tells of an event of this name."""
        until = time.monotonic() + self.limit
        while not any(event.get("method") == name for event in self.events):
            self.events.append(self.receive(until, name))

    def open(self, address):
        """Opens a page and waits for its load; what was told before is forgotten."""
        for each in ("about:blank", address):
            self.events = []
            self.send("Page.navigate", url=each)
            self.wait_for("Page.loadEventFired")

    def run(self, script):
        """What a script gives in the page."""
        answer = self.send("Runtime.evaluate", expression=script, returnByValue=True, awaitPromise=True)
        if "exceptionDetails" in answer:
            raise Fault(f"{script}: {answer['exceptionDetails']}")
        return answer["result"].get("value")

    def key(self, key, code=None, text=None):
        """Presses a key and lets it go."""
        words = {"key": key, "code": code or key}
        if text is None and len(key) == 1:
            text = key
        self.send("Input.dispatchKeyEvent", type="keyDown", **words, **({"text": text} if text else {}))
        self.send("Input.dispatchKeyEvent", type="keyUp", **words)

    def write_text(self, text):
        self.send("Input.insertText", text=text)

    def mouse(self, kind, x, y, pressed=1):
        self.send("Input.dispatchMouseEvent", type=kind, x=x, y=y, button="left" if pressed else "none", buttons=pressed, clickCount=pressed)

    def click_at(self, x, y):
        self.mouse("mouseMoved", x, y, 0)
        self.mouse("mousePressed", x, y)
        self.mouse("mouseReleased", x, y)

    def wheel(self, x, y, by, modifiers=0):
        """Turns the wheel by so many pixels, with Ctrl (2) or Shift (8) held, and waits until the page has drawn what comes of it."""
        self.send("Input.dispatchMouseEvent", type="mouseWheel", x=x, y=y, deltaX=0, deltaY=by, modifiers=modifiers)
        self.run("new Promise((done) => requestAnimationFrame(() => requestAnimationFrame(() => setTimeout(done, 20))))")

    def click(self, selector):
        """Clicks in the middle of an element, which is scrolled into sight first; it has to be the one that is there."""
        found = self.run(
            f"(() => {{ const e = document.querySelector({json.dumps(selector)}); if (!e) return null; e.scrollIntoView({{block: 'center'}});"
            " const b = e.getBoundingClientRect(); const x = b.left + b.width / 2, y = b.top + b.height / 2;"
            " const hit = document.elementFromPoint(x, y); return {x, y, hit: e === hit || e.contains(hit)}; })()"
        )
        if found is None or not found["hit"]:
            raise Fault(f"{selector} cannot be clicked: {found}")
        self.click_at(found["x"], found["y"])

    def picture(self, file, full=False):
        """A picture of what is seen, or of the whole page."""
        shot = self.send("Page.captureScreenshot", format="png", captureBeyondViewport=full)
        file.write_bytes(base64.b64decode(shot["data"]))

    def told(self, *names):
        return [event for event in self.events if event.get("method") in names]

    def faults(self):
        """What the console told of faults, and what was fetched besides the page."""
        found = [event["params"] for event in self.told("Runtime.exceptionThrown", "Log.entryAdded")]
        found += [event["params"] for event in self.told("Runtime.consoleAPICalled")]
        asked = [event["params"]["request"]["url"] for event in self.told("Network.requestWillBeSent")]
        return found, asked

    def close(self):
        with contextlib.suppress(Fault, OSError):
            session, self.session = self.session, None
            self.send("Browser.close")
            self.session = session
        try:
            self.process.wait(10)
        except subprocess.TimeoutExpired:
            os.killpg(self.process.pid, signal.SIGKILL)
            self.process.wait()
        os.close(self.writer)
        os.close(self.reader)
        with contextlib.suppress(OSError):
            self.folder.cleanup()

    def __enter__(self):
        return self

    def __exit__(self, *_):
        self.close()
