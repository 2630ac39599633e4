"""A real browser for tests of the page: Chromium without a screen, driven by its DevTools protocol over two pipes."""

import base64
import json
import os
import select
import shutil
import signal
import subprocess
import tempfile
import time
from pathlib import Path

NAMES = ("chromium", "chromium-browser", "google-chrome", "chrome")
WORDS = (
    "--headless=new", "--no-sandbox", "--disable-gpu", "--disable-dev-shm-usage", "--no-first-run", "--mute-audio",
    "--disable-background-networking", "--disable-component-update", "--remote-debugging-pipe", "--window-size=1400,860",
    "--host-resolver-rules=MAP * ~NOTFOUND, EXCLUDE 127.0.0.1",
)  # fmt: skip
PATIENCE = 120  # seconds, as a browser is slow on a busy machine
PIECE = 2  # seconds in which a page is waited for at once, since a page to which much happens is drawn again and again
READ, WRITE = 3, 4  # the files by which the browser is driven
OPEN = "about:blank"
KEY_CODES = {
    "Enter": 13, "Tab": 9, "Escape": 27, "ArrowLeft": 37, "ArrowUp": 38, "ArrowRight": 39, "ArrowDown": 40, "Home": 36, "End": 35,
    "PageUp": 33, "PageDown": 34, " ": 32, "/": 191, "+": 187, "-": 189, "Backspace": 8,
}  # fmt: skip


def browser_here():
    """The path of a browser, or None."""
    return next((found for found in map(shutil.which, NAMES) if found), None)


class Fault(Exception):
    """What the page or the browser says is wrong."""


def is_begun(event, loader):
    """Whether an event says that the page of a navigation has taken the place of the one before."""
    return event.get("method") == "Page.frameNavigated" and event["params"]["frame"].get("loaderId") == loader


class Browser:
    """A browser with one page."""

    def __init__(self, path):
        self.profile = tempfile.mkdtemp(prefix="metad-browser-")
        self.count, self.held, self.events = 0, b"", []
        near_in, far_out = os.pipe()
        far_in, near_out = os.pipe()

        def lay():
            """Lays the pipes where the browser looks for them."""
            kept_in, kept_out = os.dup(far_in), os.dup(far_out)
            os.dup2(kept_in, READ)
            os.dup2(kept_out, WRITE)

        words = [path, *WORDS, f"--user-data-dir={self.profile}", OPEN]
        nothing = subprocess.DEVNULL
        self.process = subprocess.Popen(words, stdin=nothing, stdout=nothing, stderr=nothing, close_fds=False, preexec_fn=lay, start_new_session=True)
        os.close(far_in)
        os.close(far_out)
        self.input, self.output = near_out, near_in
        target = self.ask("Target.createTarget", url=OPEN)["targetId"]
        self.session = None
        self.session = self.ask("Target.attachToTarget", targetId=target, flatten=True)["sessionId"]
        for word in ("Page.enable", "Runtime.enable", "Log.enable"):
            self.ask(word)

    session = None

    def __enter__(self):
        return self

    def __exit__(self, *_error):
        os.killpg(self.process.pid, signal.SIGKILL)  # with the processes that it has started, which would write on
        self.process.wait()
        os.close(self.input)
        os.close(self.output)
        shutil.rmtree(self.profile, ignore_errors=True)

    def begin_again(self):
        """Makes it like a new one, for another test."""
        self.open(OPEN)
        self.ask("Emulation.clearDeviceMetricsOverride")
        self.ask("Emulation.setEmulatedMedia", features=[])
        self.events.clear()

    def hear(self, until):
        """The next message."""
        while b"\0" not in self.held:
            left = until - time.monotonic()
            if left <= 0 or not select.select([self.output], [], [], left)[0]:
                raise Fault("the browser says nothing")
            data = os.read(self.output, 1 << 20)
            if not data:
                raise Fault("the browser has ended")
            self.held += data
        message, _, self.held = self.held.partition(b"\0")
        return json.loads(message)

    def ask(self, method, **params):
        """Does something, and answers what came of it; what happens meanwhile is kept in `events`."""
        self.count += 1
        asked = {"id": self.count, "method": method, "params": params, **({"sessionId": self.session} if self.session else {})}
        os.write(self.input, json.dumps(asked).encode() + b"\0")
        until = time.monotonic() + PATIENCE
        while True:
            said = self.hear(until)
            if said.get("id") == self.count:
                if "error" in said:
                    raise Fault(f"{method}: {said['error']}")
                return said["result"]
            self.events.append(said)

    def open(self, address):
        """Opens a page, and waits until it has taken the place of the one before."""
        made = self.ask("Page.navigate", url=address)
        if "errorText" in made:
            raise Fault(f"{address}: {made['errorText']}")
        until = time.monotonic() + PATIENCE
        while "loaderId" in made and not any(is_begun(it, made["loaderId"]) for it in self.events):
            self.events.append(self.hear(until))

    def settle(self, seconds=PATIENCE):
        """Waits until a page that can tell has drawn all that it was given; returns whether it has."""
        until = time.monotonic() + seconds
        script = f"Promise.race([window.page?.settled?.().then(() => true) ?? true, new Promise((done) => setTimeout(done, {1_000 * PIECE}, false))])"
        while not self.evaluate(script):
            if time.monotonic() > until:
                return False
        return True

    def value(self, script):
        """The value of an expression, once the page has drawn all that it was given."""
        if not self.settle():
            raise Fault(f"the page is still drawn after {PATIENCE} seconds")
        return self.evaluate(script)

    def evaluate(self, script):
        """The value of an expression in the page as it is."""
        said = self.ask("Runtime.evaluate", expression=script, returnByValue=True, awaitPromise=True)
        if "exceptionDetails" in said:
            raise Fault(said["exceptionDetails"].get("exception", {}).get("description", "an exception"))
        return said["result"].get("value")

    def wait_for(self, script, seconds=PATIENCE):
        """The value of an expression, as soon as it is true."""
        until = time.monotonic() + seconds
        while True:
            self.settle(PIECE)
            found = self.evaluate(script)
            if found:
                return found
            if time.monotonic() > until:
                shown = self.evaluate("document.body.innerText")
                raise Fault(f"it is not so in {seconds} seconds: {script}\n{shown}\n{self.said_wrong()}")
            time.sleep(0.02)

    def at(self, selector, *does):
        """Does something with the first element of a selector, as soon as it is there."""
        self.wait_for(f"(() => {{ const it = document.querySelector({json.dumps(selector)}); if (it) {{ {'; '.join(does)}; }} return Boolean(it); }})()")

    def click(self, selector):
        """Clicks the first element of a selector, as soon as it is there."""
        self.at(selector, "it.dispatchEvent(new MouseEvent('click', {bubbles: true}))")

    def write(self, selector, text):
        """Writes into a field, as soon as it is there."""
        events = (f"it.dispatchEvent(new Event('{name}', {{bubbles: true}}))" for name in ("input", "change"))
        self.at(selector, f"it.value = {json.dumps(text)}", *events)

    def press(self, key, **held):
        """Presses a key, by its name in the DOM, with `alt` or `ctrl` held where that is said."""
        self.settle()
        self.tap(key, **held)

    def tap(self, key, **held):
        """Presses a key in the page as it is."""
        code = KEY_CODES.get(key, ord(key.upper()[0]))
        text = key if len(key) == 1 and not held else {"Enter": "\r"}.get(key, "")
        word = f"Digit{key}" if key.isdigit() else f"Key{key.upper()}" if key.isalpha() and len(key) == 1 else key
        bits = (1 if held.get("alt") else 0) | (2 if held.get("ctrl") else 0) | (8 if held.get("shift") else 0)
        how = {"key": key, "code": word, "windowsVirtualKeyCode": code, "modifiers": bits}
        self.ask("Input.dispatchKeyEvent", type="keyDown" if text else "rawKeyDown", **how, **({"text": text} if text else {}))
        self.ask("Input.dispatchKeyEvent", type="keyUp", **how)

    def type(self, text):
        """Types a text where the focus is."""
        self.settle()
        self.ask("Input.insertText", text=text)

    def prefer(self, scheme):
        """Lets the system prefer light or dark colours."""
        self.ask("Emulation.setEmulatedMedia", features=[{"name": "prefers-color-scheme", "value": scheme}])

    def size(self, width, height):
        """Gives the window another size."""
        self.ask("Emulation.setDeviceMetricsOverride", width=width, height=height, deviceScaleFactor=1, mobile=False)

    def texts(self, selector):
        """The texts of all elements of a selector."""
        return self.value(f"[...document.querySelectorAll({json.dumps(selector)})].map((it) => it.textContent)")

    def faults(self):
        """What the page has said is wrong, once it has drawn all."""
        self.settle()
        return self.said_wrong()

    def said_wrong(self):
        """What the page has said is wrong so far: exceptions, what its policy has refused, and what was not loaded."""
        found = []
        for it in self.events:
            if it.get("method") == "Runtime.exceptionThrown":
                found.append(json.dumps(it["params"]["exceptionDetails"])[:500])
            if it.get("method") == "Log.entryAdded" and it["params"]["entry"]["level"] == "error":
                found.append(it["params"]["entry"]["text"])
        return found

    def picture(self, path):
        """Writes what is seen as PNG."""
        data = self.ask("Page.captureScreenshot", format="png")["data"]
        Path(path).write_bytes(base64.b64decode(data))
