"""The client in JavaScript over the relay: the page examples/web/form.html in real browsers, which fill in one form, and Node."""

import json
import os
import shutil
import subprocess
import unittest

from tests.support.program import ROOT

from .browsers import Browser, browser_here
from .fronts import PATIENCE, Client, reply
from .stand_servers import wait_until_true
from .web_sockets import WebCases

CLASSES = ROOT / "examples" / "form" / "classes.json"
FOLDER = ROOT / "examples" / "web"
WHOLE = "document.getElementById('status').textContent"
PICTURE = os.environ.get("PICTURE")  # a path for the screenshot of docs/WEB.md


def field(name):
    return f"document.getElementById({name!r})"


@unittest.skipIf(browser_here() is None, "there is no browser on the path (Debian: chromium)")
class Page(WebCases):
    """The page, in two browsers, which all tests share."""

    seconds = 300

    @classmethod
    def setUpClass(cls):
        super().setUpClass()
        cls.browsers = [Browser(browser_here()) for _ in range(2)]
        for it in cls.browsers:
            cls.addClassCleanup(it.__exit__)

    def setUp(self):
        super().setUp()
        for it in self.browsers:
            it.begin_again()

    def show(self, browser, port):
        """Opens the page, and waits until it is connected."""
        browser.open(f"http://127.0.0.1:{port}/form.html")
        browser.wait_for(f"document.readyState === 'complete' && {WHOLE}.startsWith('Connected as form')")

    def test_form(self):
        """What one page writes into the form, the other shows; so does what any other client of the session sets."""
        share = '{"front":"share","session":"form"}'
        with self.front(CLASSES, options=("--quiet", "--share", "form")) as (path, _), self.relay(path, "--files", FOLDER) as (port, process):
            one, two = self.browsers
            self.show(one, port)
            self.show(two, port)
            self.assertEqual((two.value(f"{field('greeting')}.textContent"), two.value(f"{field('book')}.disabled")), ("Who are you?", True))
            one.write("#name", "Zo\u00eb")
            two.wait_for(f"{field('name')}.value === 'Zo\u00eb' && {field('greeting')}.textContent === 'Hello, Zo\u00eb'")
            two.write("#seat", "12 F")
            for it in (one, two):
                it.wait_for(f"{field('seat')}.value === '12 F' && !{field('book')}.disabled")
            with Client(path) as other:
                other.ask(share)
                seat = json.loads(other.ask('{"do":"find","name":"seat","object":1}'))["reply"]
                other.say(json.dumps({"do": "set", "object": seat, "property": "text", "value": "7 A"}))
                self.assertEqual(json.loads(other.hear())["args"], ["7 A"])
                self.assertEqual(other.hear(), reply(True, "form"))
            for it in (one, two):
                it.wait_for(f"{field('seat')}.value === '7 A'")
            if PICTURE:
                one.size(520, 460)
                one.picture(PICTURE)
            two.click("#book")
            for it in (one, two):
                it.wait_for(f"{field('name')}.value === '' && {field('seat')}.value === '' && {field('book')}.disabled")
            self.assertEqual((one.faults(), two.faults()), ([], []))
            process.terminate()
            for it in (one, two):
                it.wait_for(f"{WHOLE}.startsWith('The connection has ended')")
            wait_until_true(self, lambda: process.poll() is not None, "the relay ends")

    def test_together(self):
        """Pages that are opened at the same time make one form."""
        with self.front(CLASSES, options=("--quiet", "--share", "form")) as (path, _), self.relay(path, "--files", FOLDER) as (port, _):
            browser = self.browsers[0]
            with Client(path) as other:
                browser.open(f"http://127.0.0.1:{port}/form.html")
                browser.wait_for("document.readyState === 'complete'")
                frames = "for (let at = 0; at < 4; at++) document.body.append(Object.assign(document.createElement('iframe'), {src: 'form.html'}))"
                browser.value(frames)
                browser.wait_for(
                    "document.querySelectorAll('iframe').length === 4 && [...document.querySelectorAll('iframe')]"
                    ".every((it) => it.contentDocument?.getElementById('status')?.textContent.startsWith('Connected'))"
                )
                other.ask('{"front":"share","session":"form"}')
                self.assertEqual(len(json.loads(other.ask('{"do":"children"}'))["reply"]), 1, "forms")

    def test_client(self):
        """The client in JavaScript in a browser: long lines, many at once, and why a connection is refused or closed."""
        script = """(async () => {
          const { connect } = await import("/metad/index.mjs");
          const url = `ws://${location.host}/`;
          const client = await connect(url);
          const session = client.session("a");
          const made = await session.new("QObject");
          await made.objectName.set("\u00e4".repeat(2000));
          const many = await Promise.all(Array.from({ length: 500 }, () => session.new("QObject")));
          const name = await made.objectName;
          const refused = await connect(url, { share: "nobody" }).catch((error) => error.code);
          const closed = new WebSocket(url);
          const why = await new Promise((resolve) => {
            closed.onopen = () => closed.send("a\\nb");
            closed.onclose = ({ code, reason }) => resolve([code, reason]);
          });
          return [client.isLive, name.length, many.at(-1).number, refused, why, await client.close()];
        })()"""
        browser = self.browsers[0]
        with self.fronted("--files", FOLDER) as (port, _, _, _):
            browser.open(f"http://127.0.0.1:{port}/form.mjs")
            browser.wait_for("document.readyState === 'complete'")
            self.assertEqual(browser.value(script), [True, 2000, 501, "F02", [1007, "a message is one line, without a line feed"], None])


NODE = shutil.which("node")
FLAG = "--experimental-websocket"  # which Node 20 needs, and later ones take


def has_web_socket():
    """Whether there is a Node with a WebSocket."""
    words = [NODE, FLAG, "-e", "process.exit(typeof WebSocket === 'function' ? 0 : 1)"]
    return NODE is not None and subprocess.run(words, capture_output=True, timeout=PATIENCE).returncode == 0


@unittest.skipUnless(has_web_socket(), "there is no node with a WebSocket on the path (Node 22)")
class Node(WebCases):
    """The client in JavaScript, in Node."""

    def test_client(self):
        """A live session over the relay, and the reason why the connection has ended."""
        script = f"""
          const {{ connect }} = await import({json.dumps(str(ROOT / "clients" / "js" / "index.mjs"))});
          const client = await connect(process.argv[1]);
          const made = await client.session("a").new("QObject");
          await made.objectName.set("abc");
          console.log(client.isLive, await made.objectName);
          const late = client.session("a").waitFor(() => false, {{ timeout: {PATIENCE * 1000} }});
          await late.catch((error) => console.log(error.name, error.message));"""
        with self.fronted() as (port, _, _, front):
            words = [NODE, FLAG, "--input-type=module", "-e", script, f"ws://127.0.0.1:{port}/"]
            with subprocess.Popen(words, stdin=subprocess.DEVNULL, stdout=subprocess.PIPE, text=True) as process:
                self.assertEqual(process.stdout.readline(), "true abc\n")
                front.terminate()
                said = process.communicate(timeout=PATIENCE)[0]
            self.assertEqual(said, "ConnectionClosed the connection was closed: the front has closed the connection\n")
