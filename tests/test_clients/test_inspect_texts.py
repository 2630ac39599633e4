"""Texts of the page (clients/inspecting/page/texts.js): characters that mislead are shown escaped."""

import json
import shutil
import subprocess
import unicodedata

from . import CLIENTS
from .fronts import PATIENCE, Client, ClientCases
from .test_inspect_page import CELL, PageCases, command, connecting, setting

PAGE = CLIENTS / "inspecting" / "page"
HIDING = ("Cc", "Cf", "Zl", "Zp", "Zs")  # categories of characters that cannot be seen, or change the direction
SHOWN = ("Lu", "Ll", "Lt", "Nd", "Nl", "No", "Pd", "Ps", "Pe", "Po", "Pc", "Sm", "Sc", "Mc")  # categories of those that can
BLANK = "\u034f\u115f\u1160\u17b4\u17b5\u180b\u2800\u3164\ufe0f\uffa0\U000e0101"  # others that cannot be seen
MANY = [chr(it) for it in range(0x110000) if not 0xD800 <= it < 0xE000]
TURNED = "ab\u202egnp.exe\u200b\u2066x\ufeff\u00ad\u200f"  # looks like another name
ESCAPED = "ab\\u202egnp.exe\\u200b\\u2066x\\ufeff\\u00ad\\u200f"


def escaped(text):
    """A text as JSON escapes it, with escapes for all of it."""
    units = text.encode("utf-16-be", "surrogatepass")
    return "".join(f"\\u{units[at] * 256 + units[at + 1]:04x}" for at in range(0, len(units), 2))


class Escapes:
    """What the function that escapes does. `plain` answers what it makes of some texts."""

    def check(self, plain):
        """Whether it escapes what misleads, and leaves all else as it is."""
        cases = {
            "": "", "a b": "a b", TURNED: ESCAPED, "\ud800": "\\ud800", "a\udfffb": "a\\udfffb", "\U0001f600": "\U0001f600", "\\u202e": "\\u202e",
            "\n\t\0\x7f\x9f": "\\u000a\\u0009\\u0000\\u007f\\u009f", "\u05d0\u05d1": "\u05d0\u05d1", "\U000e0041": "\\udb40\\udc41", "e\u0301": "e\u0301",
        }  # fmt: skip
        self.assertEqual(dict(zip(cases, plain(list(cases)))), cases)
        hidden = [it for it in MANY if unicodedata.category(it) in HIDING and it != " "] + list(BLANK)
        self.assertGreater(len(hidden), 200)
        self.assertEqual([it for it, made in zip(hidden, plain(hidden)) if made != escaped(it)], [])
        shown = [it for it in MANY if unicodedata.category(it) in SHOWN or it == " "]
        self.assertGreater(len(shown), 4_000)
        self.assertEqual([it for it, made in zip(shown, plain(shown)) if made != it], [])


class Alone(Escapes, ClientCases):
    """The function alone, in node."""

    def test_plain(self):
        """What misleads is escaped, and all else stays as it is."""
        node = shutil.which("node")
        if node is None:
            self.skipTest("there is no node on the path")

        def plain(texts):
            code = (PAGE / "texts.js").read_text() + "\nlet all = ''; for await (const it of process.stdin.setEncoding('utf8')) all += it;"
            code += "\nprocess.stdout.write(JSON.stringify(JSON.parse(all).map(plain)));"
            ran = subprocess.run([node, "--input-type=module", "-e", code], input=json.dumps(texts), capture_output=True, text=True, timeout=PATIENCE)
            self.assertEqual(ran.stderr, "")
            return json.loads(ran.stdout)

        self.check(plain)

    def test_only_there(self):
        """No other file of the page puts a text anywhere but by these functions."""
        for path in PAGE.glob("*.js"):
            text = path.read_text()
            for word in ("textContent", "innerText", "nodeValue", "createTextNode", ".title =", "alert("):
                self.assertTrue(path.name == "texts.js" or word not in text, (path.name, word))


class Seen(Escapes, PageCases):
    """The same in the page."""

    def test_plain(self):
        """What misleads is escaped in a browser too, and all else stays as it is."""
        with self.shown() as (_, _, asker), self.opened(asker.address) as browser:
            self.check(lambda texts: json.loads(browser.value(
                f"import('./texts.js').then((it) => JSON.stringify(JSON.parse({json.dumps(json.dumps(texts))}).map(it.plain)))"
            )))  # fmt: skip

    def test_views(self):
        """Names and values with such characters are shown escaped in all views, in what is said, and in tips."""
        with self.shown(options=("--inspect-write",)) as (path, _, asker), Client(path) as client:
            bound = command("bind", object=2, property="objectName", to={"cat": [{"const": TURNED}, {"prop": "objectName", "of": 1}]})
            call = {"do": "connect", "sender": 1, "signal": "objectNameChanged(QString)", "receiver": 1, "method": "objectNameChanged(QString)", "type": "queued"}
            lines = [CELL, CELL, setting(1, "objectName", TURNED), setting(1, "tag", TURNED), connecting(1, 2, "seen(int)"), bound, call]
            self.give(client, lines)
            client.say('{"do":"' + TURNED + '"}')
            client.hear()
            with self.opened(asker.address + "#session=c1&object=1") as browser:
                self.settled(browser, len(lines) + 1)
                browser.wait_for("Boolean(document.querySelector('[data-property=tag]'))")
                self.assertIn(ESCAPED, browser.value("document.querySelector('[data-property=tag]').textContent"))
                self.assertIn(ESCAPED, browser.value("document.querySelector('[data-object=\"1\"]').textContent"))
                browser.value("page.view().object.give('c1', {do: 'get', object: 1, property: 'tag'})")
                browser.wait_for("document.getElementById('message').textContent.includes('u202e')")
                self.check_all(browser)
                for view, ready in (
                    ("happened", "document.querySelectorAll('[data-entry]').length > 5"), ("timeline", "true"), ("busiest", "true"),
                    ("graphs", "document.querySelectorAll('#graph [data-node]').length > 1"),
                ):  # fmt: skip
                    browser.click(f"[data-view={view}]")
                    browser.wait_for(ready)
                    self.check_all(browser)
                browser.write("#kind", "connections")
                browser.wait_for("document.getElementById('graph_said').textContent.includes('who sends')")
                self.assertIn(ESCAPED[:20], browser.value("document.querySelector('#graph').textContent"))
                self.check_all(browser)
                for entry in (3, 6, len(lines) + 1):
                    browser.value(f"page.openEntry({entry})")
                    browser.wait_for(f"document.querySelector('#chain h2')?.textContent.startsWith('Line {entry} ')")
                    self.assertIn(ESCAPED, browser.value("document.querySelector('#chain').textContent"), entry)
                    self.check_all(browser)

    def check_all(self, browser):
        """No text of the page, and no tip, has a character that misleads."""
        script = """[document.body.textContent, ...[...document.querySelectorAll('*')].flatMap((it) => ['title', 'aria-label', 'placeholder'].map((key) => it.getAttribute(key) ?? ''))]
            .map((it) => it.replaceAll('\\n', '')).join(' ')"""
        text = browser.value(script)
        self.assertEqual([hex(ord(it)) for it in text if unicodedata.category(it) in HIDING and it != " "], [])
