"""The page of the inspector by keyboard, with typed fields, undo, and for weak eyes and small windows."""

import json
from contextlib import contextmanager

from tests.plain import classes as plain_classes
from tests.plain.world import Server
from tests.support.lines import text_of

from . import accessible
from .fronts import Client, classes_in
from .test_inspect_page import PageCases, command, setting

TYPES = ("bool", "int", "uint", "qlonglong", "qulonglong", "QString")
ALL = {
    "name": "All", "super": "QObject", "signals": [],
    "slots": [{"sig": "both(int,QString)", "body": [{"set": "of_int", "to": {"arg": 0}}, {"set": "of_QString", "to": {"arg": 1}}]}, {"sig": "none()", "body": []}],
    "properties": [{"name": f"of_{it}", "type": it, "bindable": True} for it in TYPES],
}  # fmt: skip
NEW = {"do": "new", "class": "All"}
NUMBERS = [
    "0", "-0", "1", "-1", "2147483647", "2147483648", "-2147483648", "-2147483649", "4294967295", "4294967296", "9223372036854775807",
    "9223372036854775808", "-9223372036854775808", "-9223372036854775809", "18446744073709551615", "18446744073709551616",
]  # fmt: skip
NO_NUMBERS = ["", "1.0", "1e3", "x", "--1", "1 2", "0x10", "null", "true"]
VIEWS = {
    "objects": "[data-property]", "happened": "[data-entry]", "timeline": ".tick", "graphs": ".node", "busiest": "[data-slot]", "search": "[data-found]",
}  # with what each of them shows
CHOSEN = {"graphs": "{graph: 'connections'}", "search": "{sought: 'bell'}"}
LONG = "a long name " * 30
TURNED = "\u05d0\u05d1\u05d2 12"  # letters that are read from right to left
SEEN_ROW = "document.getElementById(document.activeElement.getAttribute('aria-activedescendant'))"


def says(browser, text):
    browser.wait_for(f"document.getElementById('message').textContent.includes({json.dumps(text)})")


class InputCases(PageCases):
    """Tests with a page that may write."""

    shares_browser = True

    @contextmanager
    def written(self, commands=(NEW,), behind="#session=c1&object=1"):
        """A page that may write, a client, and the plain program after the same commands."""
        server = Server(plain_classes.Classes([ALL]))
        with self.shown(classes_in(self.room, [ALL]), options=("--inspect-write",)) as (path, _, asker), Client(path) as client:
            self.give(client, commands)
            for it in commands:
                server.step({**it, "session": "c1"})
            with self.opened(asker.address + behind) as browser:
                self.settled(browser, len(commands))
                browser.wait_for("document.querySelectorAll('#properties [data-property]').length > 0")
                yield browser, client, server

    def focus(self, browser, key):
        """Moves the focus to what has a key, and selects what it holds."""
        browser.value(f"document.querySelector({json.dumps(f'[data-key={json.dumps(key)}]')}).focus(); document.activeElement.select?.()")

    def value_of(self, client, name):
        return json.loads(client.ask(text_of(command("get", object=1, property=name))))["reply"]


class Fields(InputCases):
    """Fields for values."""

    def test_types(self):
        """What a field accepts is what the program accepts for the type, at all borders."""
        server = Server(plain_classes.Classes([ALL]))
        server.step({**NEW, "session": "a"})
        with self.written() as (browser, _, _plain):
            for kind in TYPES[1:5]:
                for text in (*NUMBERS, *NO_NUMBERS):
                    script = f"import('./editing.js').then((it) => it.jsonOf({json.dumps(kind)}, {json.dumps(text)})).catch(() => null)"
                    made = browser.value(script)
                    wanted = None
                    if text in NUMBERS:
                        said = server.step({**setting(1, f"of_{kind}", int(text)), "session": "a"})[-1]
                        wanted = None if "error" in said else str(int(text))
                    self.assertEqual(made, wanted, (kind, text))

    def test_typed(self):
        """Each type is written by keys in a field of its own, and arrives as the value that was written."""
        written = {"of_int": "-7", "of_uint": "4294967295", "of_qlonglong": "-9007199254740993", "of_qulonglong": "18446744073709551615", "of_QString": 'a "b" \\ 1'}
        with self.written() as (browser, client, _):
            for name, text in written.items():
                self.focus(browser, f"c1 1 set {name}")
                browser.type(text)
                browser.press("Enter")
                browser.wait_for(f"document.querySelector('[data-property={name}]').children[2].textContent === {json.dumps(json.dumps(text) if name == 'of_QString' else text)}")
                self.assertEqual(self.value_of(client, name), text if name == "of_QString" else int(text))
            self.assertEqual(browser.value("document.querySelector('[data-property=of_bool] select').value"), "false")
            browser.write("[data-property=of_bool] select", "true")
            browser.click("[data-property=of_bool] [type=submit]")
            browser.wait_for("document.querySelector('[data-property=of_bool]').children[2].textContent === 'true'")
            self.assertIs(self.value_of(client, "of_bool"), True)

    def test_fault(self):
        """What is no value of the type is said at the field, and no command is given."""
        with self.written() as (browser, client, _):
            self.focus(browser, "c1 1 set of_int")
            browser.type("2147483648")
            browser.press("Enter")
            browser.wait_for("document.querySelector('[data-property=of_int] .fault').textContent.includes('-2147483648 to 2147483647')")
            self.assertEqual(browser.value("document.activeElement.getAttribute('aria-invalid')"), "true")
            self.assertEqual(self.value_of(client, "of_int"), 0)
            browser.value("document.activeElement.select()")
            browser.type("5")
            browser.press("Enter")
            browser.wait_for("document.querySelector('[data-property=of_int]').children[2].textContent === '5'")

    def test_dynamic(self):
        """A property without a declared type keeps its kind, and can be given another one."""
        with self.written((NEW, setting(1, "note", "1"))) as (browser, client, _):
            browser.write("[data-property=note] input", "2")
            browser.click("[data-property=note] [type=submit]")
            browser.wait_for("document.querySelector('[data-property=note]').children[2].textContent === '\"2\"'")
            browser.write("[data-property=note] select", "number")
            browser.write("[data-property=note] input", "3")
            browser.click("[data-property=note] [type=submit]")
            browser.wait_for("document.querySelector('[data-property=note]').children[2].textContent === '3'")
            self.assertEqual(self.value_of(client, "note"), 3)

    def test_invoked(self):
        """A method has a field for each parameter."""
        with self.written() as (browser, client, _):
            self.assertEqual(browser.value("document.querySelectorAll('[data-method=\"none()\"] input').length"), 0)
            labels = browser.value("[...document.querySelectorAll('[data-method=\"both(int,QString)\"] input')].map((it) => it.ariaLabel)")
            self.assertEqual(labels, ["argument 1 of both(int,QString)", "argument 2 of both(int,QString)"])
            self.focus(browser, "c1 1 invoke both(int,QString) 0")
            browser.type("12")
            self.focus(browser, "c1 1 invoke both(int,QString) 1")
            browser.type("twelve")
            browser.press("Enter")
            browser.wait_for("document.querySelector('[data-property=of_QString]').children[2].textContent === '\"twelve\"'")
            self.assertTrue(client.hear().startswith('{"args":[12,"twelve"],"call":"both(int,QString)"'))
            self.assertEqual((self.value_of(client, "of_int"), self.value_of(client, "of_QString")), (12, "twelve"))

    def test_undo(self):
        """A value that was set here is set back, unless somebody else has set another one since."""
        with self.written((NEW, setting(1, "of_int", 3))) as (browser, client, _):
            for text in ("4", "5"):
                self.focus(browser, "c1 1 set of_int")
                browser.type(text)
                browser.press("Enter")
                browser.wait_for(f"document.querySelector('[data-property=of_int]').children[2].textContent === '{text}' && page.undo.of('c1', 1, 'of_int')?.after === '{text}'")
            browser.click("[data-key='c1 1 set of_int undo']")
            says(browser, "is 4 again")
            self.assertEqual(self.value_of(client, "of_int"), 4)
            browser.value("document.activeElement.blur()")
            browser.press("z", ctrl=True)
            says(browser, "is 3 again")
            self.assertEqual(self.value_of(client, "of_int"), 3)
            browser.press("z", ctrl=True)
            says(browser, "Nothing was set here")
            browser.write("[data-property=of_int] input", "6")
            browser.click("[data-property=of_int] [type=submit]")
            browser.wait_for("page.undo.done.length === 1")
            self.give(client, [setting(1, "of_int", 9)])
            browser.wait_for("document.querySelector('[data-property=of_int]').children[2].textContent === '9'")
            browser.press("z", ctrl=True)
            says(browser, "has changed since")
            self.assertEqual(self.value_of(client, "of_int"), 9)


class Keyboard(InputCases):
    """The page without a mouse."""

    def test_lists(self):
        """Sessions, objects and commands are chosen by keys; the row that the keys are on is marked and in sight."""
        with self.lives() as (browser, server):
            browser.wait_for("page.sessions.list.total === 2")
            browser.press("s", alt=True)
            self.assertEqual(browser.value("document.activeElement.role"), "listbox")
            browser.press("ArrowDown")
            self.assertEqual(browser.wait_for(f"{SEEN_ROW}?.dataset.session"), "c2")
            browser.press("Enter")
            browser.wait_for("page.view().list.total > 3 && page.view().list.rows.length > 3")
            browser.press("o", alt=True)
            self.assertEqual(browser.value("document.activeElement.role"), "tree")
            plain = server.sessions["c2"]
            browser.press("Home")
            roots = [it.number for it in plain.children(None)]
            self.assertEqual(browser.wait_for(f"{SEEN_ROW}?.dataset.object"), str(roots[0]))
            self.walk(browser, plain, roots[0])
            browser.press("End")
            last = browser.wait_for(f"{SEEN_ROW}?.dataset.object")
            self.assertTrue(browser.value(f"(() => {{ const it = {SEEN_ROW}.getBoundingClientRect(), all = document.activeElement.getBoundingClientRect(); return it.top >= all.top && it.bottom <= all.bottom + 1; }})()"))  # noqa: E501
            browser.press("Enter")
            browser.wait_for(f"document.querySelector('#object h2 .code')?.textContent.trim() === '#{last}'")
            self.assertEqual(browser.value("document.activeElement.role"), "tree", "the focus stays")
            browser.press("2", alt=True)
            browser.wait_for("document.querySelectorAll('[data-entry]').length > 5")
            browser.press("o", alt=True)
            browser.press("Enter")
            browser.wait_for("document.querySelector('#chain h2')?.textContent.startsWith('Line ')")

    def walk(self, browser, plain, number):
        """Into what is below an object and out again by the keys to the right and the left, as the plain program has it."""
        below = [it.number for it in plain.children(number)]
        self.assertEqual(browser.value(f"{SEEN_ROW}.ariaExpanded"), "true" if below else None)
        self.assertTrue(below, "there is nothing below")
        browser.press("ArrowRight")
        self.assertEqual(browser.wait_for(f"{SEEN_ROW}?.dataset.object"), str(below[0]))
        self.assertEqual(browser.value(f"{SEEN_ROW}.ariaLevel"), "2")
        for _ in range(2 if plain.children(below[0]) else 1):
            browser.press("ArrowLeft")
        browser.wait_for(f"{SEEN_ROW}?.dataset.object === '{number}'")
        browser.press("ArrowLeft")
        browser.wait_for(f"{SEEN_ROW}?.ariaExpanded === 'false'")
        browser.press("ArrowRight")
        browser.wait_for(f"{SEEN_ROW}?.ariaExpanded === 'true'")

    def test_tabs(self):
        """The views are tabs, between which the arrow keys move, and the keys are listed."""
        with self.written() as (browser, _, _plain):
            browser.value("document.querySelector('[role=tab][aria-selected=true]').focus()")
            views = []
            for _ in range(6):
                browser.press("ArrowRight")
                views.append(browser.value("document.activeElement.dataset.view"))
                browser.wait_for("document.activeElement.ariaSelected === 'true'")
            self.assertEqual(views, ["happened", "timeline", "graphs", "busiest", "search", "objects"])
            browser.press("?")
            browser.wait_for("document.getElementById('keys').open")
            browser.press("Escape")
            browser.wait_for("!document.getElementById('keys').open")

    def test_focus(self):
        """While the page is drawn again, the focus stays where it is, and so does what is being written."""
        with self.written() as (browser, client, _):
            self.focus(browser, "c1 1 set of_QString")
            browser.type("half")
            browser.press("ArrowLeft")
            for at in range(3):
                self.give(client, [setting(1, "of_int", at + 1)])
                browser.wait_for(f"document.querySelector('[data-property=of_int]').children[2].textContent === '{at + 1}'")
                self.assertEqual(
                    browser.value("[document.activeElement.dataset.key, document.activeElement.value, document.activeElement.selectionStart]"), ["c1 1 set of_QString", "half", 3]
                )
            self.focus(browser, "c1 1 set of_uint button")
            self.give(client, [setting(1, "of_int", 9)])
            browser.wait_for("document.querySelector('[data-property=of_int]').children[2].textContent === '9'")
            self.assertEqual(browser.value("document.activeElement.dataset.key"), "c1 1 set of_uint button")
            self.assertEqual(browser.value("document.querySelector('[data-property=of_QString] input').value"), "half")


class Eyes(InputCases):
    """What can be read."""

    def test_accessible(self):
        """In all views, in light and dark colours, controls have names and roles, keys reach everything in the order of the
        page, and no text differs too little from what is under it."""
        with self.lives() as (browser, _):
            browser.click("[data-session=c1]")
            browser.click('[data-object="1"]')
            browser.wait_for("document.querySelectorAll('#properties [data-property]').length > 1")
            for scheme in ("light", "dark"):
                browser.prefer(scheme)
                for view, shown in VIEWS.items():
                    browser.click(f"[data-view={view}]")
                    if view in CHOSEN:
                        browser.value(f"page.choose({CHOSEN[view]})")
                    browser.wait_for(f"document.querySelectorAll('#view {shown}').length > 0")
                    self.assertEqual(accessible.faults_in(browser, is_reached=scheme == "light" and view in ("objects", "graphs")), [], (scheme, view))

    def test_written(self):
        """The same with fields, in which a fault is shown."""
        with self.written() as (browser, _, _plain):
            self.focus(browser, "c1 1 set of_int")
            browser.type("x")
            browser.press("Enter")
            for scheme in ("light", "dark"):
                browser.prefer(scheme)
                self.assertEqual(accessible.faults_in(browser), [], scheme)

    def test_check(self):
        """The check finds what is wrong."""
        with self.written() as (browser, _, _plain):
            browser.value("document.querySelector('main').insertAdjacentHTML('beforeend', '<p id=faint>too faint</p><button></button><div tabindex=3 id=view>x</div><input>'); document.getElementById('faint').style.color = '#909090'")  # noqa: E501
            found = "\n".join(accessible.faults_in(browser))
            for words in ("'too faint'", "a button without a name", "a textbox without a name", "two elements are called view", "tabindex 3", "in the order"):
                self.assertIn(words, found)
        self.assertEqual(round(accessible.contrast((255, 255, 255), (0, 0, 0)), 2), 21)
        self.assertEqual(round(accessible.contrast((119, 119, 119), (255, 255, 255)), 2), 4.48)

    def test_switch(self):
        """The page is light or dark as the system is, or as was chosen, also when it is opened again."""
        dark = "getComputedStyle(document.body).backgroundColor === 'rgb(22, 27, 33)'"
        with self.written() as (browser, _, _plain):
            for scheme, chosen, wanted in (("light", "auto", False), ("dark", "auto", True), ("dark", "light", False), ("light", "dark", True)):
                browser.prefer(scheme)
                browser.write("#theme", chosen)
                self.assertEqual(browser.value(dark), wanted, (scheme, chosen))
            link = browser.value("location.href")
            browser.open("about:blank")
            browser.open(link)
            browser.wait_for("document.getElementById('theme')?.value === 'dark'")
            self.assertTrue(browser.value(dark))

    def test_small(self):
        """In a window of 900 pixels nothing is outside of it, and all views can be used."""
        with self.lives() as (browser, _):
            browser.size(900, 700)
            browser.click("[data-session=c1]")
            browser.click('[data-object="1"]')
            for view, shown in VIEWS.items():
                browser.click(f"[data-view={view}]")
                if view in CHOSEN:
                    browser.value(f"page.choose({CHOSEN[view]})")
                browser.wait_for(f"document.querySelectorAll('#view {shown}').length > 0")
                self.assertLessEqual(browser.value("document.documentElement.scrollWidth"), 900, view)
                outside = "[...document.querySelectorAll('button, input, select')].filter((it) => it.checkVisibility() && !it.closest('.detail, .scroll, .pinned, svg') && it.getBoundingClientRect().right > 900.5).map((it) => it.outerHTML)"  # noqa: E501
                self.assertEqual(browser.value(outside), [], view)
                self.assertGreater(browser.value("document.getElementById('view').getBoundingClientRect().height"), 300)

    def test_names(self):
        """Names turn nothing next to them, and long ones are cut, with the whole in the title."""
        lines = (NEW, setting(1, "objectName", LONG), NEW, setting(2, "objectName", TURNED))
        with self.written(lines, "#session=c1&object=1") as (browser, _, _plain):
            cut = f"[...document.querySelectorAll('[data-object=\"1\"] bdi, #object h2 bdi, #crumbs bdi, [data-property=objectName] .value')].filter((it) => it.textContent === {json.dumps(json.dumps(LONG))}).map((it) => [it.title, it.scrollWidth > it.clientWidth])"  # noqa: E501
            self.assertEqual(browser.value(cut), [[json.dumps(LONG), True]] * 4)
            browser.click('[data-object="2"]')
            browser.wait_for("document.querySelector('#object h2 .code')?.textContent.trim() === '#2'")
            isolated = f"[...document.querySelectorAll('main *')].filter((it) => !it.children.length && it.textContent.includes({json.dumps(TURNED)}) && it.checkVisibility()).map((it) => [it.tagName, getComputedStyle(it).unicodeBidi])"  # noqa: E501
            found = browser.value(isolated)
            self.assertGreaterEqual(len(found), 4)
            self.assertEqual([it for it in found if it != ["BDI", "isolate"]], [])
