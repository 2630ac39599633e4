"""The page of the inspector (clients/inspecting/page) in a real browser: each view is clicked through, and what it shows is
compared with what the plain program knows."""

import json
import os
import subprocess
import sys
import time
from contextlib import contextmanager
from pathlib import Path

from tests.generators import sessions
from tests.plain import classes as plain_classes
from tests.plain.world import Server
from tests.support.lines import text_of

from . import CLIENTS
from .browsers import Browser, browser_here
from .fronts import PATIENCE, Client, classes_in
from .inspectors import InspectCases, address_in

MANY = 1_000
OBJECTS = 4_096
FIRST_PICTURE, WHERE_BUSY = 1, 60  # seconds up to the first picture
TRIES = 10  # one has to show it in time, since others use the machine too
ROWS_MOST = 150  # rows that are in the page at once
MARKUP = "<img src=x onerror=document.title='run'><b>bold</b>"
FALL = {"do": "invoke", "object": 1, "method": "fall()", "args": []}  # by which nearly all objects go
CELL = {"do": "new", "class": "Cell"}
# whether the page shows what the inspector says of the tree of the session c2
TREE_OF_C2 = """(async () => {
  const told = await (await fetch("tree?session=c2&from=0&count=400")).json();
  return JSON.stringify(told.rows) === JSON.stringify(page.view().list.found?.rows);
})()"""

# keeps all that the page says of how much of the lines it shows
SAMPLED = """{
  const place = document.getElementById("sampled");
  window.said = [];
  new MutationObserver(() => window.said.push(place.textContent)).observe(place, { childList: true, characterData: true, subtree: true });
}"""


def command(word, **more):
    return {"do": word, **more}


def setting(number, name, value):
    return command("set", object=number, property=name, value=value)


def connecting(sender, receiver, method, **more):
    return command("connect", sender=sender, signal="xChanged(int)", receiver=receiver, method=method, **more)


class PageCases(InspectCases):
    """Tests of the page, in a browser."""

    seconds = 1_200
    shares_browser = False  # whether all tests of a class have the same browser
    kept = None
    asker, given = None, 0  # who asks the inspector, and how many commands were given

    @contextmanager
    def shown(self, *words, **how):
        with super().shown(*words, **how) as (path, process, asker):
            self.asker, self.given = asker, 0
            yield path, process, asker

    @contextmanager
    def browser(self):
        """A browser of this test, or that of all tests of its class. After a fault that is not used again."""
        kind = type(self)
        if not self.shares_browser:
            with Browser(self.path) as browser:
                yield browser
            return
        if kind.kept is None:
            kind.kept = Browser(self.path)
            kind.addClassCleanup(kind.leave_browser)
        try:
            kind.kept.begin_again()
            yield kind.kept
        except BaseException:
            kind.leave_browser()
            raise

    @classmethod
    def leave_browser(cls):
        """Ends the browser of all tests of a class."""
        if cls.kept is not None:
            cls.kept, browser = None, cls.kept
            browser.__exit__()

    def setUp(self):
        super().setUp()
        self.path = browser_here()
        if self.path is None:
            self.skipTest("there is no Chromium on the path")

    @contextmanager
    def opened(self, address):
        """The page in a browser, which at the end has said that nothing is wrong."""
        with self.browser() as browser:
            self.begun = time.monotonic()
            browser.open(address)
            browser.wait_for("Boolean(window.page)")
            yield browser
            self.assertEqual(browser.faults(), [])

    def give(self, client, commands):
        """Gives a client's commands, and waits until they are answered and the inspector knows of it."""
        for one in commands:
            client.say(text_of(one))
            while not client.hear().startswith(('{"reply"', '{"error"')):
                pass
        self.given += len(commands)
        self.asker.until(self, lambda it: it["commands"] >= self.given and not it["waiting"], "about")

    def settled(self, browser, commands):
        """Waits until the page has heard of so many commands, or of more, as where it asks some itself."""
        browser.wait_for(f"Number(/ (\\d+) commands/.exec(document.getElementById('state').textContent)?.[1]) >= {commands}")

    @contextmanager
    def lives(self):
        """A front with two sessions that have done much, the plain program that has done the same, and the page."""
        server = Server(plain_classes.Classes(sessions.CLASSES))
        names, count = ("c1", "c2"), 0
        with self.shown(classes_in(self.room, sessions.CLASSES)) as (path, _, asker), Client(path) as one, Client(path) as other:
            for number, (name, client) in enumerate(zip(names, (one, other))):
                life = list(sessions.life_of(number))
                del life[life.index(FALL) :]
                self.give(client, life)
                count += len(life)
                for it in life:
                    server.step({**it, "session": name})
            with self.opened(asker.address) as browser:
                self.settled(browser, count)
                yield browser, server


class Views(PageCases):
    """Each view."""

    def test_objects(self):
        """Sessions, trees and objects are shown as the plain program has them."""
        with self.lives() as (browser, server):
            self.assertEqual(browser.wait_for("[...document.querySelectorAll('[data-session] .name')].map((it) => it.textContent)"), ["c1", "c2"])
            browser.click("[data-session=c2]")
            plain, compared = server.sessions["c2"], 0
            browser.wait_for(TREE_OF_C2)
            rows = browser.value("page.view().list.found.rows")
            self.assertGreater(len(rows), 3, "rows")
            self.assertEqual(browser.value("page.view().list.total"), len(rows))
            for row in rows:
                found = plain.row(row["object"])
                if row["sure"]:
                    self.assertEqual(row["class"], found.class_name)
                    self.assertTrue(row["name"] in (None, plain.read(found, "objectName")), row)
                if row["sure"] and row["level"] >= 0:
                    self.assertEqual(row["level"] + 1, len(plain.line(row["object"])), row)
            for row in rows[:12]:
                compared += self.check_object(browser, plain, row["object"])
            self.assertGreater(compared, 20, "values that are shown as known")

    def check_object(self, browser, plain, number):
        """Checks the properties of an object on the page. Returns how many are shown as known."""
        browser.click(f'[data-object="{number}"]')
        browser.wait_for(f"document.querySelector('#object h2 .code')?.textContent.trim() === '#{number}'")
        known = 0
        for name, kind, value in browser.value("[...document.querySelectorAll('#properties [data-property]')].map((it) => [...it.children].slice(0, 3).map((one) => one.textContent))"):
            if value == "not known" or "may have changed" in value:
                continue
            known += 1
            self.assertEqual(json.loads(value), plain.read(plain.row(number), name), (number, name))
            declared = plain.declared(plain.row(number), name)
            self.assertEqual(kind, declared.kind if declared else "dynamic")
        return known

    def test_happened(self):
        """Lines are listed, filtered, and opened with the calls within one another, and the timeline leads to the same."""
        with self.lives() as (browser, _):
            browser.click("[data-session=c1]")
            browser.click("[data-view=happened]")
            browser.wait_for("document.querySelectorAll('[data-entry]').length > 5")
            browser.write("[aria-label='Signal, slot or command']", "rang(int)")
            browser.wait_for("page.view().rows.length && page.view().rows.every((it) => it.calls || it.text.includes('rang(int)'))")
            browser.write("[aria-label='Signal, slot or command']", "set")
            rows = browser.wait_for("page.view().rows.filter((it) => it.word === 'set' && it.calls).length && page.view().rows.filter((it) => it.word === 'set' && it.calls)")
            browser.value(f"page.openEntry({rows[0]['entry']}, 0)")
            browser.wait_for("document.querySelectorAll('#steps li').length >= 3")
            steps = browser.value("[...document.querySelectorAll('#steps li')].map((it) => it.dataset.kind)")
            self.assertEqual(steps, ["command", "signal", "call"])
            calls = browser.value("document.querySelectorAll('#chain [data-call]').length")
            self.assertEqual(calls, rows[0]["calls"])
            browser.click("[data-view=timeline]")
            browser.wait_for("document.querySelectorAll('.tick').length > 3")
            browser.click(".tick")
            browser.wait_for("document.querySelectorAll('#view #chain [data-call]').length > 0")

    def test_graphs(self):
        """Bindings, connections and slots are shown as the plain program has them."""
        with self.lives() as (browser, server):
            plain = server.sessions["c1"]
            browser.click("[data-session=c1]")
            browser.click("[data-view=graphs]")
            browser.wait_for("document.getElementById('graph_said').textContent.includes('what is read')")
            bound = {f"#{at.number}.{at.name}" for at in plain.bindings}
            self.assertLessEqual(bound, set(browser.texts("#graph [data-node] text:nth-of-type(1)")))
            browser.write("#kind", "connections")
            browser.wait_for("document.getElementById('graph_said').textContent.includes('who sends')")
            found = browser.value("fetch('graph?kind=connections&session=c1').then((it) => it.json())")
            ends = {(found["nodes"][one]["object"], found["nodes"][other]["object"]) for one, other, *_ in found["edges"]}
            self.assertEqual(ends, {(it.sender, it.receiver) for it in plain.connections})
            browser.click("[data-view=busiest]")
            self.assertIn("hear(int)", browser.wait_for("[...document.querySelectorAll('[data-slot]')].map((it) => it.dataset.slot)"))


class Listening(PageCases):
    """Who listens to whom, loops, markup, and what is set by the page."""

    def test_isolation(self):
        """What cannot reach a session turns grey when that is chosen, loops of bindings are red, and markup is text."""
        with self.shown(options=("--inspect-write",)) as (path, _, asker), Client(path) as one, Client(path) as two, Client(path) as three:
            joining = command("join", name="level", types=["int"], object=1, method="seen(int)")
            self.give(one, [CELL, setting(1, "objectName", MARKUP), setting(1, "note", MARKUP), command("publish", object=1, signal="xChanged(int)", name="level")])
            self.give(two, [CELL, {**joining, "from": "c1"}])
            loop = [command("bind", object=1, property=to, to={"prop": of}) for to, of in (("y", "z"), ("z", "y"), ("x", "z"))]
            self.give(three, [CELL, {**joining, "from": "c2"}, *loop])
            with self.opened(asker.address) as browser:
                browser.click("[data-session=c2]")
                browser.click("[data-view=graphs]")
                browser.write("#kind", "joins")
                browser.wait_for("document.querySelectorAll('#graph .node.grey').length === 1")
                self.assertEqual(browser.value("[...document.querySelectorAll('#graph .node.grey')].map((it) => it.dataset.node)"), ["c3"])
                self.assertEqual(browser.value("[...document.querySelectorAll('#graph [data-edge]')].map((it) => it.dataset.edge).sort()"), ["c1 c2", "c2 c3"])
                browser.click("[data-session=c3]")
                browser.wait_for("document.querySelectorAll('#graph .node.grey').length === 0")
                browser.write("#kind", "bindings")
                browser.wait_for("document.querySelectorAll('#graph .edge.loop').length === 2")
                browser.click("[data-session=c1]")
                browser.click("[data-view=objects]")
                browser.click('[data-object="1"]')
                browser.wait_for("Boolean(document.querySelector('#properties [data-property=note]'))")
                self.assertIn(json.dumps(MARKUP), browser.value("document.querySelector('#properties [data-property=note]').textContent"))
                self.assertEqual((browser.value("document.querySelectorAll('img, #view b b').length"), browser.value("document.title")), (0, "metad"))
                self.check_set(browser, one)

    def check_set(self, browser, client):
        """What is set by the page is set."""
        browser.write("[data-property=x] input", "41")
        browser.click("[data-property=x] button:last-child")
        browser.wait_for("document.querySelector('[data-property=x]').children[2].textContent === '41'")
        client.say('{"do":"get","object":1,"property":"x"}')
        self.assertEqual(json.loads(client.hear())["reply"], 41)

    def test_queued(self):
        """A queued call leads back to what has posted it, in another session too."""
        with self.shown() as (path, _, asker), Client(path) as one, Client(path) as two:
            self.give(one, [CELL, CELL, connecting(1, 2, "setX(int)"), command("publish", object=2, signal="xChanged(int)", name="level")])
            self.give(two, [CELL, command("join", **{"from": "c1"}, name="level", types=["int"], object=1, method="seen(int)")])
            self.give(one, [setting(1, "x", 5)])
            self.give(two, [command("spin")])
            with self.opened(asker.address) as browser:
                self.settled(browser, 8)
                browser.value("page.openEntry(8, 0)")
                steps = browser.wait_for("document.querySelectorAll('#steps li').length > 5 && [...document.querySelectorAll('#steps li')].map((it) => it.textContent)")
                words = ["line 7 of c1", "#1 sends xChanged(int)", "#2: setX(int)", "line 8", "#2 sends xChanged(int)", "#1: seen(int)"]
                self.assertEqual([word in step for word, step in zip(words, steps)], [True] * 6, steps)


class Many(PageCases):
    """Many sessions, many objects, and many lines."""

    def test_many(self):
        """A page of 1,000 sessions, and one of 4,096 objects, comes soon, has only what can be seen, and stays usable."""
        with self.shown() as (path, _, asker):
            clients = [self.enterContext(Client(path)) for _ in range(MANY)]
            for client in clients:
                client.say(text_of(CELL))
            for client in clients:
                client.hear()
            self.give(clients[0], [{**CELL, "parent": 1 + at // 8} for at in range(OBJECTS - 1)])
            asker.until(self, lambda it: it["commands"] == MANY + OBJECTS - 1 and not it["waiting"], "about")
            is_busy = os.getloadavg()[0] > (os.cpu_count() or 1) / 2
            most, tried = WHERE_BUSY if is_busy else FIRST_PICTURE, []
            while not tried or (max(tried[-1]) > most and len(tried) < TRIES):
                tried.append(self.first_pictures(asker))
            sessions_after, objects_after = min(tried, key=max)
            self.assertLess(max(sessions_after, objects_after), most, "seconds up to the first picture")
            self.tell(f"{MANY} sessions after {sessions_after:.2f} s, {OBJECTS} objects after {objects_after:.2f} s")

    def first_pictures(self, asker):
        """The seconds until the page shows sessions, and then objects; it has only some of their rows."""
        with self.opened(asker.address) as browser:
            rows = browser.wait_for("document.querySelectorAll('[data-session]').length")
            sessions_after, begun = time.monotonic() - self.begun, time.monotonic()
            browser.click("[data-session=c1]")
            objects = browser.wait_for("document.querySelectorAll('[data-object]').length")
            objects_after = time.monotonic() - begun
            self.assertEqual(browser.value("page.view().list.total"), OBJECTS)
            browser.value("page.view().list.place.scrollTop = 1e9")
            browser.wait_for("page.view().list.rows.at(-1)?.object && page.view().list.from > 4000")
            browser.value("page.sessions.list.place.scrollTop = 1e9")
            browser.wait_for("Boolean(document.querySelector('[data-session=c1000]'))")
        self.assertLess(max(rows, objects), ROWS_MOST, "rows in the page")
        return sessions_after, objects_after

    def test_flood(self):
        """While lines come as fast as they can, the page says that it shows a sample, and the client is not held up."""
        with self.shown() as (path, _, asker), Client(path) as client:
            self.give(client, [CELL])
            with self.opened(asker.address + "#view=happened&session=c1") as browser:
                browser.value(SAMPLED)
                piece = [text_of(setting(1, "y", at)) for at in range(2_000)]
                for _ in range(15):
                    client.say(*piece)
                    for _ in piece:
                        client.hear()
                browser.wait_for("window.said.some((it) => it.startsWith('a sample'))")
                self.assertLess(browser.value("document.querySelectorAll('[data-entry]').length"), ROWS_MOST)


class Records(PageCases):
    """A record in place of a server."""

    @contextmanager
    def recorded(self, lines, behind):
        """The page of a record."""
        record = Path(self.room, "record")
        record.write_text("".join(text_of(it) + "\n" for it in lines))
        words = [sys.executable, CLIENTS / "inspect", record, self.program]
        with subprocess.Popen(words, stderr=subprocess.PIPE, text=True) as process:
            try:
                with self.opened(address_in([process.stderr.readline()]) + behind) as browser:
                    yield browser
            finally:
                process.terminate()
                process.wait(PATIENCE)

    def test_guide(self):
        """A callback that is called too often is found as docs/COOKBOOK.md says."""
        links, sets = [connecting(1, 2, "seen(int)")] * 3, [setting(1, "x", at) for at in range(1, 201)]
        with self.recorded([{**it, "session": "a"} for it in (CELL, CELL, *links, *sets)], "#view=busiest") as browser:
            cells = "[...document.querySelectorAll('[data-slot]')].map((it) => [...it.children].map((one) => one.textContent))"
            rows = browser.wait_for(f"{cells}.length && {cells}")
            self.assertEqual([row[1:6] for row in rows], [["Cell seen(int)", "600", "100.0 %", "200", "3.0"]])
            browser.click("[data-slot] td:last-child button")
            browser.wait_for("document.querySelectorAll('#chain [data-call]').length === 3")
            calls = browser.texts("#chain [data-call] .call")
            self.assertEqual([call.split(" by ")[1].strip() for call in calls], [f"connection {at}  why" for at in (1, 2, 3)])
            browser.value("page.choose({session: 'a', object: 2, view: 'objects'})")
            browser.wait_for("document.querySelectorAll('#connections [data-connection]').length === 3")
            self.assertEqual(browser.texts("#connections tr td:last-child"), ["line 3", "line 4", "line 5"])

    def test_record(self):
        """It is shown as far as one likes, forward and back, and the slice of a session alone."""
        lines = [{**CELL, "session": "a"}, {**CELL, "session": "b"}, {**setting(1, "x", 1), "session": "a"}, {**setting(1, "x", 2), "session": "b"}, {**setting(1, "x", 3), "session": "a"}]
        with self.recorded(lines, "#session=a&object=1") as browser:
            value = "document.querySelector('[data-property=x]')?.children[2].textContent"
            browser.wait_for(f"{value} === '3'")
            browser.click("#replay [title='one line back']")
            browser.wait_for(f"{value} === '1'")
            browser.click("#replay [title='to the beginning']")
            browser.wait_for("!document.querySelector('[data-session]')")
            browser.value("page.replay.tell({ at: 4, of: 5, moves: 1 })")  # news that were on their way, and are older
            browser.click("#replay [title='one line forward']")
            browser.wait_for(f"{value} === '0'")
            browser.click("#replay [title='to the end']")
            browser.wait_for(f"{value} === '3'")
            browser.click("[data-view=happened]")
            browser.value("page.view().slice.click()")
            browser.wait_for("[...document.querySelectorAll('[data-entry]')].map((it) => it.dataset.entry).join() === '5,3,1'")
