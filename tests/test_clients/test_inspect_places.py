"""Where the page of the inspector is: what is chosen, in its line, its address and its lists; search and filters."""

import json
import random
import sys

from inspecting import searching
from inspecting.searching import FOUND_MOST, query_of, search

from tests.generators import sessions
from tests.plain import classes as plain_classes
from tests.plain.world import Server
from tests.support.cases import Cases
from tests.support.lines import text_of

from .fronts import GREETED_BY_PYTHON, Client
from .inspected import hear, world_of
from .test_inspect_page import CELL, FALL, PageCases, command, connecting, setting

LIVES = 6
CRUMBS = "[...document.querySelectorAll('#crumbs li')].map((it) => it.textContent)"
FAILING = GREETED_BY_PYTHON + """
import json
for line in sys.stdin:
    asked = json.loads(line)
    said = {"error": "E21"} if asked["do"] == "status" else {"reply": 1}
    print(json.dumps({**said, "session": asked["session"]}, separators=(",", ":")), flush=True)
"""  # a server that finds no memory for `status`


def lived(count):
    """A world and the plain program after the same random lives of some sessions."""
    server, world = Server(plain_classes.Classes(sessions.CLASSES)), world_of(sessions.CLASSES)
    for number in range(count):
        life = list(sessions.life_of(number, listens=True))
        for it in life[: life.index(FALL)]:
            given = {**it, "session": f"s{number}"}
            hear(world, given, server.step(given))
    return world, server


def right(server, kind, text):
    """What the plain program has of a kind for a text, as sessions and objects."""
    for name, plain in server.sessions.items():
        for row in plain.rows:
            called = plain.read(row, "objectName")
            if kind == "object" and text == f"#{row.number}" or kind == "class" and text in row.class_name or kind == "name" and text in called:
                yield name, row.number
        for it in plain.publications:
            if kind == "publication" and text in it.name:
                yield name, it.number


class Searching(Cases):
    """Search across sessions, without a page."""

    def test_random(self):
        """What is found in random sessions is what the plain program has, for each kind."""
        world, server = lived(LIVES)
        chance = random.Random(5)
        for kind, texts in (
            ("object", [f"#{chance.randrange(1, 45)}" for _ in range(6)]), ("class", ["Bell", "Ea", "Nothing"]),
            ("name", [f"{chance.randrange(LIVES)} {chance.randrange(2, 40)}" for _ in range(30)] + ["5 1"]), ("publication", ["ran", "fell", "x"]),
        ):  # fmt: skip
            for text in texts:
                found = search(world, query_of(text, kind))
                self.assertEqual(found["looked_at"], LIVES)
                wanted = sorted(right(server, kind, text))
                if len(wanted) <= FOUND_MOST:
                    self.assertEqual(sorted((it["session"], it["object"]) for it in found["rows"]), wanted, (kind, text))

    def test_values(self):
        """Values that are found are those that the plain program has; numbers are found as a whole, texts in part."""
        world, server = lived(LIVES)
        count = 0
        for name, shown in world.sessions.items():
            plain = server.sessions[name]
            for (number, called), cell in shown.cells.items():
                if cell.is_sure and called in ("tag", "note") and count < 20:
                    count += 1
                    value = plain.read(plain.row(number), called)
                    rows = search(world, query_of(value, "value"))["rows"]
                    self.assertIn((name, number, f"{called} = {value}"), [(it["session"], it["object"], it["match"]) for it in rows])
        self.assertEqual(count, 20)
        hear(world, {**setting(1, "pitch", 77_123), "session": "s0"}, server.step({**setting(1, "pitch", 77_123), "session": "s0"}))
        self.assertEqual([it["session"] for it in search(world, query_of("77123", "value"))["rows"] if it["object"] == 1], ["s0"])
        self.assertEqual(search(world, query_of("7712", "value"))["rows"], [])

    def test_bounds(self):
        """A search ends after a time and after a number of rows, says so, and looks at nothing without a text."""
        world, _ = lived(LIVES)
        found = search(world, query_of("Ear", "class"))
        self.assertEqual((len(found["rows"]), found["more"]), (min(FOUND_MOST, len(found["rows"])), len(found["rows"]) == FOUND_MOST))
        now = iter(range(100))
        early = search(world, query_of("nothing", ""), lambda: next(now))
        self.assertEqual((early["looked_at"], early["sessions"]), (int(searching.SECONDS_MOST), LIVES))
        self.assertEqual(search(world, query_of(" ", ""))["looked_at"], 0)


class Places(PageCases):
    """What is chosen, in the page."""

    shares_browser = True

    def here(self, browser):
        """The words of the address, and the line of what is chosen."""
        return browser.value("Object.fromEntries(new URLSearchParams(location.hash.slice(1)))"), browser.value(CRUMBS)

    def test_crumbs(self):
        """Session, class and object are shown above each view and in the address; a link shows the same again, and the way
        back leads to what was shown before."""
        with self.lives() as (browser, server):
            browser.click("[data-session=c2]")
            row = server.sessions["c2"].rows[3]
            browser.click(f'[data-object="{row.number}"]')
            called = server.sessions["c2"].read(row, "objectName")
            words = ["all sessions", "c2", row.class_name, f"#{row.number}{f' {json.dumps(called)}' if called else ''}"]
            for view in ("objects", "happened", "timeline", "graphs", "busiest"):
                browser.click(f"[data-view={view}]")
                browser.wait_for(f"JSON.stringify({CRUMBS}) === {json.dumps(json.dumps(words, ensure_ascii=False, separators=(',', ':')))}")
                address, _ = self.here(browser)
                self.assertEqual(address, {"view": view, "session": "c2", "class": row.class_name, "object": str(row.number)})
            link = browser.value("location.href")
            browser.value("history.back()")
            browser.wait_for("document.querySelector('[role=tab][aria-selected=true]').dataset.view === 'graphs'")
            browser.value("history.forward()")
            browser.wait_for("document.querySelector('[role=tab][aria-selected=true]').dataset.view === 'busiest'")
            browser.open("about:blank")
            browser.open(link.replace("busiest", "objects"))
            browser.wait_for(f"JSON.stringify({CRUMBS}) === {json.dumps(json.dumps(words, ensure_ascii=False, separators=(',', ':')))}")
            self.assertEqual(browser.wait_for("document.querySelector('.tree .row.chosen')?.dataset.object"), str(row.number))
            browser.click("#crumbs [data-key=class]")
            right_ones = sorted(it.number for it in server.sessions["c2"].rows if it.class_name == row.class_name)
            browser.wait_for(f"page.view().list.total === {len(right_ones)} && page.view().list.rows.length === page.view().list.total")
            self.assertEqual(sorted(browser.value("page.view().list.rows.map((it) => it.object)")), right_ones)
            self.assertEqual(self.here(browser)[0], {"view": "objects", "session": "c2", "class": row.class_name})

    def test_stays_visible(self):
        """The chosen session is in sight when the page opens, and at the edge of the list when that is scrolled away."""
        with self.shown() as (path, _, asker):
            for client in [self.enterContext(Client(path)) for _ in range(120)]:
                client.ask(text_of(CELL))
            with self.opened(asker.address + "#session=c60&object=1") as browser:
                seen = "(() => { const all = document.querySelector('aside .listing').getBoundingClientRect(), it = [...document.querySelectorAll('[data-session=c60]')].map((one) => one.getBoundingClientRect()); return it.some((one) => one.top >= all.top && one.bottom <= all.bottom + 1); })()"  # noqa: E501
                browser.wait_for(seen)
                self.assertEqual(browser.value("document.querySelectorAll('.list [data-session=c60].chosen').length"), 1)
                for top, edge in ((0, "below"), (1e9, "")):
                    browser.value(f"page.sessions.list.place.scrollTop = {top}")
                    browser.wait_for(f"!page.sessions.list.pinned.hidden && page.sessions.list.pinned.classList.contains('below') === {str(edge == 'below').lower()} && {seen}")
                browser.write("[aria-label='Order of the sessions']", "first")
                browser.wait_for(seen)

    def test_search(self):
        """Search in the page leads to the object, and its address can be shared."""
        with self.lives() as (browser, server):
            browser.press("/")
            browser.wait_for("document.activeElement.id === 'sought'")
            named = [(name, row) for name, plain in server.sessions.items() for row in plain.rows if plain.read(row, "objectName")]
            name, row = named[0]
            called = server.sessions[name].read(row, "objectName")
            browser.type(called)
            browser.wait_for("document.querySelectorAll('#found [data-found]').length > 0")
            wanted = {f"{session} {it.number} name" for session, it in named if called in server.sessions[session].read(it, "objectName")}
            browser.wait_for(f"[...document.querySelectorAll('#found [data-found$=name]')].length === {len(wanted)}")
            self.assertEqual(set(browser.value("[...document.querySelectorAll('#found [data-found$=name]')].map((it) => it.dataset.found)")), wanted)
            self.assertEqual(self.here(browser)[0], {"view": "search", "sought": called})
            browser.click(f"[data-found='{name} {row.number} name'] td:nth-child(2) button")
            browser.wait_for(f"document.querySelector('#object h2 .code')?.textContent.trim() === '#{row.number}'")
            browser.value("history.back()")
            browser.wait_for("document.querySelectorAll('#found [data-found]').length > 0")

    def test_filters(self):
        """Sessions that have failed, that are busy, and that have events waiting are listed alone."""
        words = [sys.executable, "-c", FAILING]
        with self.shown(server=words) as (path, _, asker), Client(path) as one, Client(path) as two:
            self.assertIn("E21", one.ask('{"do":"status"}'))
            two.ask(text_of(CELL))
            with self.opened(asker.address) as browser:
                self.check_filter(browser, "failed", ["c1"])
                self.check_filter(browser, "busy", [])
                self.assertEqual(browser.value("location.hash"), "#view=objects&only=busy")
        with self.shown() as (path, _, asker), Client(path) as one, Client(path) as two, Client(path) as three:
            self.give(one, [CELL, CELL, command("publish", object=1, signal="xChanged(int)", name="level"), connecting(1, 2, "seen(int)", type="queued")])
            self.give(two, [CELL, command("join", **{"from": "c1"}, name="level", types=["int"], object=1, method="seen(int)")])
            self.give(three, [CELL])
            self.give(one, [setting(1, "x", 4)])
            with self.opened(asker.address) as browser:
                self.check_filter(browser, "waiting", ["c1", "c2"])

    def check_filter(self, browser, name, wanted):
        """One filter alone lists these sessions."""
        for it in ("failed", "busy", "waiting"):
            browser.wait_for(f"document.querySelector('[data-only={it}]').textContent !== '{it}'")
            if browser.value(f"document.querySelector('[data-only={it}]').getAttribute('aria-pressed') === 'true'") != (it == name):
                browser.click(f"[data-only={it}]")
                browser.wait_for(f"document.querySelector('[data-only={it}]').getAttribute('aria-pressed') === '{str(it == name).lower()}'")
        names = "JSON.stringify([...document.querySelectorAll('aside .list [data-session]')].map((it) => it.dataset.session))"
        browser.wait_for(f"{names} === {json.dumps(json.dumps(wanted, separators=(',', ':')))}")
        self.assertEqual(browser.value(f"document.querySelector('[data-only={name}]').textContent"), f"{name} {len(wanted)}")
