"""The page of the inspector where there is much of everything: browsers, lines, and sessions that come and go."""

import http.client
import json
import os
import signal
import sys
import threading
import time

from inspecting import serving
from inspecting.classes import Classes
from inspecting.feed import Asking
from inspecting.pages import Leave, Pages
from inspecting.world import World

from tests.support.cases import Cases
from tests.support.lines import text_of

from .fronts import GREETED_BY_PYTHON, PATIENCE, Client
from .inspected import hear
from .test_inspect_page import CELL, PageCases, command, connecting, setting

BROWSERS = 32
AT_ONCE = 5  # connections of a browser, apart from the one for news
ROUNDS = 3
CALLS, PIECE = 200_000, 10_000
FLOOD = GREETED_BY_PYTHON + """
import json
for line in sys.stdin:
    asked = json.loads(line)
    name = asked["session"]
    if asked["do"] == "spin":
        call = '{"args":[],"call":"note()","object":1,"sender":0,"session":"%s"}\\n' % name
        for _ in range(CALLS // PIECE):
            sys.stdout.write(call * PIECE)
    reply = {"new": 1, "spin": {"events": 1, "left": 0, "lost": 0, "mismatched": 0}}.get(asked["do"], True)
    print(json.dumps({"reply": reply, "session": name}, separators=(",", ":")), flush=True)
""".replace("CALLS", str(CALLS)).replace("PIECE", str(PIECE))


class Answers(Cases):
    """What many browsers ask at once."""

    def test_once(self):
        """What several browsers ask for is made once, until something has changed."""
        world = World(Classes(None))
        hear(world, {"do": "new", "class": "Cell", "session": "a"}, [{"reply": 1, "session": "a"}])
        pages = Pages(world, Asking(None), Leave(), [])
        first = [pages.answer("sessions", {"count": "9"}) for _ in range(BROWSERS)]
        self.assertEqual((len(set(first)), pages.answers.made), (1, 1))
        pages.answer("sessions", {"count": "8"})
        self.assertEqual(pages.answers.made, 2)
        hear(world, {"do": "new", "class": "Cell", "session": "a"}, [{"reply": 2, "session": "a"}])
        self.assertEqual(json.loads(pages.answer("sessions", {"count": "9"}))["rows"][0]["objects"], [2, True])
        self.assertEqual(pages.answers.made, 3)

    def test_room(self):
        """There is room for as many browsers, with as many connections as each of them opens."""
        self.assertGreaterEqual(serving.NEWS_MOST, BROWSERS)
        self.assertGreaterEqual(serving.CONNECTIONS_MOST, BROWSERS * (AT_ONCE + 1))


class Crowd(PageCases):
    """Many browsers at a front."""

    shares_browser = True

    def test_browsers(self):
        """31 others that follow the news and ask with all their connections get all their answers, while a page shows what
        is new."""
        with self.shown() as (path, _, asker), Client(path) as client:
            self.give(client, [CELL, setting(1, "x", 1)])
            statuses, gate = [], threading.Barrier(BROWSERS, timeout=4 * PATIENCE)
            others = [threading.Thread(target=self.one_browser, args=(asker, gate, statuses)) for _ in range(BROWSERS - 1)]
            with self.opened(asker.address + "#session=c1&object=1") as browser:
                browser.wait_for("document.querySelector('[data-property=x]')?.children[2].textContent === '1'")
                for it in others:
                    it.start()
                gate.wait()
                self.give(client, [setting(1, "x", 2)])
                browser.wait_for("document.querySelector('[data-property=x]').children[2].textContent === '2'")
                for it in others:
                    it.join()
            self.assertEqual((len(statuses), set(statuses)), ((BROWSERS - 1) * (1 + AT_ONCE * ROUNDS), {200}))

    def one_browser(self, asker, gate, statuses):
        """What a browser does: it follows the news, and asks by several connections at once, which it keeps."""
        links = [http.client.HTTPConnection(asker.host, asker.port, timeout=PATIENCE) for _ in range(AT_ONCE + 1)]
        try:
            links[0].request("GET", f"{asker.path}news")
            statuses.append(links[0].getresponse().status)
            gate.wait()
            for name in ("sessions", "about", "tree?session=c1")[:ROUNDS]:
                for link in links[1:]:
                    link.request("GET", asker.path + name)
                for link in links[1:]:
                    answer = link.getresponse()
                    answer.read()
                    statuses.append(answer.status)
        finally:
            for link in links:
                link.close()

    def test_skipped(self):
        """Of more lines than the page's process takes, some are skipped: it says so, is at the newest soon, and shows it."""
        with self.shown(server=[sys.executable, "-c", FLOOD]) as (path, process, asker), Client(path) as client:
            client.ask(text_of(CELL))
            with self.opened(asker.address + "#session=c1") as browser:
                browser.wait_for("document.querySelectorAll('[data-session]').length > 0")
                number = self.inspector_of(process)
                os.kill(number, signal.SIGSTOP)
                try:
                    client.say('{"do":"spin"}')
                    while '"reply"' not in client.hear():
                        pass
                finally:
                    os.kill(number, signal.SIGCONT)
                client.ask('{"do":"status"}')
                browser.wait_for("/ [1-9]\\d* lines left out/.test(document.getElementById('state').textContent)")
                browser.wait_for("!document.getElementById('state').textContent.includes('late by')")
                self.assertTrue(browser.value("document.getElementById('state').classList.contains('unsure')"))
                client.ask(text_of(command("get", object=1, property="x")))
                about = asker.until(self, lambda it: it["left_out"] > 0 and not it["waiting"], "about")
                self.assertGreaterEqual(about["left_out"] + about["lines"], CALLS)
                browser.click("[data-view=happened]")
                browser.wait_for("page.view().rows[0]?.word === 'get'")

    def test_dead(self):
        """Sessions whose clients have left are gone from the list, the counts and the graph, and the line of what is chosen says
        so; nothing of them is found."""
        with self.shown() as (path, _, asker), Client(path) as stays:
            self.give(stays, [CELL, connecting(1, 1, "seen(int)")])
            goes = Client(path)
            self.give(goes, [CELL, setting(1, "objectName", "leaver"), command("publish", object=1, signal="xChanged(int)", name="level")])
            with self.opened(asker.address + "#session=c2&view=graphs&graph=joins") as browser:
                browser.wait_for("document.querySelectorAll('#graph .node').length === 2")
                goes.leave()
                browser.wait_for("[...document.querySelectorAll('[data-session]')].map((it) => it.dataset.session).join() === 'c1'")
                browser.wait_for("document.getElementById('state').textContent.startsWith('1 session ')")
                browser.wait_for("[...document.querySelectorAll('#graph .node')].every((it) => it.dataset.node === 'c1' || it.matches('.missing'))")
                browser.wait_for("document.getElementById('crumbs').textContent.includes('its client has left')")
                self.assertEqual(asker.get("search", sought="leaver")["rows"], [])

    def test_first_picture(self):
        """1,000 sessions need as many requests as one, and an answer that is as large for each row that can be seen."""
        sizes = {}
        for count in (1, 1_000):
            with self.shown() as (path, _, asker):
                for client in [self.enterContext(Client(path)) for _ in range(count)]:
                    client.say(text_of(CELL))
                asker.until(self, lambda it, count=count: it["commands"] == count and not it["waiting"], "about")
                with self.opened(asker.address) as browser:
                    browser.wait_for("document.querySelectorAll('[data-session]').length > 0")
                    rows = browser.value("document.querySelectorAll('[data-session]').length")
                    asked = browser.value("performance.getEntriesByType('resource').filter((it) => /\\/(about|sessions)\\?/.test(it.name)).length")
                    begun = time.monotonic()
                    size = len(asker.answer("GET", asker.path + f"sessions?count={rows}")[2])
                    sizes[count] = (asked, size // rows, time.monotonic() - begun)
        self.assertLessEqual(sizes[1_000][0], sizes[1][0] + 3)
        self.assertLess(sizes[1_000][1], 2 * sizes[1][1])
        self.tell(f"1,000 sessions are answered in {sizes[1_000][2] / sizes[1][2]:.1f} times the time of one")
