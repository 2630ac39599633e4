"""What the page of the inspector asks for itself, and what it says of values that it does not know any more."""

import json
import re

from tests.generators import sessions
from tests.plain import classes as plain_classes
from tests.plain.world import Server
from tests.support.cases import Cases

from inspecting import views
from inspecting.looking import Looks, Pace

from .fronts import Client, classes_in
from .inspected import claims_of, hear, world_of
from .test_inspect_looks import PLENTY, ROUNDS, answered_by, not_known
from .test_inspect_page import CELL, FALL, PageCases, command, setting

SOME = 300  # commands of a life
BOUND = command("bind", object=1, property="y", to={"prop": "x"})


class Gaps(Cases):
    """A session with lines that were left out."""

    def test_known_again(self):
        """Once the session was asked, all of it is known again, as the plain program has it, and counted for certain."""
        world, server = world_of(sessions.CLASSES), Server(plain_classes.Classes(sessions.CLASSES))
        life = list(sessions.life_of(3, listens=True))
        for at, it in enumerate(life[: life.index(FALL)]):
            given = {**it, "session": "a"}
            lines = server.step(given)
            if at % 2:
                hear(world, given, lines)
        world.leave_out(10, ["a"], [])
        self.assertFalse(views.tree(world, "a", 0, 100, set(), "")["known"])
        self.assertEqual(views.sessions(world, 0, 9, "", "name")["rows"][0]["objects"], [0, False])
        ask, _ = answered_by(world, server)
        looks = Looks(ask, Pace(PLENTY))
        for number in (None, *(it.number for it in server.sessions["a"].rows)):
            for _ in range(ROUNDS):
                if not looks.look(world, "a", number)["left"]:
                    break
        plain = server.sessions["a"]
        self.assertEqual(list(not_known(world, "a", plain)), [])
        self.assertEqual([it.faults for it in claims_of(world, server)], [[]])
        row = views.sessions(world, 0, 9, "", "name")["rows"][0]
        right = {
            "objects": len(plain.rows), "connections": len(plain.connections), "queued": len(plain.queue), "bindings": len(plain.bindings),
            "joins": len(plain.joins), "publications": len(plain.publications),
        }  # fmt: skip
        self.assertEqual({key: row[key] for key in right}, {key: [count, True] for key, count in right.items()})
        self.assertTrue(views.tree(world, "a", 0, 100, set(), "")["known"])


class Since(PageCases):
    """Values that are not known any more."""

    def test_since(self):
        """They say since which line and since when, and where nobody may ask, how that is allowed."""
        with self.shown() as (path, _, asker), Client(path) as client:
            self.give(client, [CELL, BOUND, command("get", object=1, property="y"), setting(1, "x", 4), setting(1, "z", 1)])
            found = asker.until(self, lambda it: len(it["properties"]) > 1, "object", session="c1", number=1)
            row = next(it for it in found["properties"] if it["name"] == "y")
            self.assertEqual((row["value"], row["sure"], row["entry"], row["since"]["entry"]), (0, False, 3, 4))
            with self.opened(asker.address + "#session=c1&object=1") as browser:
                text = browser.wait_for("document.querySelector('[data-property=y]')?.children[2].textContent")
                self.assertRegex(text, r"^0 may have changed since line 4 \(\d\d:\d\d:\d\d\)$")
                shown = browser.value("new Date().toLocaleTimeString('en-GB')")
                self.assertLess(seconds_of(shown) - seconds_of(re.search(r"\((.*)\)", text)[1]) % 86_400, 120)
                self.assertIn("--inspect-ask", browser.value("document.querySelector('#object .notice').textContent"))


def seconds_of(text):
    """The seconds of a time of the day."""
    hours, minutes, seconds = map(int, text.split(":"))
    return 3_600 * hours + 60 * minutes + seconds


class Asked(PageCases):
    """A page that may ask."""

    def test_asked(self):
        """It goes on to ask for what is not known of the chosen session and object, in each view, until all is known and as
        the plain program has it."""
        server = Server(plain_classes.Classes(sessions.CLASSES))
        words = classes_in(self.room, sessions.CLASSES)
        with self.shown(words, options=("--inspect-ask",)) as (path, _, asker), Client(path) as client:
            life = list(sessions.life_of(7))
            life = life[: life.index(FALL)][:SOME]
            self.give(client, life)
            for it in life:
                server.step({**it, "session": "c1"})
            plain = server.sessions["c1"]
            number = max((it.number for it in plain.rows), key=lambda it: len([at for at in plain.bindings if at.number == it]))
            before = asker.until(self, lambda it: it["commands"] >= len(life), "about")["commands"]
            unsure = [it for it in asker.get("object", session="c1", number=number)["properties"] if not it["sure"]]
            with self.opened(asker.address + f"#session=c1&object={number}&view=busiest") as browser:
                browser.wait_for("page.about.ask")
                known = f"Promise.all([fetch('place?session=c1&object={number}').then((it) => it.json()), fetch('tree?session=c1&count=500').then((it) => it.json())]).then(([place, tree]) => place.wanted === 0 && place.object.wanted === 0 && tree.whole)"  # noqa: E501
                browser.wait_for(known)
                browser.click("[data-view=objects]")
                browser.wait_for("document.querySelectorAll('#properties [data-property]').length > 0")
                for name, value in browser.value("[...document.querySelectorAll('#properties [data-property]')].map((it) => [it.dataset.property, it.children[2].textContent])"):
                    self.assertEqual(json.loads(value), plain.read(plain.row(number), name), name)
                self.assertEqual(browser.value("document.querySelectorAll('#view .unsure, #view .mark.amber, aside .list .chosen .unsure').length"), 0)
                counts = [str(it) for it in (len(plain.rows), len(plain.connections), len(plain.queue), len(plain.bindings), len(plain.joins))]
                self.assertEqual(browser.value("[...document.querySelectorAll('aside .list .chosen > span')].slice(1, 6).map((it) => it.textContent)"), counts)
            self.assertGreater(asker.get("about")["commands"], before, f"nothing was asked, where these were not known: {unsure}")
