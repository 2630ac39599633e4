"""The timeline of the inspector: its axis and windows, how often signals were sent, and values of a property over time."""

import json
import random

from inspecting import timeline
from inspecting.happened import Sought
from inspecting.views import told

from tests.generators import sessions
from tests.plain import classes as plain_classes
from tests.plain.world import Server
from tests.support.cases import Cases

from .fronts import Client
from .inspected import hear, world_of
from .test_inspect_page import CELL, FALL, PageCases, connecting, setting

TICKS = "[...document.querySelectorAll('#timeline .tick')]"
MARKS = "[...document.querySelectorAll('#timeline .mark_of_time')].map((it) => Number(it.dataset.time))"
VALUES = "[...document.querySelectorAll('#timeline .value_point')].map((it) => it.dataset.value)"


class Spans(Cases):
    """What is in a span of time, without a page."""

    def test_values(self):
        """Values over time are those that the plain program has after the same commands; those that were set are all there."""
        world, server = world_of(sessions.CLASSES), Server(plain_classes.Classes(sessions.CLASSES))
        after, written, count = {}, [], 0
        life = list(sessions.life_of(2))
        for number, it in enumerate(life[: life.index(FALL)], 1):
            lines = server.step({**it, "session": "a"})
            hear(world, {**it, "session": "a"}, lines)
            plain = server.sessions["a"]
            after[number] = {(row.number, name): plain.read(row, name) for row in plain.rows for name in ("pitch", "heard", "objectName") if plain.declared(row, name)}
            if it["do"] == "set" and "error" not in lines[-1] and (it["object"], it["property"]) in after[number]:
                written.append((number, it["object"], it["property"], it["value"]))
        for spot in {spot for them in after.values() for spot in them}:
            before = object()
            for point in timeline.values(world, "a", spot, (None, None))["points"]:
                count += 1
                self.assertEqual(point["value"], told(after[point["entry"]].get(spot)), (spot, point))
                self.assertNotEqual(point["value"], before, (spot, point))
                before = point["value"]
        self.assertGreater(count, 100)
        self.assertGreater(len(written), 8)
        for number, owner, name, value in written:
            points = timeline.values(world, "a", (owner, name), (None, None))["points"]
            self.assertEqual([it["value"] for it in points if it["entry"] <= number][-1], value, (number, owner, name))

    def test_rates(self):
        """Each signal is counted in its part of the span, and in no other."""
        world, server = world_of(sessions.CLASSES), Server(plain_classes.Classes(sessions.CLASSES))
        do = [{"do": "new", "class": "Bell"}, {"do": "new", "class": "Ear"}, {"do": "connect", "sender": 1, "signal": "rang(int)", "receiver": 2, "method": "hear(int)"}]
        for it in do:
            hear(world, {**it, "session": "a"}, server.step({**it, "session": "a"}))
        chance, times = random.Random(3), []
        for at in range(200):
            world.now += chance.randrange(1, 50_000)
            given = {"do": "invoke", "object": 1, "method": "rang(int)", "args": [1], "session": "a"}
            hear(world, given, server.step(given))
            times.append(world.now)
        for start, end, bins in ((None, None, 7), (times[20], times[150], 10), (times[5], times[5] + 1_000, 3), (times[-1] + 1, times[-1] + 9, 4)):
            found = timeline.emissions(world, Sought("a", 1, "rang"), (start, end), 9_999, bins)
            inside = [it for it in times if (start or 0) <= it <= (end or times[-1])]
            self.assertEqual((found["total"], sum(found["rates"]), len(found["rates"])), (len(inside), len(inside), bins))
            self.assertEqual([row[6] for row in found["rows"]], inside)
            first, length = found["from"], (found["to"] - found["from"]) / bins
            for number, counted in enumerate(found["rates"]):
                low, high = first + number * length, first + (number + 1) * length
                least = sum(low < it < high for it in inside)
                self.assertTrue(least <= counted <= least + sum(it in (low, high) for it in inside), (number, counted, least))


class Shown(PageCases):
    """The timeline in the page."""

    shares_browser = True

    def test_windows(self):
        """The window is from a minute to a millisecond long, its marks are round and of the window, and its ticks are the signals
        of that time; it is moved and zoomed by keys too."""
        with self.shown() as (path, _, asker), Client(path) as client:
            self.give(client, [CELL, CELL, connecting(1, 2, "seen(int)"), *(setting(1, "x", at + 1) for at in range(60))])
            found = asker.until(self, lambda it: it["total"] >= 60, "emissions", session="c1", object=1, signal="xChanged")
            times = sorted(row[6] for row in found["rows"])
            with self.opened(asker.address + "#session=c1&view=timeline") as browser:
                browser.wait_for(f"{TICKS}.length === 60")
                middle = times[30]
                for length in (60_000_000, 10_000_000, 1_000_000, 100_000, 10_000, 1_000):
                    browser.write("#span", str(length))
                    browser.value(f"page.view().zoomTo({length}, {middle})")
                    browser.wait_for(f"page.view().found.to === {middle + length // 2} && {MARKS}.length > 0 && {MARKS}.every((it) => it <= {middle + length // 2})")
                    first, last = browser.value("[page.view().found.from, page.view().found.to]")
                    self.assertEqual(first, max(0, middle + length // 2 - length))
                    browser.wait_for(f"{TICKS}.length === {sum(first <= it <= last for it in times)}")
                    marks, epoch = browser.value(MARKS), found["epoch"]
                    steps = {round(later - earlier) for earlier, later in zip(marks, marks[1:])}
                    self.assertLessEqual(len(steps), 1, marks)
                    self.assertTrue(all(first - 1 <= it <= last + 1 for it in marks), (first, last, marks))
                    for step in steps:
                        self.assertIn(str(step).rstrip("0"), ("1", "2", "5"))
                        self.assertEqual({round(it + epoch) % step for it in marks}, {0})
                browser.value("document.getElementById('timeline').focus()")
                for key, factor in (("-", 2), ("-", 4), ("+", 2)):
                    browser.press(key)
                    browser.wait_for(f"page.view().span === {1_000 * factor}")
                browser.press("0")
                browser.wait_for(f"{TICKS}.length === 60")
                browser.write("[aria-label='Signal']", "destroyed")
                browser.wait_for(f"{TICKS}.length === 0")

    def test_plots(self):
        """The values of a property are drawn as they were set, and the bars are as many signals as there were."""
        values = [3, -2, 7, 7, 0]
        with self.shown() as (path, _, asker), Client(path) as client:
            self.give(client, [CELL, CELL, connecting(1, 2, "seen(int)"), *(setting(1, "x", it) for it in values), setting(1, "objectName", "a"), setting(1, "objectName", "b")])
            with self.opened(asker.address + "#session=c1&view=timeline") as browser:
                browser.write("[aria-label='Object']", "1")
                browser.write("[aria-label='Property to plot']", "x")
                browser.wait_for(f"{VALUES}.join() === '3,-2,7,0'")
                heights = browser.value("[...document.querySelectorAll('#timeline .value_point')].map((it) => -Number(it.getAttribute('cy')))")
                self.assertEqual(sorted(range(4), key=heights.__getitem__), [1, 3, 0, 2])
                total = browser.value("page.view().found.total")
                self.assertEqual(browser.value("[...document.querySelectorAll('#timeline .bar_of_rate')].reduce((sum, it) => sum + Number(it.dataset.count), 0)"), total)
                self.assertEqual(total, len(browser.value(f"{TICKS}.map((it) => it.dataset.emission)")))
                browser.write("[aria-label='Property to plot']", "objectName")
                browser.wait_for(f"{VALUES}.join() === '\"a\",\"b\"'")
                self.assertEqual(json.loads(client.ask('{"do":"get","object":1,"property":"x"}'))["reply"], 0)
