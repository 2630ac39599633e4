"""What the inspector keeps where lines were left out: nothing of sessions whose clients have gone."""

import json
import os
import signal
from collections import deque

from inspecting.feed import Asking, Feed
from inspecting.world import DEPARTED_MOST

from tests.support.lines import text_of

from .fronts import Client
from .inspected import world_of
from .inspectors import InspectCases
from .stand_ins import StandInCases

ROUNDS = 60
EACH = 25  # sessions that come and go in each round
LIVING = 5  # sessions that stay
LONG_TEXT = "x" * 4_096


class Churn:
    """What a front tells while sessions come and go: some of it is left out, as happens when the inspector is too slow."""

    def __init__(self):
        self.world = world_of([])
        self.feed = Feed(self.world, Asking(None))
        self.last = 0

    def tell(self, *lines):
        for line in lines:
            self.feed.take((line if isinstance(line, str) else "!" + text_of(line)).encode() + b"\n")

    def come(self):
        """The name of a new session."""
        self.last += 1
        return f"c{self.last}"

    def give(self, session, /, **command):
        self.tell(">" + text_of({**command, "session": session}))

    def do(self, session, reply=True, /, **command):
        """A command of a session, and its answer."""
        self.give(session, **command)
        self.tell(text_of({"reply": reply, "session": session}))

    def make(self, name):
        """A session with an object, which is called and listens to another session."""
        self.do(name, 1, do="new", **{"class": "Cell"})
        self.do(name, do="join", name="n", types=[], object=1, method="f()", **{"from": "c1"})
        self.do(name, do="publish", name="n", object=1, signal="s()")
        call = {"session": name, "call": "f()", "object": 1, "sender": 0, "args": []}
        self.give(name, do="invoke", object=1, method="f()", args=[])
        self.tell(text_of(call), text_of({"reply": True, "session": name}))

    def go(self, name, is_seen=True):
        """The client of a session goes, whose reset is seen or left out."""
        self.tell({"gone": name})
        if is_seen:
            self.do(name, do="reset")

    def leave_out(self, names, under_way=()):
        """Some lines were left out."""
        self.tell({"left": 9, "sessions": sorted(names), "under_way": [[it, False] for it in under_way]})

    def sizes(self):
        """How much is kept in each table of the world."""
        world = self.world
        kept = {**vars(world.learning), **vars(world)}
        tables = {name: len(it) for name, it in kept.items() if isinstance(it, (dict, deque)) and name != "departed"}
        return {**tables, "listening": sum(map(len, world.listeners.values()))}


class Gaps(InspectCases):
    """Many sessions come and go while lines are left out."""

    def churn(self, one_round):
        """The sizes of what is kept after many rounds, in which nothing of the sessions that have gone is left."""
        churn = Churn()
        living = [churn.come() for _ in range(LIVING)]
        for name in living:
            churn.make(name)
        for _ in range(ROUNDS):
            one_round(churn, [churn.come() for _ in range(EACH)])
        self.assertEqual(sorted(churn.world.sessions), living)
        self.assertEqual({key: count for key, count in churn.sizes().items() if count > LIVING}, {})
        self.assertLessEqual(len(churn.world.departed), DEPARTED_MOST)
        return churn

    def test_seen(self):
        """Where all is seen, nothing is left of them, also where the last answers come after their clients have gone."""

        def one_round(churn, names):
            for at, name in enumerate(names):
                if at % 2:
                    churn.make(name)
                churn.give(name, do="new", **{"class": "Cell"})
                churn.tell({"gone": name}, text_of({"reply": 2, "session": name}))
                churn.do(name, do="reset")

        churn = self.churn(one_round)
        self.assertEqual(len(churn.world.departed), 0)

    def test_resets_left_out(self):
        """Where the resets are left out, those are forgotten that have gone."""

        def one_round(churn, names):
            for name in names:
                churn.make(name)
            for name in names:
                churn.go(name, is_seen=False)
            churn.leave_out(["c1", *names])

        self.churn(one_round)

    def test_all_left_out(self):
        """Where all of their lives is left out, nothing is kept of them, though the front names them."""

        def one_round(churn, names):
            for name in names:
                churn.go(name, is_seen=False)
            churn.leave_out([*names, "c2"])

        self.churn(one_round)

    def test_last_lines_seen(self):
        """Where the gap ends before their last lines, these bring nothing back: neither resets nor answers."""

        def one_round(churn, names):
            for name in names[1:]:
                churn.make(name)
            for name in names:
                churn.go(name, is_seen=False)
            churn.leave_out(["c3", *names], under_way=[names[1], names[0], names[0], "c3"])
            for name in (names[1], names[0], names[0], "c3"):
                churn.tell(text_of({"reply": True, "session": name}))
            for name in names[2:]:
                churn.do(name, do="status")
                churn.do(name, do="reset")

        self.churn(one_round)

    def test_living(self):
        """Sessions that are there stay, are not known for certain after a gap, and are known again once they are reset."""
        churn = Churn()
        for name in (churn.come(), churn.come()):
            churn.make(name)
        churn.leave_out(["c1"])
        self.assertEqual({name: it.is_known for name, it in churn.world.sessions.items()}, {"c1": False, "c2": True})
        churn.do("c1", do="reset")
        self.assertEqual((churn.world.sessions["c1"].is_known, churn.world.sessions["c1"].lines > 0), (True, True))
        self.assertEqual(churn.world.listeners, {"c1": {"c2"}}, "c1 listens to nobody any more")

    def test_names_joined(self):
        """Names of sessions that were joined and left again are not kept."""
        churn = Churn()
        churn.make("a")
        for at in range(1_000):
            where = {"from": f"n{at}", "name": "n", "object": 1, "method": "f()"}
            churn.do("a", do="join", types=[], **where)
            churn.do("a", do="leave", **where)
        self.assertEqual(churn.world.listeners, {"c1": {"a"}})

    def test_whole(self):
        """Behind a front, the sessions that are shown after a gap are those whose clients are there."""
        with self.shown() as (path, process, asker), Client(path) as stays:
            stays.ask('{"do":"new","class":"Cell"}')
            number = self.inspector_of(process)
            goes = [Client(path) for _ in range(20)]
            for it in goes:
                it.ask('{"do":"new","class":"Cell"}')
            asker.until(self, lambda it: it["total"] == 21, "sessions")
            os.kill(number, signal.SIGSTOP)
            text = text_of({"do": "set", "object": 1, "property": "tag", "value": LONG_TEXT})
            for _ in range(40):
                stays.say(*[text] * 50)
                for _ in range(50):
                    stays.hear()
            for it in goes:
                it.leave()
            for _ in range(20):
                with Client(path) as one:
                    one.ask('{"do":"new","class":"Cell"}')
            stays.ask('{"do":"status"}')
            os.kill(number, signal.SIGCONT)
            asker.until(self, lambda it: it["left_out"] > 0 and not it["waiting"], "about")
            stays.ask('{"do":"status"}')
            asker.until(self, lambda it: [row["name"] for row in it["rows"]] == ["c1"], "sessions")


class Told(StandInCases):
    """The front's reports of lines that it has left out."""

    def test_front(self):
        """The front does not name sessions of disconnected clients among those whose lines were left out."""
        text = text_of({"do": "set", "object": 1, "property": "tag", "value": LONG_TEXT})
        new = '{"do":"new","class":"Cell"}'
        with self.handed("--share", "team") as (path, _, _, page), Client(path) as stays, Client(path) as member:
            member.ask('{"front":"share","session":"team"}')
            goes = Client(path)
            for it in (stays, goes):
                it.ask(new)
            for _ in range(40):  # the page's process reads nothing of it
                stays.say(*[text] * 50)
                for _ in range(50):
                    stays.hear()
            for it in (member, goes, stays):
                it.ask(new)
            goes.leave()
            for _ in range(5):
                with Client(path) as one:
                    one.ask(new)
            stays.ask(new)
            *_, last = page.told(lambda line: line.startswith(b'!{"left"'))
            told = json.loads(last[1:])
            self.assertEqual(told["sessions"], ["c1", "team"])
            self.assertGreater(told["left"], 10)
