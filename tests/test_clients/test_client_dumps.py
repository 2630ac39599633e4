"""What the client in Python says about objects that it did not make, dumps of sessions, and what makes a session again.

What has to come is taken from docs/PROTOCOL.md and worked out by hand, and for random sessions it is what the plain program
knows of them.
"""

from __future__ import annotations

import asyncio
from collections import Counter
from concurrent.futures import ThreadPoolExecutor
from pathlib import Path
from tempfile import TemporaryDirectory

import metad
from metad import aio

from tests.generators import mixed
from tests.plain.classes import Classes
from tests.plain.expressions import shortest
from tests.plain.world import Server
from tests.support.cases import CASE
from tests.support.lines import text_of

from .fronts import ClientCases

SESSIONS = 200
RUNS = 32  # each of two groups of two to five sessions
TURNS = 20
FRESH = "fresh_"
WORDS = ("new", "delete", "setParent", "set", "bind", "block", "connect", "connectFunctor", "disconnect", "publish", "join", "begin")
PAGE = 1_000
CHANGED, TAG = "xChanged(int)", {"prop": "z", "of": 4}
BOUND = {"+": [{"of": "self", "prop": "x"}, TAG]}
MADE = (
    *({"do": "new", "class": it} for it in ("QObject", "Cell", "Cell", "Cell")),
    {"do": "setParent", "object": 2, "parent": None},
    {"do": "setParent", "object": 3, "parent": 2},
    {"do": "set", "object": 2, "property": "x", "value": 5},
    {"do": "set", "object": 3, "property": "tag", "value": "t"},
    {"do": "bind", "object": 3, "property": "y", "to": BOUND},
    {"do": "bind", "object": 2, "property": "objectName", "to": {"const": "\u00e4\n"}},
    {"do": "delete", "object": 4},
    {"do": "connect", "sender": 2, "signal": CHANGED, "receiver": 3, "method": "seen(int)"},
    {"do": "connect", "sender": 2, "signal": CHANGED, "receiver": 3, "method": "seen(int)", "type": "queued", "single": True},
    {"do": "connectFunctor", "sender": 2, "signal": CHANGED, "context": 3, "functor": "clamp"},
    {"do": "disconnect", "connection": 1},
    {"do": "setParent", "object": 1, "parent": 2},
    {"do": "publish", "object": 2, "signal": CHANGED, "name": "temp"},
    {"do": "join", "from": "b", "name": "y", "types": ["int", "bool"], "object": 3, "method": "seen(int)"},
    {"do": "block", "object": 1, "on": True},
)
TEXT = """2 Cell
    .objectName = "\u00e4\\n", bound to {"const":"\u00e4\\n"}
    .x = 5
    3 Cell
        .y = 0, in error, EvaluationError, bound to {"+":[{"prop":"x"},{"of":4,"prop":"z"}]}
        .tag = "t", dynamic
    1 QObject, blocked
connections:
    2: 2.xChanged(int) -> 3.seen(int) queued single
    3: 2.xChanged(int) -> clamp for 3
publications:
    temp: 2.xChanged(int)
joins:
    b.y(int,bool) -> 3.seen(int)
"""


def held_by(session):
    """What the plain program knows a session to hold, except events and states of functors."""
    rows = {it.number: it for it in session.rows}
    return {
        "objects": {number: (it.class_name, it.blocked, list(it.dynamic.items())) for number, it in rows.items()},
        "places": {parent: [it.number for it in session.children(parent)] for parent in (None, *rows)},
        "values": {(it.number, name): value for it in session.rows for name, value in it.values.items() if (it.number, name) not in session.bindings},
        "bindings": {tuple(at): shortest(it.form) for at, it in session.bindings.items()},
        "connections": [(it.number, *it.ends(), it.type, it.single) for it in session.connections],
        "publications": [(it.name, it.number, it.signal) for it in session.publications],
        "joins": [(*it.ends(), it.kinds) for it in session.joins],
        "groups": session.groups,
    }


class Random(ClientCases):
    """Random sessions that listen to each other, and their dumps."""

    def run_of(self, seed):
        """A run by the plain program, and its class file."""
        made = mixed.Chance(seed)
        declared = list(made.classes())
        return mixed.run_of(made, Server(Classes(declared), TURNS), 2), declared

    def fault_of(self, seed):
        """What is wrong with the dumps of a run's sessions, or None, how many there were, and which commands they contain."""
        (run, declared), words = self.run_of(seed), Counter()
        with TemporaryDirectory(prefix="metad-dumps-") as room:
            path = Path(room, "classes.json")
            path.write_text(text_of({"classes": declared}))
            with metad.start(self.program, "--turns", str(TURNS), path) as server:
                for pending in [server.session(it["session"]).send(it["do"], **without(it, "do", "session")) for it in run.commands()]:
                    try:
                        pending.result()
                    except metad.Refused:
                        pass  # as in the run
                names = list(run.server.sessions)
                faults = [fault for name in names if (fault := self.dump_fault(server, run.server, name, words))]
        return faults[0] if faults else None, len(names), words

    def dump_fault(self, server, plain, name, words):
        """What is wrong with the dump of a session, or None."""
        session, fresh = server.session(name), server.session(FRESH + name)
        dump, given = session.dump(), session.dump_commands()
        words.update(command["do"] for command in given)
        fresh.replay(given)
        if fresh.dump() != dump:
            return f"of {name}:\n{dump}\nand replayed:\n{fresh.dump()}"
        for command in given:
            last = plain.step({**command, "session": FRESH + name})[-1]
            if "reply" not in last:
                return f"of {name}: {command} is answered by {last}"
        right, replayed = held_by(plain.session(name)), held_by(plain.session(FRESH + name))
        return next((f"of {name}, {key}: {right[key]}\nand not {replayed[key]}" for key in right if right[key] != replayed[key]), None)

    def test_replayed(self):
        """The commands that a dump is made of make a session of the same dump, which holds the same for the plain program."""
        cases = ((f"random, {seed}", seed) for seed in range(RUNS))
        tried = self.check_each(cases, self.fault_of, lambda it: it[0], workers=ThreadPoolExecutor)
        dumped, words = sum(it[1] for it in tried), sum((it[2] for it in tried), Counter())
        self.assertTrue(CASE or dumped >= SESSIONS, f"only {dumped} sessions")
        self.assertEqual([] if CASE else [it for it in WORDS if not words[it]], [], "no dump is of these commands")
        self.tell(f"sessions: {dumped}, " + ", ".join(f"{it}: {words[it]:,}" for it in WORDS))


def without(command, *keys):
    return {key: value for key, value in command.items() if key not in keys}


class Dumps(ClientCases):
    """Dumps of a session that is worked out by hand, and objects that are there."""

    def made(self, server, name="a"):
        """A session of a server in which there are a few things."""
        session = server.session(name)
        for command in MADE:
            session.command(command["do"], **without(command, "do"))
        return session

    def test_text(self):
        """The text of a dump, which is the same when it was replayed; in a group bound properties have no value."""
        with metad.start(self.program) as server:
            session, fresh, empty = self.made(server), server.session("fresh"), server.session("empty")
            self.assertEqual(session.dump(), TEXT)
            given = session.dump_commands()
            fresh.replay(given)
            self.assertEqual(fresh.dump(), TEXT, "replayed")
            self.assertEqual((empty.dump(), empty.dump_commands()), ("no objects\n", []), "of an empty session")
            self.assertEqual(self.raised("not fresh", metad.NotFresh, fresh.replay, given).args[0][:8], "object 1")
            self.assertEqual(fresh.status()["objects"], 4, "what was given to it")
            session.begin()
            within = TEXT.replace(' = "\u00e4\\n", bound', " bound").replace(" = 0, in error, EvaluationError, bound", " bound").replace(" bound", ", bound")
            self.assertEqual(session.dump(), within + "groups open: 1\n", "in a group")

    def test_objects(self):
        """Objects that are there have the members of their classes, and tell what they have."""
        with metad.start(self.program) as server:
            session = self.made(server)
            two, three = session.object(2), session.object(3)
            self.assertEqual((repr(three), three.parent, two.parent), ("<Cell 3 of a>", two, None))
            self.assertEqual(two.find_all(), [three, session.object(1)], "all objects below it")
            self.assertEqual([two.find_all(class_="Cell"), two.find_all("none")], [[three], []], "some of them")
            self.assertEqual((two.x, three.setX.signatures), (5, ("setX(int)",)), "its members")
            self.assertEqual([it["name"] for it in three.properties()][-2:], ["big", "tag"], "its properties")
            self.assertEqual(three.bindings(), {"y": {"+": [{"prop": "x"}, {"of": 4, "prop": "z"}]}}, "its bindings")
            self.assertEqual([it["connection"] for it in three.connections()], [2, 3], "its connections")
            self.assertEqual(session.object(1).connections(), [], "those of an object that has none")
            self.assertEqual(self.raised("no object", metad.Refused, session.object, 4).code, "E04")

    def test_pages(self):
        """All connections and bindings come, however many commands that takes."""
        with metad.start(self.program) as server:
            session, count = server.session("a"), PAGE + 3
            cells = [session.send("new", class_="Cell") for _ in range(count // 4 + 1)]
            sent = [session.send("connect", sender=1, signal=CHANGED, receiver=2, method="seen(int)") for _ in range(count)]
            places = [(number, name) for number in range(1, len(cells) + 1) for name in ("x", "y", "z", "flag")][:count]
            session.begin()
            bound = [session.send("bind", object=number, property=name, to={"const": 1}) for number, name in places]
            for pending in (*cells, *sent, *bound):
                pending.result()
            self.assertEqual([it["connection"] for it in session.all_connections()], list(range(1, count + 1)))
            self.assertEqual([it["connection"] for it in session.all_connections(2)], list(range(1, count + 1)))
            self.assertEqual(session.all_connections(3), [])
            self.assertEqual([(it["object"], it["property"]) for it in session.all_bindings()], places)
            self.assertEqual((len(session.connections()), len(session.bindings())), (PAGE, PAGE), "of one command")

    def test_aio(self):
        """The same sessions for asyncio."""

        async def live():
            async with await aio.start(self.program) as server:
                session, fresh = server.session("a"), server.session("fresh")
                for command in MADE:
                    await session.command(command["do"], **without(command, "do"))
                self.assertEqual(await session.dump(), TEXT)
                await fresh.replay(await session.dump_commands())
                self.assertEqual(await fresh.dump(), TEXT, "replayed")
                with self.assertRaises(metad.NotFresh):
                    await fresh.replay(await session.dump_commands())
                two, three = await session.object(2), await session.object(3)
                self.assertEqual((await three.parent, await two.parent), (two, None), "parents")
                self.assertEqual(await two.find_all(), [three, await session.object(1)], "all objects below it")
                self.assertEqual([it["name"] for it in await three.properties()][-2:], ["big", "tag"], "its properties")
                self.assertEqual(list(await three.bindings()), ["y"], "its bindings")
                self.assertEqual([it["connection"] for it in await three.connections()], [2, 3], "its connections")
                self.assertEqual(await session.all_connections(), await three.connections(), "all connections")
                self.assertEqual(await session.all_bindings(), [{"object": 2, "property": "objectName"}, {"object": 3, "property": "y"}])

        asyncio.run(live())
