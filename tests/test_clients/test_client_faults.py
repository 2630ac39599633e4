"""What the client in Python says of mistakes: values that no command takes, names that are misspelt, sockets that are not there,
refusals that hold strange texts, and class files that are refused."""

import asyncio
import io
import json
import os
import shutil
import socket
import subprocess
import sys
from pathlib import Path

import metad
from metad import aio

from tests.support.program import SECONDS

from . import PYTHON
from .fronts import ClientCases

MIRROR = """
import json, sys
for line in sys.stdin:
    print(json.dumps({"reply": json.loads(line), "session": "a"}))
"""  # a server whose replies are the commands
OLDER = """
import json, sys
META = {"class": "Lamp", "methodOffset": 0, "methods": ["go()"], "properties": ["level"], "propertyOffset": 0, "super": None}
for line in sys.stdin:
    do = json.loads(line).get("do")
    answer = {"reply": META} if do == "meta" else {"reply": 1} if do == "new" else {"error": "E02"}
    print(json.dumps({**answer, "session": "a"}))
"""  # a server that knows no `describe`
LEAST, MOST = -(2**63), 2**64 - 1  # of whole numbers, by docs/PROTOCOL.md
LAMP = {"name": "Lamp", "super": "QObject", "properties": [{"name": "enabled", "type": "bool"}, {"name": "delete", "type": "int"}]}
MISSPELT = {"classes": [{"name": "Lamp", "super": "QObject", "slots": [{"sig": "go()", "bod": []}]}]}
REFUSED = "the server has ended with status 1: metad: class file refused: C02 at class 1"
BY_START = f"""
import metad, sys
try:
    metad.start(sys.argv[1], classes={MISSPELT!r})
except metad.ClassFileRefused as refused:
    print(refused)
"""


class Endless(list):
    """A list that holds itself."""

    def __init__(self):
        super().__init__([self])


def nested(levels):
    """Lists within one another."""
    value = 5
    for _ in range(levels):
        value = [value]
    return value


# values that cannot be sent, each with what the text has to name
NOT_SENT = (
    *((b"x", "bytes"), (bytearray(b"x"), "bytearray"), ({1}, "set"), (object(), "object"), (range(3), "range"), (int, "int")),
    *((float(it), it) for it in ("nan", "inf", "-inf")),
    *((it, "too large or too small") for it in (MOST + 1, LEAST - 1, 10**5_000, [MOST + 1])),
    *(({1: 2}, "the key 1"), ({(1, 2): 3}, "the key (1, 2)"), ({"a": {None: 1}}, "the key None")),
    *(([b"x"], "bytes"), ({"a": {1}}, "set"), (Endless(), "levels"), (nested(5_000), "levels"), (nested(127), "levels")),
)
SENT = (None, True, 0, LEAST, MOST, 1.5, "", "\u00e4\n", [], [1, ["a", None]], (1, 2), {}, {"a": [True]}, nested(126))


class Values(ClientCases):
    """The values that commands are given."""

    def test_not_sent(self):
        """What JSON cannot say, or no command takes, is refused before anything is sent, with what is allowed."""
        with metad.start(sys.executable, "-uc", MIRROR) as server:
            session, sent = server.session("a"), []
            connection = server.connection
            give, connection.give = connection.give, lambda answer, line: (sent.append(line), give(answer, line))
            for value, named in NOT_SENT:
                with self.subTest(value=type(value).__name__, named=named):
                    refused = self.raised("a value", metad.NoValue, session.set, 1, "x", value)
                    self.assertIsInstance(refused, metad.MetadError, "its kind")
                    self.assertIn(named, str(refused), "what is wrong")
                    self.assertIn("allowed are True and False, whole numbers from -2^63 to 2^64 - 1, texts", str(refused))
                    self.assertTrue(str(refused).startswith("set was not sent, because of the value of `value`: "), "where it is")
            self.raised("an argument", metad.NoValue, session.invoke, 1, "f(int)", [b"x"])
            self.raised("a number", metad.NoValue, session.get, MOST + 1, "x")
            self.assertEqual(sent, [], "what was sent")
            for value in SENT:
                written = session.set(1, "x", value)["value"]
                self.assertEqual(written, list(value) if isinstance(value, tuple) else value, "what was sent of it")

    def test_refused_by_the_server(self):
        """Values that JSON can say are for the server to judge: lists, and numbers with a point, are of no property."""
        with metad.start(self.program) as server:
            session = server.session("a")
            cell = session.create("Cell")
            for value in ([1], [[1]], {"a": 1}, 1.5, {}, []):
                self.assertEqual(self.raised(f"{value}", metad.Refused, session.set, cell.number, "x", value).code, "E22", value)
            session.set(cell.number, "big", MOST)
            self.assertEqual(session.get(cell.number, "big"), MOST, "the largest number")

    def test_awaited(self):
        """The same is so where a command is awaited."""

        async def give():
            async with await aio.start(self.program) as server:
                await server.session("a").set(1, "x", b"x")

        self.raised("bytes", metad.NoValue, asyncio.run, give())

    def test_classes(self):
        """Classes that cannot be written as JSON are refused before a server is started."""
        for start in (metad.start, metad.start_front):
            self.raised("a set", metad.NoValue, start, "/nonexistent", classes={"classes": {1}})


class Names(ClientCases):
    """Names that are misspelt."""

    def setUp(self):
        super().setUp()
        self.server = self.enterContext(metad.start(self.program, classes={"classes": [LAMP]}))
        self.lamp = self.server.session("a").create("Lamp")

    def said_of(self, name):
        """What is said where an attribute of this name is written."""
        return str(self.raised(f"a write of {name}", AttributeError, setattr, self.lamp, name, True))

    def test_written(self):
        """A property that is misspelt is named, and how a dynamic one is written; so is what is no property."""
        said = self.said_of("enabld")
        self.assertIn("declares no property `enabld`; did you mean `enabled`?", said)
        self.assertIn('For a dynamic property write `.property("enabld").value = ..`', said)
        self.assertNotIn("did you mean", self.said_of("volume"))
        self.assertIn('write `.property("delete").value = ..`', self.said_of("delete"), "a name that proxies have")
        self.assertIn("is a method of Lamp", self.said_of("deleteLater"))
        self.assertIn("is an attribute of every proxy", self.said_of("number"))
        self.said_of("\ud800").encode()
        self.assertEqual(self.lamp.session.dynamic_names(self.lamp.number), [], "what was written")

    def test_read(self):
        """So is one that is read."""
        said = str(self.raised("a property", AttributeError, getattr, self.lamp, "enabld"))
        self.assertEqual(said, "Lamp declares no enabld; did you mean `enabled`?")
        said = str(self.raised("a method", metad.Ambiguous, self.lamp.method, "deletLater()"))
        self.assertEqual(said, "Lamp has no method deletLater(); did you mean `deleteLater`?")

    def test_described(self):
        """The server says what a class has, once; of a signal that is misspelt, near names are named."""
        given = []
        connection = self.server.connection
        give, connection.give_all = connection.give_all, lambda answers, parts: (given.extend(parts), give(answers, parts))
        other = self.server.session("b")
        lamp = other.create("Lamp")
        self.assertEqual([json.loads(it)["do"] for it in given], ["new"], "what is asked of a class that is known")
        plain = other.create("QObject")
        self.assertEqual([json.loads(it)["do"] for it in given[1:]], ["describe", "new"], "what is asked of another one")
        said = str(self.raised("a signal", AttributeError, lambda: plain.objectNamChanged.connect(lamp.deleteLater)))
        self.assertEqual(said, "QObject declares no objectNamChanged; did you mean `objectNameChanged` or `objectName`?")
        said = str(self.raised("a slot", AttributeError, lambda: plain.deletLater()))
        self.assertEqual(said, "QObject declares no deletLater; did you mean `deleteLater`?")

    def test_older_server(self):
        """A server that does not know `describe` is asked by `meta`."""
        with metad.start(sys.executable, "-uc", OLDER) as server:
            lamp = server.session("a").create("Lamp")
            self.assertIn("did you mean `level`?", str(self.raised("a property", AttributeError, getattr, lamp, "levl")))
            self.assertEqual(dir(lamp).count("go"), 1, "a method")

    def test_awaited(self):
        """With asyncio an assignment says what is awaited in its place."""

        async def write(name):
            async with await aio.start(self.program) as server:
                setattr(await server.session("a").create("Cell"), name, True)

        said = str(self.raised("a misspelt one", AttributeError, asyncio.run, write("flagg")))
        self.assertIn("did you mean `flag`?", said)
        said = str(self.raised("a declared one", AttributeError, asyncio.run, write("flag")))
        self.assertIn('write `await .property("flag").set(..)`', said)


class Refusals(ClientCases):
    """The texts of exceptions."""

    def test_halves_of_characters(self):
        """A text that holds half a character can be printed, where that is written as an escape."""
        with metad.start(self.program) as server:
            session = server.session("a")
            session.new("QObject")
            refused = self.raised("half a character", metad.Refused, session.set, 1, "objectName", "a\udc80")
            self.assertIn('"value":"a\\udc80"', str(refused), "its text")
            for raised in (refused, metad.Refused("\ud800", "E02"), metad.Ambiguous("\ud800"), metad.OtherSession("\ud800")):
                print(raised, file=io.TextIOWrapper(io.BytesIO(), encoding="utf-8"), flush=True)

    def test_no_socket(self):
        """Where nobody listens, the error names the path, and says what to do."""
        missing, left, file = (Path(self.room, name) for name in ("nosuch.sock", "left.sock", "file"))
        with socket.socket(socket.AF_UNIX) as link:
            link.bind(str(left))
        file.write_text("")
        long = Path(self.room, "x" * 200)
        for path, kind, advice in (
            (missing, FileNotFoundError, "is a front running with this socket?"),
            (left, ConnectionRefusedError, "is not running any more"),
            (file, OSError, "this is no socket"),
            (long, OSError, "at most 107 bytes"),
        ):
            for connect in (metad.connect, metad.monitor, lambda it: asyncio.run(aio.connect(it))):
                with self.subTest(path=path.name[:20]):
                    error = self.raised("nobody listens", kind, connect, path)
                    self.assertEqual(error.filename, str(path), "the path")
                    self.assertIn(repr(str(path)), str(error), "the path in the text")
                    self.assertIn(advice, str(error), "what to do")


class ClassFiles(ClientCases):
    """Class files that are refused."""

    def test_fault(self):
        """Where classes are given from Python, the exception says where their first fault is, and what it is."""

        def start_and_wait(program, classes):
            asyncio.run(aio.start(program, classes=classes))

        for start in (metad.start, metad.start_front, start_and_wait):
            refused = self.raised("a key that is misspelt", metad.ClassFileRefused, start, self.program, classes=MISSPELT)
            self.assertTrue(str(refused).startswith(f"{REFUSED}: "), str(refused))
            for words in ("class Lamp", "slot go()", 'the key "body"', "classes[0].slots[0]"):
                self.assertIn(words, refused.fault)
                self.assertIn(words, str(refused))

    def test_without_tools(self):
        """Where the package is without the tools, its text is what the server says."""
        shutil.copytree(PYTHON / "metad", Path(self.room, "lib", "metad"), ignore=shutil.ignore_patterns("__pycache__"))
        for where, wanted in ((Path(self.room, "lib"), REFUSED), (PYTHON, f"{REFUSED}: in class Lamp, slot go(): a slot needs")):
            own = {**os.environ, "PYTHONPATH": str(where), "PATH": self.room, "PYTHONDONTWRITEBYTECODE": "1"}
            words = [sys.executable, "-c", BY_START, self.program]
            ran = subprocess.run(words, capture_output=True, text=True, env=own, timeout=SECONDS)
            self.assertEqual((ran.stdout[: len(wanted)], ran.stderr), (wanted, ""), where)
            self.assertEqual(ran.stdout == f"{wanted}\n", where != PYTHON, "whether this is all of it")
