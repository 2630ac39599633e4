"""Batches of the client in Python: commands that are sent together, whose answers are handed out at the end of the block."""

import asyncio
import json
import os
import sys
import threading
from pathlib import Path

import metad
from metad import aio

from .fronts import PATIENCE, ClientCases
from .test_client_reading import Played, reply

COUNT = 3_000  # more than fits into pipes, in both directions
STRANGE = """
import sys
input(), print('{"error":"E02","session":"-"}')
for line in range(3):
    input(), print('{"reply":1,"session":"a"}')
input(), print("nonsense")
sys.stdin.read()
"""


def given_to(batch):
    """Gives commands to a batch. Some are refused."""
    made = [batch.new("Cell") for _ in range(3)]
    return [*made, batch.set(2, "x", 5), batch.delete(7), batch.get(2, "x"), batch.command("jump"), batch.status()]


WANTED = [1, 2, 3, True, "E04", 5, "E02"]


class Batches(ClientCases):
    """Batches that wait at their end, and those that are awaited."""

    def came_of(self, promised):
        """The results of commands, and the codes of those that are refused."""
        errors = [it.error() for it in promised]
        for it, error in zip(promised, errors):
            if error is not None:
                self.assertIs(type(self.raised("a refusal", metad.Refused, it.result)), type(error), "what is raised")
        return [it.result() if error is None else error.code for it, error in zip(promised, errors)]

    def check(self, batch, promised):
        self.assertEqual(self.came_of(promised)[:-1], WANTED, "the results")
        self.assertEqual(promised[-1].result()["objects"], 3, "the last one")
        self.assertEqual(list(batch), promised, "the commands of a batch, in their order")

    def test_results(self):
        """Each command has its own result when the block has ended, and none before."""
        with metad.start(self.program) as server:
            session = server.session("a")
            with session.batch() as batch:
                promised = given_to(batch)
                self.assertEqual([it.done() for it in promised], [False] * len(promised), "what is there within the block")
                self.raised("a result within the block", metad.NotAnswered, promised[0].result)
            self.assertEqual([it.done() for it in promised], [True] * len(promised), "what is there after it")
            self.check(batch, promised)
            self.raised("a command after the block", metad.MetadError, batch.status)
            with session.batch():
                pass
            self.assertEqual(session.known_as, "a", "the name of the session")

    def test_awaited(self):
        """The same is so with asyncio."""

        async def run():
            async with await aio.start(self.program) as server:
                async with server.session("a").batch() as batch:
                    promised = given_to(batch)
                    self.raised("a result within the block", metad.NotAnswered, promised[0].result)
                return batch, promised

        self.check(*asyncio.run(run()))

    def test_many(self):
        """Many commands are answered in the order of the block, and callbacks are called at its end, in that order too."""
        heard = []
        with metad.start(self.program) as server:
            session, before = server.session("a", on_call=heard.append), threading.active_count()
            session.new("Cell")
            with session.batch() as batch:
                for number in range(COUNT):
                    batch.set(1, "x", number)
                    batch.get(1, "x")
                    if number % 100 == 0:
                        batch.invoke(1, "seen(int)", [number])
                self.assertEqual(heard, [], "the calls within the block")
            numbers = [it.result() for it in batch if it.result() is not True]
            self.assertEqual(numbers, list(range(COUNT)), "what is read")
            self.assertEqual([it.args[0] for it in heard], list(range(0, COUNT, 100)), "the calls")
            self.assertEqual(session.get(1, "x"), COUNT - 1, "a later command")
            self.assertLessEqual(threading.active_count(), before + 2, "threads that help while the server is slow")

    def test_sent_before_the_end(self):
        """Commands are sent while the block runs, many by one write, and each is a line of its own."""
        played = Played()
        with played.session.batch(timeout=PATIENCE) as batch:
            for _ in range(200):
                batch.status()
            first = os.read(played.given, 65_536)
            self.assertGreater(first.count(b"\n"), 10, "the lines of the first writes")
            threading.Timer(0.1, lambda: played.say(*map(reply, range(200)))).start()
        rest = os.read(played.given, 65_536)
        lines = (first + rest).decode().splitlines()
        self.assertEqual([json.loads(it) for it in lines], [{"do": "status", "session": "a"}] * 200, "what is written")
        self.assertEqual([it.result() for it in batch], list(range(200)), "the results")
        played.end()

    def test_left(self):
        """A block that an exception leaves sends the commands before it, and waits for none."""
        with metad.start(self.program) as server:
            session = server.session("a")
            with self.assertRaises(KeyError):
                with session.batch() as batch:
                    batch.new("Cell")
                    raise KeyError("a fault of the block")
            self.assertEqual(session.status()["objects"], 1, "what was done")
            self.raised("a value that no command takes", metad.NoValue, batch.session.set, 1, "x", batch)

    def test_not_in_time(self):
        """A limit of seconds ends the wait at the end of the block."""
        played = Played()
        batch = played.session.batch(timeout=0.05)
        with self.assertRaises(metad.NotAnswered):
            with batch:
                batch.status()
        self.raised("a result", metad.NotAnswered, next(iter(batch)).result)
        played.say(reply(1))
        self.assertEqual(played.session.send("status").done(), False, "a later command")
        self.assertEqual(next(iter(batch)).result(), 1, "the answer that came later")
        played.end()

    def test_server_gone(self):
        """Where the server ends or writes a strange line, the commands before that keep their results."""
        with metad.start(sys.executable, "-uc", STRANGE) as server:
            with server.session("a").batch(timeout=PATIENCE) as batch:
                promised = [batch.status() for _ in range(10)]
            self.assertEqual([it.result() for it in promised[:3]], [1, 1, 1], "the results that came")
            self.assertEqual({type(it.error()) for it in promised[3:]}, {metad.StrangeLine}, "the others")

    def test_front(self):
        """A batch goes through a front too, where the session is live and where it is not."""
        options = {"timeout": PATIENCE}
        with metad.start_front(self.program, **options) as front:
            self.assertTrue(Path(front.path).exists(), "the front's socket")
            for live in (True, False):
                with front.connect(live=live) as server, server.session("a").batch(timeout=PATIENCE) as batch:
                    made = [batch.new("QObject") for _ in range(500)]
                self.assertEqual([it.result() for it in made], list(range(1, 501)), "the numbers")
