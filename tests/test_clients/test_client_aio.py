"""The client in Python for asyncio (metad.aio)."""

import asyncio
import gc
import inspect
import os
import signal
import time
from pathlib import Path

import metad
from metad import aio, commands

from tests.support import protocol
from tests.support.program import SECONDS

from .fronts import FrontCases
from .test_client import method_of

SIDE_BY_SIDE = 100


class Aio(FrontCases):
    """Sessions that are awaited."""

    def test_names(self):
        """Each command of the protocol has a method in both, with the same parameters, and a text."""
        for do, *_ in protocol.commands():
            name = method_of(do)
            build, methods = getattr(commands, name), [getattr(it, name) for it in (metad.Session, aio.Session)]
            wanted = list(inspect.signature(build).parameters)
            for method in methods:
                self.assertEqual(list(inspect.signature(method).parameters), ["self", *wanted], f"the parameters of {name}")
                self.assertTrue(method.__doc__, f"the text of {name}")
            self.assertEqual([inspect.iscoroutinefunction(it) for it in methods], [False, True], f"what is awaited of {name}")
        built = inspect.signature(metad.Session.new)
        self.assertEqual(built.return_annotation, "int", "what `new` returns")

    def test_commands(self):
        """Replies, refusals, calls before replies, and commands that are sent ahead."""
        heard = []

        async def live():
            async with await aio.start(self.program) as server:
                session = server.session("a", on_call=heard.append)
                self.assertIs(server.session("a"), session, "the session of a name")
                probe = await session.new("Probe")
                self.assertIs(await session.invoke(probe, "note()"), True, "the reply of a call")
                self.assertEqual(heard, [metad.Call(1, "note()", [], 0)], "what was received before")
                with self.assertRaises(metad.Refused) as refused:
                    await session.delete(7)
                self.assertEqual(refused.exception.code, "E04", "the code")
                sent = [session.send("new", class_="QObject") for _ in range(3)]
                self.assertEqual([await it for it in sent], [2, 3, 4], "what was sent ahead")
                self.assertEqual(([it.done() for it in sent], await sent[0].result()), ([True] * 3, 2), "asked again")
                self.assertEqual(await session.command("children"), [1, 2, 3, 4], "by its word")
            return await server.close()

        self.assertEqual(asyncio.run(live()), 0, "the status")

    def test_side_by_side(self):
        """Tasks that wait at once, each for its own answer."""

        async def life(session, number):
            made = await session.new("QObject")
            await session.set(made, "objectName", f"name {number}")
            return await session.get(made, "objectName")

        async def live():
            async with await aio.start(self.program) as server:
                return await asyncio.gather(*(life(server.session(f"s{it % 3}"), it) for it in range(SIDE_BY_SIDE)))

        self.assertEqual(asyncio.run(live()), [f"name {it}" for it in range(SIDE_BY_SIDE)], "what each received")

    def test_cancelled(self):
        """A wait that is cancelled leaves the command under way, and its answer can be had later."""
        note = Path(self.room, "pid")

        async def live():
            async with await aio.start("sh", "-c", f'echo $$ > "{note}"; exec "{self.program}"') as server:
                session = server.session("a")
                number = int(note.read_text())
                os.kill(number, signal.SIGSTOP)
                try:
                    pending = session.send("new", class_="QObject")
                    with self.assertRaises(asyncio.TimeoutError):
                        await asyncio.wait_for(pending.result(), 0.05)
                    self.assertFalse(pending.done(), "whether it was answered")
                finally:
                    os.kill(number, signal.SIGCONT)
                return [await session.new("QObject"), await pending]

        self.assertEqual(asyncio.run(live()), [2, 1], "the answers")

    def test_callbacks(self):
        """What a callback raises comes out of what is awaited. Callbacks receive calls of slots and of posted events."""
        heard = []

        def fail(_call):
            raise KeyError("a fault of a callback")

        async def live():
            async with await aio.start(self.program) as server:
                session = server.session("a", on_call=fail)
                probe = await session.new("Probe")
                pending = session.send("invoke", object=probe, method="note()", args=[])
                with self.assertRaises(KeyError):
                    await pending
                self.assertIs(await pending, True, "the answer after it")
                session.on_call = None
                session.on(probe, "late()", heard.append)
                session.auto_spin = True
                await session.invoke(probe, "late()", type="queued")
                self.assertEqual(heard, [metad.Call(probe, "late()", [], 0)], "what was posted")
                await session.reset()
                await session.new("Probe")
                await session.invoke(1, "late()")
                self.assertEqual(len(heard), 1, "what is received of another object")

        asyncio.run(live())

    def test_ends(self):
        """Servers that do not start, end while a command is under way, and are not closed."""
        note = Path(self.room, "pid")

        async def killed():
            server = await aio.start("sh", "-c", f'echo $$ > "{note}"; exec "{self.program}"')
            number = int(note.read_text())
            os.kill(number, signal.SIGSTOP)
            pending = server.session("a").send("status")
            os.kill(number, signal.SIGKILL)
            with self.assertRaises(metad.ServerGone) as gone:
                await pending
            return gone.exception.status, await server.close()

        async def left():
            await aio.start(self.program)

        with self.assertRaises(metad.ClassFileRefused):
            asyncio.run(aio.start(self.program, "/dev/null"))
        began = time.monotonic()
        with self.assertRaises(metad.NotAnswered):
            asyncio.run(aio.start("sleep", str(SECONDS), timeout=0.1))
        self.assertLess(time.monotonic() - began, SECONDS / 2, "how long it takes")
        self.assertEqual(asyncio.run(killed()), (-9, -9), "the status")
        with self.assertWarns(ResourceWarning):
            asyncio.run(left())
            gc.collect()

    def test_front(self):
        """A session behind a front."""

        async def live(path):
            async with await aio.connect(path) as server:
                session = server.session("mine")
                made = await session.new("QObject")
                return made, session.known_as == "mine"

        with self.front() as (path, _):
            self.assertEqual(asyncio.run(live(path)), (1, False), "an object, and whether the front gave no name")
