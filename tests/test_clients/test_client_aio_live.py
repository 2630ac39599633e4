"""Live sessions of the client for asyncio: callbacks are called as lines come, though no task waits."""

import asyncio
import time
from pathlib import Path

import metad
from metad import aio

from .fronts import PATIENCE, FrontCases
from .grouped import wait_until
from .test_client_live import GREETED, IDLE, LIVE, NEW, given_in, seen
from .talking import Talker

ROUNDS = 30


async def listening(host, guest):
    """Has the guest listen to what the host publishes; both have a cell."""
    for session in (host, guest):
        await session.new("Cell")
    await host.publish(1, "xChanged(int)", "level")
    await guest.join(host.known_as, "level", ["int"], 1, "seen(int)")


class AioLive(FrontCases):
    """Clients of a front that offers live sessions."""

    def run_pair(self, work, **how):
        """Runs what awaits a host and a guest that listens to it; the words that the guest's session was given."""
        record = Path(self.room, "record")

        async def live(path):
            async with await aio.connect(path, **how) as one, await aio.connect(path, **how) as other:
                host, guest = one.session("host"), other.session("guest")
                await listening(host, guest)
                await asyncio.wait_for(work(host, guest), 2 * PATIENCE)

        with self.front(options=("--quiet", "--record", record)) as (path, _):
            asyncio.run(live(path))
            wait_until(self, lambda: "reset" in given_in(record, "c2"), "the guest's session is reset")
        return given_in(record, "c2")

    def test_told(self):
        """A callback is called though no task waits for the session."""

        async def work(host, guest):
            come, heard = asyncio.Queue(), []
            guest.on_call, guest.on_spun = come.put_nowait, lambda it: heard.append(it["events"])
            for value in range(1, ROUNDS + 1):
                await host.set(1, "x", value)
                self.assertEqual(await come.get(), seen(value), "what is received")
            await guest.wait_for(lambda: sum(heard) == ROUNDS, PATIENCE)

        self.assertEqual([it for it in self.run_pair(work) if it != "spin"], ["new", "join", "reset"], "what it has asked for")

    def test_waits(self):
        """Waits for predicates, signals and calls give no command."""
        async def later(host, value, ready=lambda: True):
            while not ready():
                await asyncio.sleep(0.01)
            await host.set(1, "x", value)

        def is_connected():
            return "connect" in given_in(Path(self.room, "record"), "c2")

        async def work(host, guest):
            heard, calls = [], guest.calls(PATIENCE)
            guest.on_call = heard.append
            with self.assertRaises(metad.NotAnswered):
                await guest.wait_for(lambda: heard, IDLE)
            task = asyncio.ensure_future(later(host, 1))
            self.assertEqual(await guest.wait_for(lambda: heard, PATIENCE), [seen(1)], "what the predicate returned")
            await task
            self.assertEqual(await calls.__anext__(), seen(1), "what is iterated")
            self.assertEqual([it async for it in guest.calls(0.1)], [], "what is not received again")
            ear, own = await guest.proxy(1, "Cell"), await guest.create("Cell")
            await guest.join(host.known_as, "level", ["int"], 1, "setX(int)")
            task = asyncio.ensure_future(later(host, 2, is_connected))
            self.assertEqual(await aio.wait_for(ear.xChanged, PATIENCE, via=own.seen), [2], "what the signal was sent with")
            await task

        given = self.run_pair(work)
        self.assertLess(given.count("spin"), 8, "the spins, some of them given by the front for each event")

    def test_raising(self):
        """An exception of a callback that is called unasked goes to the loop's exception handler. Nothing is lost by it."""
        faults, heard = [], []

        async def work(host, guest):
            asyncio.get_running_loop().set_exception_handler(lambda _loop, context: faults.append(context["exception"]))
            guest.on_call = lambda call: heard.append(1 // call.args[0])
            guest.on(1, "seen(int)", heard.append)
            for value in (5, 0, 1):
                await host.set(1, "x", value)
            while seen(1) not in heard:
                await asyncio.sleep(0.01)

        self.run_pair(work)
        self.assertEqual([type(it) for it in faults], [ZeroDivisionError], "what is raised")
        self.assertEqual(heard, [0, seen(5), seen(0), 1, seen(1)], "what is received")

    def test_not_live(self):
        """With `live=False` nothing comes unasked, and a wait spins."""

        async def work(host, guest):
            heard = []
            guest.on_call = heard.append
            await host.set(1, "x", 1)
            await asyncio.sleep(0.1)
            self.assertEqual((heard, (await guest.status())["queued"], guest.server.is_live), ([], 1, False), "what waits")
            await guest.wait_for(lambda: heard, PATIENCE)

        self.assertEqual(self.run_pair(work, live=False), ["new", "join", "status", "spin", "reset"], "what it has asked for")


class AioStandIns(FrontCases):
    """Fronts, played by the test."""

    def test_connecting(self):
        """The event loop runs while a front is slow to answer, and a connection that is no longer awaited is closed."""

        async def live(talker):
            connecting = asyncio.ensure_future(aio.connect(talker.path))
            while not talker.so_far():
                await asyncio.sleep(0.01)
            connecting.cancel()
            with self.assertRaises(asyncio.CancelledError):
                await connecting

        with Talker(self.room) as talker:
            began = time.monotonic()
            talker.play([(LIVE, None)], [(LIVE, [GREETED]), (NEW, [{"reply": 1, "session": "c1"}])])
            asyncio.run(live(talker))
            self.assertLess(time.monotonic() - began, PATIENCE, "how long it takes")
            asyncio.run(self.one_object(talker.path))
            self.assertEqual(talker.heard(), [LIVE, "", LIVE, NEW], "its lines")

    async def one_object(self, path):
        async with await aio.connect(path) as server:
            self.assertEqual((server.is_live, await server.session("a").new("Cell")), (True, 1), "an object")

    def test_sent_at_once(self):
        """A wait for a signal also ends when the signal is sent as soon as it is connected."""
        seen, set_x = ({"class": "Cell", "signature": it, "types": ["int"]} for it in ("seen(int)", "setX(int)"))
        changed = {"class": "Cell", "signature": "xChanged(int)", "types": ["int"]}
        cell = {"class": "Cell", "properties": [], "signals": [changed], "slots": [seen, set_x], "super": "QObject"}
        call = {"args": [5], "call": "seen(int)", "object": 2, "sender": 1}

        async def live(path):
            async with await aio.connect(path) as server:
                session = server.session("a")
                one, own = await session.create("Cell"), await session.create("Cell")
                return await aio.wait_for(one.xChanged, PATIENCE / 3, via=own.seen)

        with Talker(self.room) as talker:
            earlier = {**call, "call": "setX(int)", "object": 1}  # has callbacks called before the connection is known
            told = ([{"reply": cell}], [{"reply": 1}], [{"reply": 2}], [earlier, {"reply": 1}, call], [{"reply": True}])
            talker.play([(LIVE, [GREETED]), *(("any", [{**it, "session": "c1"} for it in lines]) for lines in told)])
            self.assertEqual(asyncio.run(live(talker.path)), [5], "what it was sent with")

    def test_failed(self):
        """If the front's own spin fails, the loop's exception handler receives the refusal."""
        faults = []

        async def live(path):
            asyncio.get_running_loop().set_exception_handler(lambda _loop, context: faults.append(context["exception"]))
            async with await aio.connect(path) as server:
                self.assertEqual(await server.session("a").new("Cell"), 1, "an object")
                while not faults:
                    await asyncio.sleep(0.01)
                self.assertFalse(server.is_live, "whether it is live")

        failed = {"error": "E21", "front": "spin", "session": "c1"}
        with Talker(self.room) as talker:
            talker.play([(LIVE, [GREETED]), (NEW, [{"reply": 1, "session": "c1"}, failed])])
            asyncio.run(live(talker.path))
        self.assertEqual([(it.do, it.code) for it in faults], [("spin", "E21")], "what it is given")

    def test_old_front(self):
        """A front that knows no live sessions is used without them, or refused."""
        for live in (None, True):
            with Talker(self.room) as talker:
                lines = [] if live else [(NEW, [{"reply": 1, "session": "c2"}])]
                talker.play([(LIVE, [{"error": "F01", "session": "-"}])], lines)
                if live:
                    with self.assertRaises(metad.NotLive):
                        asyncio.run(aio.connect(talker.path, live=True))
                else:
                    asyncio.run(self.old_object(talker.path))

    async def old_object(self, path):
        async with await aio.connect(path) as server:
            self.assertEqual((server.is_live, await server.session("a").new("Cell")), (False, 1), "an object")
