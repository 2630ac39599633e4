"""Objects of the client for asyncio (metad.aio) that have the properties, signals and slots of their class."""

import asyncio
import inspect

import metad
from metad import aio

from .fronts import ClientCases
from .test_client_proxies import CLASSES

PURE = {"property", "method", "signature", "taking"}  # what gives no command


def methods_of(kind):
    """The public methods of a class, each with its parameters."""
    found = inspect.getmembers(kind, inspect.isfunction)
    return {name: list(inspect.signature(it).parameters) for name, it in found if name == "__call__" or not name.startswith("_")}


class AioProxies(ClientCases):
    """Proxies on a server with a relay, whose commands are awaited."""

    def run_with(self, live, classes=CLASSES):
        """Runs a test that is given the session `a` of a new server, and that server."""

        async def lead():
            async with await aio.start(self.program, classes=classes) as server:
                await live(server.session("a"), server)

        asyncio.run(lead())

    async def raised_by(self, what, kind, awaited):
        """The exception of this kind that something awaited has to raise."""
        with self.assertRaises(kind, msg=what) as caught:
            await awaited
        return caught.exception

    def test_names(self):
        """All that proxies have without asyncio they have with it, by the same words, and what gives commands is awaited."""
        for kind in ("Proxy", "Property", "Method", "Connected", "Heard", "SignalSpy"):
            own, other = methods_of(getattr(metad, kind)), methods_of(getattr(aio, kind))
            self.assertEqual(own, other, f"the methods of {kind}, with their parameters")
            inherited = methods_of(list) if kind == "SignalSpy" else {}
            for name in own.keys() - PURE - inherited.keys():
                is_awaited = inspect.iscoroutinefunction(getattr(getattr(aio, kind), name))
                self.assertTrue(is_awaited, f"whether {name} of {kind} is awaited")
        self.assertTrue(inspect.iscoroutinefunction(aio.wait_for), "whether wait_for is awaited")
        for name in ("create", "proxy", "shape", "listen"):
            methods = [getattr(it.Session, name) for it in (metad, aio)]
            self.assertEqual(*(list(inspect.signature(it).parameters) for it in methods), f"the parameters of {name}")

    def test_properties(self):
        """They are read and written, also those whose names are taken, and are bound."""

        async def live(session, _server):
            one, other = await session.create("Player"), await session.create("Player")
            await one.title.set("Aria")
            self.assertEqual((await one.title, await one.title.value, await one.title.get()), ("Aria",) * 3, "a value")
            self.assertEqual(await session.get(one.number, "title"), "Aria", "what the server has")
            await one.property("delete").set(4)
            self.assertEqual(await one.property("delete"), 4, "a name that is taken")
            with self.assertRaises(AttributeError):
                one.title = "Fugue"
            with self.assertRaises(AttributeError):
                one.tempo
            await other.volume.set(4)
            await one.volume.bind({"+": [{"prop": "volume", "of": other}, {"const": 1}]})
            self.assertEqual((await one.volume, await one.volume.error), (5, None), "a bound property, and its error")
            await other.volume.bind({"prop": "volume", "of": one})
            self.assertEqual(await one.volume.error, "BindingLoop", "its error in a loop")
            self.assertEqual([await other.volume.unbind(), await other.volume.unbind()], [True, False], "whether it was bound")
            refused = await self.raised_by("another type", metad.Refused, one.volume.set("loud"))
            self.assertEqual(refused.code, "E22", "the code")

        self.run_with(live)

    def test_methods(self):
        """They are called by their names, and connected to slots that fit and to functions."""
        heard = []

        async def live(session, _server):
            one, other = await session.create("Player"), await session.create("Player")
            connected = await one.finished.connect(other.take)
            calling = await one.finished.connect(lambda title, times: heard.append((title, times)))
            await one.title.set("Aria")
            await one.play(3)
            self.assertEqual((await other.title, heard), ("Aria", [("Aria", 3)]), "what is called")
            self.assertEqual([await calling.disconnect(), await calling.disconnect()], [True, False], "whether it was connected")
            self.assertEqual([await connected.disconnect(), await connected.disconnect()], [True, False], "whether this did")
            await one.finished.emit("x", 1)
            self.assertEqual(len(heard), 1, "what is called then")
            await self.raised_by("too many arguments", metad.Ambiguous, one.play(1, 2, 3))
            refused = await self.raised_by("a slot as a signal", metad.Refused, one.take.connect(print))
            self.assertEqual((refused.code, await session.children(one.number)), ("E05", []), "the code, and what is left")
            await self.raised_by("no function", TypeError, one.finished.connect(5))
            await one.delete()
            self.assertEqual(await session.children(), [other.number], "what is left")

        self.run_with(live)

    def test_spies(self):
        """A spy has the arguments of a signal, and waits for it, while others go on."""

        async def live(session, server):
            one = await session.create("Player")
            async with aio.SignalSpy(one.finished) as spy:
                await one.play(1)
                self.assertFalse(await spy.wait(0.05), "whether it is sent again")
                await one.play(2, type="queued")
                self.assertTrue(await spy.wait(), "whether it is sent by an event")
            await one.play(3)
            self.assertEqual(spy, [["", 1], ["", 2]], "what it has heard")
            again = await aio.SignalSpy(one.finished)
            await one.play(4)
            self.assertEqual((again, await again), ([["", 4]], again), "what another one has heard")
            await again.stop()
            await one.play(5, type="queued")
            self.assertEqual(await aio.wait_for(one.finished), ["", 5], "the arguments of a signal")
            waiting = aio.wait_for(one.finished, timeout=0.05)
            made, late = await asyncio.gather(server.session("b").create("Player"), waiting, return_exceptions=True)
            self.assertEqual((made.number, type(late)), (1, metad.NotAnswered), "what is done meanwhile, and what came")

        self.run_with(live)

    def test_posts(self):
        """What another session publishes calls a slot, or a function."""
        heard = []

        async def live(session, server):
            guest = server.session("guest")
            host, ear = await session.create("Player"), await guest.create("Player")
            await host.titleChanged.publish("title")
            await ear.take.join("a", "title")
            listening = await guest.listen("a", "title", ["QString"], heard.append)
            await host.title.set("Aria")
            self.assertEqual((await guest.spin())["events"], 2, "how many events there are")
            self.assertEqual((heard, await ear.title), (["Aria"], "Aria"), "what is heard")
            await listening.disconnect()
            self.assertEqual((await guest.status())["joins"], 1, "how many joins are left")
            await self.raised_by("a slot of another session", metad.OtherSession, host.finished.connect(ear.take))
            await self.raised_by("a parent of another session", metad.OtherSession, session.create("Player", parent=ear))

        self.run_with(live)

    def test_same(self):
        """Proxies of one object are equal, and stand for its number."""

        async def live(session, _server):
            player = await session.create("Player")
            again = await session.proxy(player.number, "Player")
            self.assertEqual((player, hash(player), repr(player)), (again, hash(again), "<Player 1 of a>"), "the same object")
            child = await session.create("Player", parent=player)
            self.assertEqual(await session.command("children", object=player), [child.number], "its children")
            self.assertLessEqual({"title", "volume", "play", "finished", "number"}, set(dir(player)), "what there is")

        self.run_with(live)

    def test_no_relay(self):
        """Without a relay a function is called through a slot that is named, and not at all without one."""
        heard = []

        async def live(session, _server):
            cell, ear = await session.create("Cell"), await session.create("Cell")
            await self.raised_by("no relay", metad.NoRelay, cell.xChanged.connect(heard.append))
            await cell.xChanged.connect(heard.append, via=ear.seen)
            await cell.x.set(4)
            await ear.seen(5)
            self.assertEqual(heard, [4], "what is heard")

        self.run_with(live, classes=None)
