"""Objects of the client in Python that have the properties, signals and slots of their class."""

import time

import metad
from metad.shapes import types_of

from .fronts import ClientCases

CLASSES = metad.with_relay(
    {
        "classes": [
            {
                "name": "Player",
                "super": "QObject",
                "signals": ["finished(QString,int)", "titleChanged(QString)", "both(int)", "both(QString)"],
                "slots": [
                    {"sig": "play(int)", "body": [{"emit": "finished(QString,int)", "args": [{"prop": "title"}, {"arg": 0}]}]},
                    {"sig": "play(int,int)", "body": []},
                    {"sig": "take(QString)", "body": [{"set": "title", "to": {"arg": 0}}]},
                    {"sig": "number()", "body": [{"set": "volume", "to": {"const": 7}}]},
                ],
                "properties": [
                    {"name": "title", "type": "QString", "notify": "titleChanged(QString)", "bindable": True},
                    {"name": "volume", "type": "int", "bindable": True},
                    {"name": "class", "type": "int", "bindable": True},
                    {"name": "delete", "type": "int"},
                ],
            },
        ]
    }
)


class Proxies(ClientCases):
    """Proxies on a server with a relay."""

    def setUp(self):
        super().setUp()
        self.server = self.enterContext(metad.start(self.program, classes=CLASSES))
        self.session = self.server.session("a")

    def players(self, count=1):
        return [self.session.create("Player") for _ in range(count)]

    def test_properties(self):
        """They are read and written as attributes where their names allow it, and by `property`."""
        (player,) = self.players()
        player.title, player.volume = "Aria", 5
        self.assertEqual((player.title, player.volume), ("Aria", 5), "attributes")
        self.assertEqual(self.session.get(player.number, "title"), "Aria", "what the server has")
        player.property("class").value = 3
        player.property("delete").value = 4
        self.assertEqual((player.property("class").value, player.property("delete").value), (3, 4), "names that are taken")
        for name in ("tempo", "number", "shape", "property", "delete", "play"):
            self.raised(f"a write of {name}", AttributeError, setattr, player, name, 1)
        self.raised("an unknown attribute", AttributeError, getattr, player, "tempo")
        player.property("tempo").value = 120
        self.assertEqual(self.session.dynamic_names(player.number), ["tempo"], "a dynamic property")
        self.assertEqual(player.property("tempo").value, 120, "its value")
        self.raised("a value of another type", metad.Refused, setattr, player, "volume", "loud")
        self.assertLessEqual({"title", "volume", "play", "finished", "number"}, set(dir(player)), "what there is")

    def test_bindings(self):
        """Properties are bound to expressions, in which a proxy is an object."""
        one, other = self.players(2)
        other.volume = 4
        one.property("volume").bind({"+": [{"prop": "volume", "of": other}, {"const": 1}]})
        self.assertEqual(one.volume, 5, "the value of a bound property")
        self.assertIsNone(one.property("volume").error, "its error")
        other.property("volume").bind({"prop": "volume", "of": one})
        self.assertEqual(one.property("volume").error, "BindingLoop", "its error in a loop")
        self.assertEqual((other.property("volume").unbind(), other.property("volume").unbind()), (True, False), "whether it was bound")

    def test_methods(self):
        """They are called by their names; of several that with as many parameters."""
        heard = []
        self.session.on_call = lambda call: heard.append((call.object, call.method, call.args))
        (player,) = self.players()
        player.play(1)
        player.play(1, 2)
        player.method("number()")()
        player.method("number")()
        player.take("x", type="queued")
        slots = ["play(int)", "play(int,int)", "number()", "number()"]
        self.assertEqual([it[1] for it in heard], slots, "what is called")
        self.session.spin()
        self.assertEqual(heard[-1], (player.number, "take(QString)", ["x"]), "what was posted")
        for what, call in (
            ("too many arguments", lambda: player.play(1, 2, 3)),
            ("several of one count", lambda: player.both(1)),
            ("no such method", lambda: player.method("stop()")),
            ("no such signature", lambda: player.method("play(QString)")),
        ):
            self.raised(what, metad.Ambiguous, call)
        player.method("both(int)").emit(1)

    def test_connections(self):
        """Signals are connected to slots that fit, with fewer arguments too."""
        one, other = self.players(2)
        connected = one.finished.connect(other.take)
        one.title = "Aria"
        one.play(3)
        self.assertEqual(other.title, "Aria", "what the slot has done")
        self.assertEqual((connected.disconnect(), connected.disconnect()), (True, False), "whether it was connected")
        one.titleChanged.connect(other.titleChanged, single=True)
        self.raised("a slot that does not fit", metad.Ambiguous, one.titleChanged.connect, other.play)
        refused = self.raised("a slot as a signal", metad.Refused, one.take.connect, other.take)
        self.assertEqual(refused.code, "E05", "the code")
        one.finished.connect(other.take, unique=True)
        refused = self.raised("connected already", metad.Refused, one.finished.connect, other.take, unique=True)
        self.assertEqual(refused.code, "E08", "the code")

    def test_functions(self):
        """A function is called with the arguments of the signal, until it is disconnected."""
        heard = []
        one, other = self.players(2)
        connected = one.finished.connect(lambda title, times: heard.append((title, times)))
        other.finished.connect(lambda *args: heard.append(("other", *args)))
        one.destroyed.connect(lambda: heard.append("destroyed"))
        one.method("both(int)").connect(lambda value: heard.append(value))
        one.title = "Aria"
        one.play(3)
        one.method("both(int)").emit(8)
        one.method("both(QString)").emit("eight")
        other.play(4)
        self.assertEqual(heard, [("Aria", 3), 8, ("other", "", 4)], "what is called")
        self.assertEqual((connected.disconnect(), connected.disconnect()), (True, False), "whether it was connected")
        one.play(3)
        self.assertEqual(len(heard), 3, "what is called when it is disconnected")
        one.delete()
        self.assertEqual(heard[3:], ["destroyed"], "what is called at the end")
        self.assertEqual(self.session.children(), [other.number], "what is left")

    def test_refused(self):
        """Where a connection is refused, nothing is left of it; objects of two sessions are not tied."""
        (player,) = self.players()
        stranger = self.server.session("b").create("Player")
        refused = self.raised("a slot as a signal", metad.Refused, player.take.connect, print)
        self.assertEqual((refused.code, self.session.children(player.number)), ("E05", []), "the code, and what is left")
        self.raised("one of several signals", metad.Ambiguous, player.both.connect, print)
        self.raised("no function", TypeError, player.finished.connect, 5)
        for what, call in (
            ("a slot of another session", lambda: player.finished.connect(stranger.take)),
            ("a function by a slot of another session", lambda: player.finished.connect(print, via=stranger.take)),
            ("a parent of another session", lambda: self.session.create("Player", parent=stranger)),
        ):
            self.raised(what, metad.OtherSession, call)
        status = self.session.status()
        self.assertEqual((status["objects"], status["connections"]), (1, 0), "what there is then")

    def test_spies(self):
        """A spy has the arguments of a signal, and waits for it."""
        one, other = self.players(2)
        with metad.SignalSpy(one.finished) as spy:
            one.play(1)
            one.play(2)
            self.assertEqual(spy, [["", 1], ["", 2]], "what it has heard")
            self.assertFalse(spy.wait(0.05), "whether it is sent again")
            one.play(3, type="queued")
            self.assertTrue(spy.wait(), "whether it is sent by an event")
            self.assertEqual(spy[2:], [["", 3]], "what it has heard then")
        one.play(4)
        self.assertEqual(len(spy), 3, "what it hears at its end")
        other.play(9, type="queued")
        self.assertEqual(metad.wait_for(other.finished), ["", 9], "the arguments of a signal")
        began = time.monotonic()
        self.raised("a signal that is not sent", metad.NotAnswered, metad.wait_for, other.finished, timeout=0.05)
        self.assertGreaterEqual(time.monotonic() - began, 0.05, "how long it waits")

    def test_posts(self):
        """What another session publishes calls a slot, or a function."""
        heard = []
        guest = self.server.session("guest")
        (host,), ear = self.players(), guest.create("Player")
        host.titleChanged.publish("title")
        ear.take.join("a", "title")
        listening = guest.listen("a", "title", ["QString"], heard.append)
        host.title = "Aria"
        self.assertEqual((heard, ear.title), ([], ""), "what is heard unasked")
        self.assertEqual(guest.spin()["events"], 2, "how many events there are")
        self.assertEqual((heard, ear.title), (["Aria"], "Aria"), "what is heard")
        listening.disconnect()
        self.assertIs(self.session.unpublish("title"), True, "whether it was published")
        self.assertEqual(guest.status()["joins"], 1, "how many joins are left")

    def test_same(self):
        """Proxies of one object are equal, and stand for its number."""
        (player,) = self.players()
        again = self.session.proxy(player.number, "Player")
        self.assertEqual((player, hash(player)), (again, hash(again)), "the same object")
        self.assertNotEqual(player, self.players()[0], "another object")
        self.assertEqual(repr(player), f"<Player {player.number} of a>", "its text")
        child = self.session.create("Player", parent=player)
        self.assertEqual(self.session.children(player.number), [child.number], "its children")
        self.assertEqual(self.session.command("children", object=player), [child.number], "by the proxy itself")
        heard = []
        self.session.on(player, "number()", heard.append)
        player.method("number()")()
        self.assertEqual([call.object for call in heard], [player.number], "what is received of it")


class WithoutRelay(ClientCases):
    """Proxies on a server with the demonstration classes, which have no relay."""

    def test_via(self):
        """A function is called through a slot that is named, and not at all without one."""
        heard = []
        with metad.start(self.program) as server:
            session = server.session("a")
            cell, ear = session.create("Cell"), session.create("Cell")
            self.raised("no relay", metad.NoRelay, cell.xChanged.connect, heard.append)
            self.assertEqual(session.children(), [cell.number, ear.number], "what there is then")
            cell.xChanged.connect(heard.append, via=ear.seen)
            cell.x = 4
            ear.seen(5)
            self.assertEqual(heard, [4], "what is heard")
            cell.x = 4
            self.assertEqual(heard, [4], "what is heard of an unchanged value")

    def test_spelling(self):
        """A relay for signals that are not written in their normal text."""
        signals = ["told( const int & ,QString const& )", "again(int, QString)", "done( void )"]
        classes = {"classes": [{"name": "Bell", "super": "QObject", "signals": signals}]}
        with metad.start(self.program, classes=metad.with_relay(classes)) as server:
            heard, bell = [], server.session("a").create("Bell")
            for signal in (bell.told, bell.again, bell.done):
                signal.connect(lambda *args: heard.append(args))
            bell.told(1, "one"), bell.again(2, "two"), bell.done()
            self.assertEqual(heard, [(1, "one"), (2, "two"), ()], "what is heard")

    def test_types(self):
        """The types in a signature."""
        for signature, types in (("f()", []), ("f(int)", ["int"]), ("f(int,QString)", ["int", "QString"])):
            self.assertEqual(types_of(signature), types, signature)
