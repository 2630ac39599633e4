"""Which session of the client in Python receives what: behind a front, by slot, and with spins of its own."""

import metad

from .fronts import ClientCases, FrontCases

RING = 300  # queued calls, each asked for by the callback of the one before


def probes(session, count=1):
    """So many objects."""
    return [session.new("Probe") for _ in range(count)]


class BehindAFront(FrontCases):
    """Several names for the one session of a connection."""

    def test_names(self):
        """The session that asked receives the call, even if another session has the name that the front gave."""
        heard = {"mine": [], "given": []}
        with self.front() as (path, _):
            with metad.connect(path) as server:
                mine = server.session("mine", on_call=heard["mine"].append)
                (probe,) = probes(mine)
                given = server.session(mine.known_as, on_call=heard["given"].append)
                self.assertIsNot(given, mine, "the session of another name")
                mine.invoke(probe, "note()")
                self.assertEqual(heard, {"mine": [metad.Call(probe, "note()", [], 0)], "given": []}, "what they receive")
                given.invoke(probe, "late()")
                self.assertEqual(heard["given"], [metad.Call(probe, "late()", [], 0)], "what the other one receives")
                self.assertEqual(len(heard["mine"]), 1, "what the first one has received then")

    def test_ahead(self):
        """So it is where both have given commands before the first answer."""
        heard = {"c1": [], "c2": [], "c3": []}
        with self.front() as (path, _):
            with metad.connect(path) as server:
                sessions = [server.session(name, on_call=told.append) for name, told in heard.items()]
                (probe,) = probes(sessions[0])
                sent = [it.send("invoke", object=probe, method="note()", args=[]) for it in sessions]
                self.assertEqual([it.result() for it in sent], [True] * 3, "the answers")
        self.assertEqual([len(told) for told in heard.values()], [1, 1, 1], "how many calls each receives")


class Listening(ClientCases):
    """Functions that receive the calls of one slot."""

    def test_on(self):
        """They receive the calls of one slot of one object, in order and after `on_call`, until they are stopped."""
        heard = []
        with metad.start(self.program) as server:
            session = server.session("a", on_call=lambda call: heard.append(("all", call.object, call.method)))
            one, other = probes(session, 2)
            first = session.on(one, "note()", lambda call: heard.append(("first", call.object, call.method)))
            session.on(one, "note()", lambda call: heard.append(("second", call.object, call.method)))
            for number, slot in ((one, "late()"), (other, "note()"), (one, "note()")):
                session.invoke(number, slot)
            wanted = [("all", one, "late()"), ("all", other, "note()"), *((it, one, "note()") for it in ("all", "first", "second"))]
            self.assertEqual(heard, wanted, "what is received")
            first.stop()
            first.stop()
            heard.clear()
            session.invoke(one, "note()")
            self.assertEqual([it[0] for it in heard], ["all", "second"], "who receives it then")
            session.reset()
            heard.clear()
            self.assertEqual(probes(session), [one], "an object of the same number")
            session.invoke(one, "note()")
            self.assertEqual([it[0] for it in heard], ["all"], "who receives a call of another object")

    def test_raising(self):
        """What one raises comes out of the wait. The others receive the call in the next wait."""
        heard = []

        def fail(_call):
            raise KeyError("a fault of a callback")

        with metad.start(self.program) as server:
            session = server.session("a")
            (probe,) = probes(session)
            session.on(probe, "note()", fail)
            session.on(probe, "note()", heard.append)
            pending = session.send("invoke", object=probe, method="note()", args=[])
            behind = session.send("children")
            self.raised("a callback that raises", KeyError, behind.result)
            self.assertEqual(heard, [], "who has received it by then")
            self.assertEqual((behind.result(), pending.result()), ([probe], True), "the answers")
            self.assertEqual(heard, [metad.Call(probe, "note()", [], 0)], "who receives it then")


class Spinning(ClientCases):
    """Sessions that spin by themselves."""

    def test_auto_spin(self):
        """What a command posts is called before its method returns; without it, by `spin`."""
        heard = []
        with metad.start(self.program) as server:
            session = server.session("a", on_call=lambda call: heard.append(call.method))
            one, other = probes(session, 2)
            session.connect(one, "ping()", other, "late()", type="queued")
            session.invoke(one, "ping()")
            session.invoke(other, "note()", type="queued")
            self.assertEqual((heard, session.status()["queued"]), ([], 2), "what is called by then")
            session.auto_spin = True
            self.assertEqual(session.children(), [one, other], "the answer of a command")
            self.assertEqual(heard, ["late()", "note()"], "what is called by its spin")
            self.assertIs(session.invoke(one, "ping()"), True, "the answer of one that posts")
            self.assertEqual(heard[2:], ["late()"], "what it posts")
            self.raised("a refusal", metad.Refused, session.delete, 7)
            session.delete_later(other)
            self.assertEqual(session.children(), [one], "what is left after a posted deletion")

    def test_ring(self):
        """A callback that posts the next call does not go deeper with each."""
        heard = []
        with metad.start(self.program) as server:
            session = server.session("a")
            (probe,) = probes(session)

            def again(call):
                heard.append(call)
                if len(heard) < RING:
                    session.invoke(probe, "note()", type="queued")

            session.on(probe, "note()", again)
            session.auto_spin = True
            session.invoke(probe, "note()", type="queued")
            self.assertEqual(len(heard), RING, "how many are called before it returns")

    def test_posts(self):
        """What another session posts is called at the next command."""
        heard = []
        with metad.start(self.program) as server:
            host, guest = server.session("host"), server.session("guest", on_call=heard.append)
            guest.auto_spin = True
            (bell,), (ear,) = probes(host), probes(guest)
            host.publish(bell, "ping()", "bell")
            guest.join("host", "bell", [], ear, "late()")
            host.invoke(bell, "ping()")
            self.assertEqual(heard, [], "what is received unasked")
            guest.status()
            self.assertEqual(heard, [metad.Call(ear, "late()", [], 0)], "what is received then")
