"""Live sessions of the client in Python: events come without `spin`, and no answer is mixed up by them."""

import json
import os
import signal
import sys
import threading
from contextlib import contextmanager
from functools import partial
from pathlib import Path
from unittest import mock

import metad

from .fronts import PATIENCE, FrontCases, whole_lines
from .grouped import WorkerCases, servers_of, wait_until
from .talking import Talker

ROUNDS, IDLE = 30, 1.0
SPUN = {"events": 1, "left": 0, "lost": 0, "mismatched": 0}
RINGING = [{"name": "Ear", "super": "QObject", "signals": ["rung(int)"], "slots": [{"sig": "seen(int)", "body": []}]}]


def seen(value, sender=0):
    return metad.Call(1, "seen(int)", [value], sender)


def listening(host, guest):
    """Has the guest listen to what the host publishes; both have a cell."""
    for session in (host, guest):
        session.new("Cell")
    host.publish(1, "xChanged(int)", "level")
    guest.join(host.known_as, "level", ["int"], 1, "seen(int)")


def given_in(record, session):
    """The words of the commands that a session was given."""
    return [it["do"] for it in map(json.loads, whole_lines(record)) if it["session"] == session]


def waits(thread):
    """Whether a thread waits for news of a live session."""
    frame, names = sys._current_frames().get(thread), []
    while frame is not None:
        names.append(frame.f_code.co_name)
        frame = frame.f_back
    return names[:2] == ["wait", "wait_until"]


class Live(FrontCases):
    """Sessions of a front that offers live ones."""

    @contextmanager
    def later(self, work):
        """Has another thread do something as soon as this one waits for news."""
        waiting = threading.get_ident()

        def run():
            wait_until(self, lambda: waits(waiting), "somebody waits")
            work()

        thread = threading.Thread(target=run)
        thread.start()
        try:
            yield
        finally:
            thread.join()

    @contextmanager
    def pair(self, *options, **how):
        """A host and a guest that listens to it, and the record of what the server is given."""
        self.record = Path(self.room, "record")
        with self.front(options=("--quiet", "--record", self.record, *options)) as (path, process):
            with metad.connect(path, **how) as one, metad.connect(path, **how) as other:
                host, guest = one.session("host"), other.session("guest")
                listening(host, guest)
                yield host, guest, process

    def test_told(self):
        """Each event comes without `spin`, and so does the result of the front's own `spin`."""
        heard, spun = [], []
        with self.pair() as (host, guest, _):
            self.assertTrue(guest.server.is_live, "whether it is live, without having asked for it by a word")
            guest.on_call, guest.on_spun = heard.append, spun.append
            for value in range(1, ROUNDS + 1):
                host.set(1, "x", value)
                guest.wait_for(lambda: len(heard) == value and sum(it["events"] for it in spun) == value, PATIENCE)
            self.assertEqual(heard, [seen(value) for value in range(1, ROUNDS + 1)], "what is heard")
            self.assertEqual({it["left"] + it["lost"] + it["mismatched"] for it in spun}, {0}, "what did not come of the spins")
            commands = [it for it in given_in(self.record, guest.known_as) if it != "spin"]
            self.assertEqual(commands, ["new", "join"], "what the guest itself has asked for")

    def test_idle_wait(self):
        """A wait in a live session asks the server for nothing."""
        with self.pair() as (_, guest, _):
            before = self.record.read_text()
            self.raised("a predicate that stays false", metad.NotAnswered, guest.wait_for, lambda: False, IDLE)
            self.assertEqual(list(guest.calls(0.2)), [], "calls where none comes")
            self.assertEqual(self.record.read_text(), before, "what the server was given meanwhile")

    def test_signals(self):
        """A wait for a signal, and a spy, spin no more than the front does."""
        with self.pair() as (host, guest, _):
            ear = guest.proxy(1, "Cell")
            guest.join(host.known_as, "level", ["int"], 1, "setX(int)")
            with metad.SignalSpy(ear.xChanged, via=guest.create("Cell").seen) as spy:
                host.set(1, "x", 5)
                self.assertIs(guest.wait_for(lambda: spy), spy, "what the predicate returned")
                before = given_in(self.record, guest.known_as)
                self.assertFalse(spy.wait(IDLE), "whether it is sent again")
                with self.later(lambda: host.set(1, "x", 6)):
                    self.assertTrue(spy.wait(PATIENCE), "whether it is sent then")
                self.assertEqual(spy, [[5], [6]], "what it was sent with")
            spins = given_in(self.record, guest.known_as)[len(before) :].count("spin")
            self.assertLessEqual(spins, 4, "the spins, some of them given by the front after a set by the event itself")
            with self.later(lambda: host.set(1, "x", 7)):
                self.assertEqual(metad.wait_for(ear.xChanged, PATIENCE, via=guest.create("Cell").seen), [7], "its arguments")

    def test_relay(self):
        """A session waits for a signal by a relay, and a function is called for what is published, as it comes."""
        heard = []
        with metad.start_front(self.program, classes=metad.with_relay({"classes": RINGING}), timeout=PATIENCE) as front:
            with front.connect() as one, front.connect() as other:
                host, guest = one.session("host"), other.session("guest")
                bell, ear = host.create("Ear"), guest.create("Ear")
                bell.rung.publish("bell")
                guest.listen(host.known_as, "bell", ["int"], heard.append)
                ear.rung.join(host.known_as, "bell")
                with self.later(lambda: bell.rung(7)):
                    self.assertEqual(guest.wait_for(ear.rung, PATIENCE), [7], "what it was sent with")
                self.assertEqual(guest.wait_for(lambda: heard, PATIENCE), [7], "what the function receives")
                self.raised("nothing more", metad.NotAnswered, guest.wait_for, ear.rung, 0.1)

    def test_calls(self):
        """Calls are iterated as they come, from the moment when they were asked for."""
        with self.pair() as (host, guest, _):
            calls = guest.calls(PATIENCE)
            for value in (1, 2, 3):
                host.set(1, "x", value)
            guest.status()
            self.assertEqual([next(calls) for _ in range(3)], [seen(1), seen(2), seen(3)], "the calls")
            self.assertEqual(list(guest.calls(0.1)), [], "those that were taken do not come again")

    def test_between(self):
        """Answers of commands that are sent ahead stay theirs, while events come all the time."""
        heard = []
        with self.pair() as (host, guest, _):
            guest.on_call = heard.append
            made = [guest.send("set", object=1, property="y", value=it) for it in range(5)]
            sent = []
            for value in range(1, 301):
                sent.append(host.send("set", object=1, property="x", value=value))
                made.append(guest.send("get", object=1, property="y"))
                made.append(guest.send("delete", object=7))
            self.assertEqual([it.result() for it in sent], [True] * 300, "what the host receives")
            self.assertEqual([it.result() for it in made[:5]], [True] * 5, "the first answers")
            for got, refused in zip(made[5::2], made[6::2]):
                self.assertEqual(got.result(), 4, "an answer")
                self.assertEqual(self.raised("a refusal", metad.Refused, refused.result).code, "E04", "its code")
            guest.wait_for(lambda: len(heard) == 300, PATIENCE)
            self.assertEqual(heard, [seen(value) for value in range(1, 301)], "what is heard")

    def test_not_live(self):
        """With `live=False` events wait for `spin`, as without such a front; waits spin."""
        heard = []
        with self.pair(live=False) as (host, guest, _):
            self.assertFalse(guest.server.is_live, "whether it is live")
            guest.on_call = heard.append
            host.set(1, "x", 1)
            self.assertEqual((guest.status()["queued"], heard), (1, []), "what waits")
            self.assertEqual((guest.spin(), heard), (SPUN, [seen(1)]), "what is received")
            host.set(1, "x", 2)
            guest.wait_for(lambda: len(heard) == 2, PATIENCE)
            host.set(1, "x", 3)
            self.assertEqual(next(guest.calls(PATIENCE)), seen(3), "what is iterated")
            self.assertNotIn("spin", given_in(self.record, host.known_as), "what the front gives on its own")

    def test_made_live(self):
        """If a front makes all sessions live, a client that did not ask still receives the right answers."""
        heard, spun = [], []
        with self.pair("--live", live=False) as (host, guest, _):
            guest.on_call, guest.on_spun = heard.append, spun.append
            for value in range(1, ROUNDS + 1):
                host.set(1, "x", value)
                self.assertEqual(guest.get(1, "x"), 0, "an answer")
            guest.wait_for(lambda: sum(it["events"] for it in spun) == ROUNDS, PATIENCE)
            self.assertEqual(heard, [seen(value) for value in range(1, ROUNDS + 1)], "what is heard")

    def test_shared(self):
        """All who speak for a shared session receive its calls unasked, also those that another one's command makes."""
        heard = {"one": [], "other": []}
        with self.front(options=("--quiet", "--share", "team")) as (path, _):
            with metad.connect(path, "team") as first, metad.connect(path, "team") as second:
                one, other = (it.session(name, heard[name].append) for it, name in ((first, "one"), (second, "other")))
                self.assertEqual([first.is_live, second.is_live, one.new("Cell")], [True, True, 1], "what they are")
                other.invoke(1, "seen(int)", [1])
                one.wait_for(lambda: heard["one"], PATIENCE)
                self.assertEqual(heard, {"one": [seen(1)], "other": [seen(1)]}, "a call by a command")
                one.invoke(1, "seen(int)", [2], type="queued")
                for session in (one, other):
                    session.wait_for(lambda: len(heard[session.name]) == 2, PATIENCE)
                self.assertEqual([it.get(1, "x") for it in (one, other)], [0, 0], "their answers")
                self.assertEqual(heard, {"one": [seen(1), seen(2)], "other": [seen(1), seen(2)]}, "a call by an event")
            refused = self.raised("another name", metad.Refused, metad.connect, path, "crew", live=True)
            self.assertEqual((refused.do, refused.code, refused.keys), ("share", "F02", {"session": "crew"}), "the refusal")

    def test_interrupted(self):
        """An interrupt ends a wait, and takes nothing from the next one."""
        heard = []
        with self.pair() as (host, guest, _):
            guest.on_call = heard.append
            # a shell may start these tests in the background with interrupts ignored
            self.addCleanup(signal.signal, signal.SIGINT, signal.signal(signal.SIGINT, signal.default_int_handler))
            interrupt = partial(signal.pthread_kill, threading.main_thread().ident, signal.SIGINT)
            with self.later(interrupt):
                self.raised("an interrupt", KeyboardInterrupt, guest.wait_for, lambda: False, PATIENCE)
            host.set(1, "x", 1)
            self.assertEqual(guest.wait_for(lambda: heard, PATIENCE), [seen(1)], "what is heard then")

    def test_closed(self):
        """A wait ends with the connection, and so does one of another thread that closes it."""
        with self.pair() as (_, guest, process):
            with self.later(process.terminate):
                self.raised("a front that ends", metad.ConnectionClosed, guest.wait_for, lambda: False, PATIENCE)
            self.raised("and later", metad.ConnectionClosed, next, guest.calls(PATIENCE))
        with self.front() as (path, _), metad.connect(path) as server:
            calls = server.session("a").calls(PATIENCE)
            with self.later(server.close):
                self.raised("a client that closes", metad.ConnectionClosed, next, calls)


class LiveWorkers(WorkerCases):
    """Live sessions of groups, whose workers are killed and brought back."""

    def test_brought_back(self):
        """Each event comes once, and each answer is its command's, while workers are killed."""
        heard, count = [], 200
        with self.workers(2, options=("--record", str(self.records))) as (path, process):
            with metad.connect(path, group="desk") as one, metad.connect(path, group="desk") as other:
                host, guest = one.session("host"), other.session("guest", heard.append)
                self.assertEqual([one.is_live, other.is_live], [True, True], "whether they are live")
                listening(host, guest)
                self.assertEqual([host.known_as, guest.known_as], ["desk__c1", "desk__c2"], "their names")
                sent = [host.send("set", object=1, property="x", value=value) for value in range(1, count + 1)]
                asked = [guest.send("children") for _ in range(count)]
                for server in servers_of(process):
                    os.kill(server, signal.SIGKILL)
                self.assertEqual([it.result() for it in sent], [True] * count, "what the host receives")
                self.assertEqual([it.result() for it in asked], [[1]] * count, "what the guest receives")
                guest.wait_for(lambda: len(heard) == count, PATIENCE)
                self.assertEqual(heard, [seen(value) for value in range(1, count + 1)], "what is heard")

    def test_named_by_clients(self):
        """If clients name sessions, there are no live ones: the client continues without, or raises `NotLive`."""
        with self.workers(1, options=("--group-from", "name")) as (path, _):
            with metad.connect(path) as server:
                self.assertEqual((server.is_live, server.session("mine").new("Cell")), (False, 1), "a client that has not said")
            refused = self.raised("one that wants it", metad.NotLive, metad.connect, path, live=True)
            self.assertIn("no live sessions", str(refused), "what it says")


class StandIns(FrontCases):
    """Fronts, played by the test: the lines that are written, and those that come between."""

    def test_old_front(self):
        """A front without live sessions closes the connection; the next connection does not ask."""
        for code in ("F01", "F03", "E02"):
            with Talker(self.room) as talker:
                self.play(talker, code, None)
                with metad.connect(talker.path) as server:
                    self.assertEqual((server.is_live, server.session("a").new("Cell")), (False, 1), code)
                self.assertEqual(talker.heard(), [LIVE, "", NEW], "its lines")
                self.play(talker, code, True)
                self.raised("one that wants it", metad.NotLive, metad.connect, talker.path, live=True)

    def play(self, talker, code, live):
        """Has a front refuse a first line, and answer one command of the next connection."""
        talker.play([(LIVE, [{"error": code, "session": "-"}])], [] if live else [(NEW, [{"reply": 1, "session": "c2"}])])

    def test_old_sharing(self):
        """A front without live sessions may share sessions: the client asks for the shared one again."""
        share, shared = '{"front":"share","session":"team"}', [{"reply": True, "session": "team"}]
        with Talker(self.room) as talker:
            live = '{"front":"share","session":"team","live":true}'
            talker.play([(live, [{"error": "F01", "session": "-"}])], [(share, shared), (NEW, [{"reply": 1, "session": "team"}])])
            with metad.connect(talker.path, "team") as server:
                self.assertEqual(server.session("a").new("Cell"), 1, "an object")
            self.assertEqual(talker.heard(), [live, "", share, NEW], "its lines")

    def test_not_asked(self):
        """With `live=False` nothing is written but commands, and a wait spins."""
        spin = '{"do":"spin","session":"a"}'
        spun = [{"reply": {**SPUN, "events": 0}, "session": "c1"}]
        call = {"args": [], "call": "note()", "object": 1, "sender": 0, "session": "c1"}
        with Talker(self.room) as talker:
            talker.play([(NEW, [{"reply": 1, "session": "c1"}]), (spin, spun), (spin, [call, *spun])])
            heard = []
            with metad.connect(talker.path, live=False) as server:
                session = server.session("a", heard.append)
                session.new("Cell")
                session.wait_for(lambda: heard, PATIENCE)
            self.assertEqual(talker.heard(), [NEW, spin, spin], "its lines")

    def test_mixed(self):
        """Marked replies before, between and after answers answer no command."""
        call = {"args": [], "call": "note()", "object": 1, "sender": 0, "session": "c1"}
        marked = {"front": "spin", "reply": SPUN, "session": "c1"}
        told = [call, marked, {**call, "object": 2}, {"reply": 1, "session": "c1"}, {**call, "object": 3}, marked]
        told += [{"reply": 2, "session": "c1"}, marked, {"front": "spin", "reply": {**SPUN, "events": 5}, "session": "c1"}]
        with Talker(self.room) as talker:
            talker.play([(LIVE, [GREETED]), (NEW, []), (NEW, told)])
            heard, events = [], []
            with metad.connect(talker.path) as server:
                session = server.session("a", lambda it: heard.append(it.object))
                session.on_spun = lambda it: events.append(it["events"])
                sent = [session.send("new", class_="Cell") for _ in range(2)]
                self.assertEqual(sent[0].result(), 1, "the first answer")
                self.assertEqual(heard[:2], [1, 2], "what was received before it")
                self.assertEqual((sent[1].result(), heard), (2, [1, 2, 3]), "the second answer")
                session.wait_for(lambda: len(events) == 4, PATIENCE)
                self.assertEqual(events, [1, 1, 1, 5], "the result of each spin")

    def test_sent_at_once(self):
        """A wait for a signal also ends when another thread has delivered the signal before the wait begins."""
        sent = mock.MagicMock()
        sent.connect.side_effect = lambda told, via: told(5) or mock.MagicMock()
        self.assertEqual(metad.wait_for(sent, PATIENCE), [5], "what it was sent with")

    def test_failed(self):
        """If the front's own spin fails, its error answers no command; the session is not live any more, and waits spin."""
        failed, spin = {"error": "E21", "front": "spin", "session": "c1"}, '{"do":"spin","session":"a"}'
        with Talker(self.room) as talker:
            talker.play([(LIVE, [GREETED]), (NEW, [failed, {"reply": 1, "session": "c1"}]), (spin, [{"error": "E20", "session": "c1"}])])
            with metad.connect(talker.path) as server:
                session = server.session("a")
                self.assertEqual((session.new("Cell"), server.is_live), (1, False), "an answer")
                refused = self.raised("a wait", metad.Refused, session.wait_for, lambda: False, PATIENCE)
                self.assertEqual((refused.do, refused.code), ("spin", "E20"), "why it ends")

    def test_strange(self):
        """A marked line without the result of a spin is no line of the protocol."""
        for strange in ({"front": "spin", "session": "c1"}, {"front": "else", "reply": {}, "session": "c1"}):
            with Talker(self.room) as talker:
                talker.play([(LIVE, [GREETED]), (NEW, [strange])])
                with metad.connect(talker.path) as server:
                    self.raised("an answer", metad.StrangeLine, server.session("a").new, "Cell")


LIVE = '{"front":"hello","live":true}'
NEW = '{"class":"Cell","do":"new","session":"a"}'
GREETED = {"live": True, "reply": True, "session": "c1"}
