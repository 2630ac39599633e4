"""Live sessions of a front: their clients receive events as they happen."""

import json
import os
import signal
import time
from pathlib import Path

from tests.support.lines import text_of

from .fronts import NEW, Client, FrontCases, error, reply
from .grouped import WorkerCases, servers_of, wait_until

LIVE = '{"front":"hello","live":true}'
CELL = text_of({"do": "new", "class": "Cell"})
PUBLISH = text_of({"do": "publish", "object": 1, "signal": "xChanged(int)", "name": "level"})
STATUS = text_of({"do": "status"})
ROUNDS = 40


def join(name):
    return text_of({"do": "join", "from": name, "name": "level", "types": ["int"], "object": 1, "method": "seen(int)"})


def set_x(value):
    return text_of({"do": "set", "object": 1, "property": "x", "value": value})


def seen(value, session):
    return text_of({"args": [value], "call": "seen(int)", "object": 1, "sender": 0, "session": session})


def spun(events, session):
    """The front's own answer to its `spin`, with its keys in byte order."""
    reply = {"events": events, "left": 0, "lost": 0, "mismatched": 0}
    return text_of({"front": "spin", "reply": reply, "session": session})


def values_of(guest, count):
    """The values that so many events tell a client, which come by spins of the front."""
    values, events = [], 0
    while events < count:
        told = json.loads(guest.hear())
        values += told.get("args", [])
        events += told["reply"]["events"] if "front" in told else 0
    return values


class Live(FrontCases):
    """Clients that ask for their events in their first line."""

    def listening(self, host, guest, names):
        """The guest listens to what the host publishes."""
        for client, name in ((host, names[0]), (guest, names[1])):
            self.assertEqual(client.ask(CELL), reply(1, name), "an object")
        self.assertEqual(host.ask(PUBLISH), reply(True, names[0]), "a publication")
        self.assertEqual(guest.ask(join(names[0])), reply(True, names[1]), "a join")

    def test_told(self):
        """A live client receives each event without asking, and the number of events; a client that is not live does not."""
        with self.front() as (path, _), Client(path) as host, Client(path) as guest, Client(path) as plain:
            self.assertEqual(host.name(), "c1", "the host")
            self.assertEqual(guest.ask(LIVE), '{"live":true,"reply":true,"session":"c2"}', "the answer to its first line")
            self.listening(host, guest, ("c1", "c2"))
            self.assertEqual([plain.ask(CELL), plain.ask(join("c1"))], [reply(1, "c3"), reply(True, "c3")], "another one")
            for value in range(1, ROUNDS):
                self.assertEqual(host.ask(set_x(value)), reply(True, "c1"), "what the host receives")
                self.assertEqual([guest.hear(), guest.hear()], [seen(value, "c2"), spun(1, "c2")], "what comes automatically")
            self.assertEqual(json.loads(guest.ask(STATUS))["reply"]["queued"], 0, "and nothing else")
            self.assertEqual(json.loads(plain.ask(STATUS))["reply"]["queued"], ROUNDS - 1, "what waits for the other one")

    def test_option(self):
        """With --live all clients receive events, and so do clients that post events to themselves."""
        late = text_of({"do": "invoke", "object": 1, "method": "seen(int)", "args": [5], "type": "queued"})
        with self.front(options=("--quiet", "--live")) as (path, _), Client(path) as client:
            self.assertEqual(client.ask(CELL), reply(1, "c1"), "an object")
            self.assertEqual(client.ask(late), reply(True, "c1"), "a queued call")
            self.assertEqual([client.hear(), client.hear()], [seen(5, "c1"), spun(1, "c1")], "what comes automatically")

    def test_merged(self):
        """Many causes make few spins: what the server is given is recorded, and each event comes once."""
        record, count = Path(self.room, "record"), 400
        with self.front(options=("--quiet", "--record", record)) as (path, _), Client(path) as host, Client(path) as guest:
            self.assertEqual(host.name(), "c1", "the host")
            guest.ask(LIVE)
            self.listening(host, guest, ("c1", "c2"))
            host.say(*(set_x(value) for value in range(1, count + 1)))
            self.assertEqual(values_of(guest, count), list(range(1, count + 1)), "what is heard")
            self.assertEqual([host.hear() for _ in range(count)], [reply(True, "c1")] * count, "what the host receives")
        given = [json.loads(line) for line in record.read_text().splitlines()]
        spins = sum(it == {"do": "spin", "session": "c2"} for it in given)
        self.assertLess(0, spins, "the spins")
        self.assertLessEqual(spins, count + 1, "the spins")
        self.assertEqual({it["session"] for it in given if it["do"] == "spin"}, {"c2"}, "whose they are")

    def test_idle(self):
        """The server is given nothing for live sessions if nothing happens."""
        record = Path(self.room, "record")
        with self.front(options=("--quiet", "--record", record)) as (path, _), Client(path) as host, Client(path) as guest:
            self.assertEqual(host.name(), "c1", "the host")
            guest.ask(LIVE)
            self.listening(host, guest, ("c1", "c2"))
            before = record.read_text()
            for line in (STATUS, text_of({"do": "get", "object": 1, "property": "x"}), "nonsense", NEW):
                host.ask(line)
            time.sleep(0.2)
            self.assertEqual(record.read_text()[len(before) :].count("spin"), 0, "what is given")

    def test_gone(self):
        """A client that disconnects during the front's own spin is closed too: nothing of it is left."""
        with self.front() as (path, process):
            files = Path(f"/proc/{process.pid}/fd")
            before = len(list(files.iterdir()))
            for _ in range(30):
                with Client(path) as client:
                    client.ask(LIVE)
                    self.assertIn('"reply":1', client.ask(CELL), "an object")
                    client.ask(set_x(1))
            wait_until(self, lambda: len(list(files.iterdir())) <= before, "all connections are closed")

    def test_refused(self):
        """A first line that asks for a live session in another form is refused."""
        with self.front() as (path, _):
            for line in ('{"front":"hello","live":1}', '{"front":"hello","live":true,"more":1}', '{"front":"live"}'):
                with Client(path) as client:
                    client.say(line, NEW)
                    self.assertEqual(client.told(), [error("F01", "-")], line)

    def test_shared(self):
        """All who speak for a shared session receive its calls; those that asked for it receive the front's answer."""
        late = text_of({"do": "invoke", "object": 1, "method": "seen(int)", "args": [5], "type": "queued"})
        with self.front(options=("--quiet", "--share", "team")) as (path, _), Client(path) as live, Client(path) as plain:
            self.assertEqual(plain.ask('{"front":"share","session":"team"}'), reply(True, "team"), "a member")
            told = live.ask('{"front":"share","live":true,"session":"team"}')
            self.assertEqual(told, '{"live":true,"reply":true,"session":"team"}', "a live member")
            self.assertEqual(plain.ask(CELL), reply(1, "team"), "an object")
            self.assertEqual(plain.ask(late), reply(True, "team"), "a queued call")
            self.assertEqual([live.hear(), live.hear()], [seen(5, "team"), spun(1, "team")], "what the live one receives")
            self.assertEqual(plain.hear(), seen(5, "team"), "what the other one receives")
            self.assertEqual(json.loads(plain.ask(STATUS))["reply"]["queued"], 0, "and nothing else")

    def test_left_before(self):
        """The first live client of a shared session receives the events that were left there before."""
        late = text_of({"do": "invoke", "object": 1, "method": "seen(int)", "args": [5], "type": "queued"})
        for options in ((), ("--workers", "2")):
            with self.front(options=("--quiet", "--share", "team", *options)) as (path, _), Client(path) as plain:
                self.assertEqual(plain.ask('{"front":"share","session":"team"}'), reply(True, "team"), "a member")
                self.assertEqual([plain.ask(CELL), plain.ask(late)], [reply(1, "team"), reply(True, "team")], "a queued call")
                with Client(path) as live:
                    told = live.ask('{"front":"share","live":true,"session":"team"}')
                    self.assertEqual(told, '{"live":true,"reply":true,"session":"team"}', "a live member")
                    self.assertEqual([live.hear(), live.hear()], [seen(5, "team"), spun(1, "team")], "what it receives")


class LiveWorkers(WorkerCases):
    """Live sessions with workers that are brought back."""

    def test_brought_back(self):
        """Events come once, even if the worker is killed meanwhile, and the front's answers stay marked."""
        greet, count = '{"front":"hello","group":"desk","live":true}', 300
        with self.workers(2, options=("--record", str(self.records))) as (path, process):
            with Client(path) as host, Client(path) as guest:
                told = [json.loads(it.ask(greet)) for it in (host, guest)]
                names = [it["session"] for it in told]
                self.assertEqual(names, ["desk__c1", "desk__c2"], "their names")
                for client, name in ((host, names[0]), (guest, names[1])):
                    self.assertEqual(client.ask(CELL), reply(1, name), "an object")
                self.assertEqual(host.ask(PUBLISH), reply(True, names[0]), "a publication")
                self.assertEqual(guest.ask(join(names[0])), reply(True, names[1]), "a join")
                host.say(*(set_x(value) for value in range(1, count + 1)))
                for server in servers_of(process):
                    os.kill(server, signal.SIGKILL)
                self.assertEqual(values_of(guest, count), list(range(1, count + 1)), "what is heard")
                self.assertEqual([host.hear() for _ in range(count)], [reply(True, names[0])] * count, "what it receives")
            wait_until(self, lambda: not self.places(), "the group is dropped")
