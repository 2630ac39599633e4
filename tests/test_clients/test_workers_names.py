"""Which group a client belongs to, which worker runs that group, and how sessions of other groups relate to it."""

import json
import os
import signal
from collections import Counter
from pathlib import Path

from tests.support.lines import text_of

from .fronts import NEW, Client, error, reply
from .grouped import WorkerCases, by_session, hello, servers_of, wait_until, worker_of

NO_GROUP, NOT_KNOWN = error("F03", "-"), error("F01", "-")
MOST = 64  # bytes of a name
CELL = {"do": "new", "class": "Cell"}
PUBLISH = {"do": "publish", "object": 1, "signal": "xChanged(int)", "name": "level"}
JOIN = {"do": "join", "name": "level", "types": ["int"], "object": 1, "method": "seen(int)"}
LEAVE = {"do": "leave", "name": "level", "object": 1, "method": "seen(int)"}
SET, SPIN = {"do": "set", "object": 1, "property": "x", "value": 7}, {"do": "spin"}
NAMED = ("--group-from", "name")


class Rings(WorkerCases):
    """Which worker a group belongs to, as the page says it."""

    def test_places(self):
        """The front puts each group where that says, clients without hello among them."""
        with self.workers(4) as (path, _):
            clients = [Client(path) for _ in range(40)]
            for number, client in enumerate(clients, 1):
                if number % 2:
                    client.ask(hello(f"g{number}"))
                client.ask(NEW)
            wanted = {name: worker_of(name, 4) for name in (f"g{at}" if at % 2 else f"c{at}" for at in range(1, 41))}
            self.assertEqual(self.places(), wanted, "the places")
            self.assertEqual(len(set(wanted.values())), 4, "workers that have some")
            for client in clients:
                client.leave()


class Hello(WorkerCases):
    """Clients that ask for a group."""

    def test_names(self):
        """A session is named by its group and its client, or by the client alone; what it writes as `session` does not count."""
        with self.workers(2) as (path, _), Client(path) as one, Client(path) as other, Client(path) as third:
            self.assertEqual(one.ask(hello("desk")), reply(True, "desk__c1"), "a hello")
            self.assertEqual(other.ask(NEW), reply(1, "c2"), "a client without one")
            self.assertEqual(other.ask(hello("desk")), error("E02", "c2"), "a hello after a command")
            self.assertEqual(third.ask(hello("_d_9")), reply(True, "_d_9__c3"), "another name")
            with Client(path) as fourth:
                self.assertEqual(fourth.ask(hello("c1a")), reply(True, "c1a__c4"), "a name that no client has")
            self.assertEqual(one.ask(text_of({**json.loads(NEW), "session": "c2"})), reply(1, "desk__c1"), "an object")
            self.assertEqual(one.ask(hello("desk")), error("E02", "desk__c1"), "a second hello")

    def test_refused(self):
        """A hello that names no group, in each form, is refused, and its client closed; also one whose session would have
        too long a name or be read as one of another group, and one that is the group of a client without hello."""
        longest = "g" * (MOST - len("__c10"))
        names = ("", "1", "a-b", "a b", "ä", "a__b", "__", "_", "a_", "c1", "c99", "a\n", "x" * MOST, longest + "g")
        forms = [hello(name) for name in names] + [hello(5), hello(None), hello(["a"]), '{"front":"hello"}']
        forms += ['{"front":"hello","group":"a","more":1}', '{"front":"hello","session":"a"}']
        with self.workers(2) as (path, _):
            for _ in range(9):
                Client(path).leave()
            with Client(path) as client:
                self.assertEqual(client.ask(hello(longest)), reply(True, f"{longest}__c10"), "the longest")
                self.assertEqual(client.ask(NEW), reply(1, f"{longest}__c10"), "its object")
            for form in forms:
                with Client(path) as client:
                    client.say(form, NEW)
                    self.assertEqual(client.told(), [NO_GROUP], form)
            with Client(path) as client:
                client.say('{"front":"jump"}')
                self.assertEqual(client.told(), [NOT_KNOWN], "what is no hello")

    def test_not_without_workers(self):
        """A front without workers knows no hello."""
        with self.front() as (path, _), Client(path) as client:
            client.say(hello("desk"))
            self.assertEqual(client.told(), [NOT_KNOWN], "what it receives")

    def test_shared(self):
        """A shared session is of the group that its name says, and can be joined there."""
        with self.workers(4, options=("--share", "desk__team", "--share", "lamp")) as (path, _):
            with Client(path) as one, Client(path) as other, Client(path) as mate:
                for client in (one, other):
                    self.assertEqual(client.ask('{"front":"share","session":"desk__team"}'), reply(True, "desk__team"), "a share")
                self.assertEqual(mate.ask(hello("desk")), reply(True, "desk__c3"), "a hello")
                self.assertEqual(one.ask(text_of(CELL)), reply(1, "desk__team"), "an object")
                self.assertEqual(other.ask(text_of(PUBLISH)), reply(True, "desk__team"), "a publication")
                self.assertEqual(mate.ask(text_of(CELL)), reply(1, "desk__c3"), "an object of the mate")
                self.assertEqual(mate.ask(text_of({**JOIN, "from": "desk__team"})), reply(True, "desk__c3"), "a join")
                self.assertEqual(one.ask(text_of(SET)), reply(True, "desk__team"), "what is posted")
                self.assertIn('"args":[7]', mate.ask(text_of(SPIN)), "what is heard")
                self.assertEqual(list(self.places()), ["desk"], "the groups")


class Apart(WorkerCases):
    """Sessions of several groups."""

    def check_apart(self, count):
        with self.workers(count) as (path, process), Client(path) as one, Client(path) as other:
            for client, group in ((one, "desk"), (other, "lamp")):
                client.ask(hello(group))
                client.ask(text_of(CELL))
            self.assertEqual(one.ask(text_of(PUBLISH)), reply(True, "desk__c1"), "a publication")
            for join in (JOIN, {**JOIN, "from": "desk__c1"}, JOIN):
                join = {"from": "desk__c1", **join}
                self.assertEqual(other.ask(text_of(join)), reply(True, "lamp__c2"), "a join")
            escaped = text_of({**JOIN, "from": "desk__c1"}).replace('"from"', '"fr\\u006fm"').replace('"join"', '"jo\\u0069n"')
            self.assertEqual(other.ask(escaped), reply(True, "lamp__c2"), "a join with escapes")
            self.assertEqual(one.ask(text_of(SET)), reply(True, "desk__c1"), "what is posted")
            self.assertEqual(json.loads(other.ask(text_of(SPIN)))["reply"]["events"], 0, "what is heard")
            for wanted in (True, False):
                self.assertEqual(other.ask(text_of({**LEAVE, "from": "desk__c1"})), reply(wanted, "lamp__c2"), "whether there was a join")
            for fault, code in (({"object": 5}, "E04"), ({"method": "none()"}, "E05"), ({"types": []}, "E07"), ({"types": 5}, "E02")):
                self.assertEqual(other.ask(text_of({**JOIN, "from": "desk__c1", **fault})), error(code, "lamp__c2"), "a join that is refused")
            self.assertEqual(other.ask(text_of({**JOIN, "from": "lamp__c2"})), error("E16", "lamp__c2"), "one of its own session")
            said = [line for line in process.log.lines() if "joined" in line]
            wanted = ["metad-front: lamp has joined desk, which is another group: nothing will come of it"]
            self.assertEqual(said, wanted, "what is said")

    def test_apart(self):
        """A join of another group is answered as ever, and nothing comes of it, on the same worker or on another one; that is
        said once for each two groups."""
        for count in (1, 4):
            with self.subTest(workers=count):
                self.check_apart(count)


class Named(WorkerCases):
    """Clients that name sessions by themselves."""

    def test_listeners(self):
        """All connected clients that have named the session receive calls. Only the one that asked receives the answer."""
        call = text_of({"args": [], "call": "note()", "object": 1, "sender": 0, "session": "desk__a"})
        new = '{"class":"Probe","do":"new","session":"desk__a"}'
        note = '{"args":[],"do":"invoke","method":"note()","object":1,"session":"desk__a"}'
        with self.workers(4, options=NAMED) as (path, _), Client(path) as one, Client(path) as other, Client(path) as third:
            self.assertEqual(one.ask(new), reply(1, "desk__a"), "an object")
            self.assertEqual(third.ask(new.replace("desk__a", "lamp")), reply(1, "lamp"), "one of another session")
            self.assertEqual([one.ask(note), one.hear()], [call, reply(True, "desk__a")], "what one client alone receives")
            self.assertEqual([other.ask(note), other.hear()], [call, reply(True, "desk__a")], "what the one that asks receives")
            self.assertEqual(one.hear(), call, "what the one that has named it receives")
            with Client(path) as gone:
                self.assertEqual([gone.ask(note), gone.hear()], [call, reply(True, "desk__a")], "one that goes")
            self.assertEqual([one.ask(note), one.hear(), one.hear()], [call, call, reply(True, "desk__a")], "and after that")
            self.assertEqual(third.ask(new.replace("desk__a", "lamp")), reply(2, "lamp"), "the third hears nothing of it")
            with Client(path) as later:
                self.assertEqual(later.ask(new), reply(2, "desk__a"), "the session stays")

    def test_reading(self):
        """The session is read as the server reads it: the last of equal keys, with escapes; others are for no session."""
        forms = (
            ('{"do":"new","class":"Probe","session":"a","session":"b"}', reply(1, "b")),
            ('{"session":"b","do":"new","class":"Probe","session":"a"}', reply(1, "a")),
            ('{"do":"new","class":"Probe","session":"a","\\u0073ession":"b"}', reply(2, "b")),
            ('{"do":"new","class":"Probe","session":"\\u0061"}', reply(2, "a")),
            ('{"do":"new","class":"Probe","session":"b","session":5}', error("E02", "-")),
            ('{"do":"new","class":"Probe","value":{"session":"b"},"session":"a"}', error("E02", "a")),
            ('{"do":"new","class":"Probe","session":"a b"}', error("E02", "-")),
            ('{"do":"new","class":"Probe"}', error("E02", "-")),
            ("nonsense", error("E01", "-")),
            ('{"do":"new","class":"Probe","session":"a"', error("E01", "-")),
            ('{"do":"new","class":"Probe","session":"a","x":NaN}', error("E01", "-")),
            ('[{"session":"a"}]', error("E02", "-")),
            ("x" * 70_000, error("E01", "-")),
            ('{"do":"new","class":"Probe","session":"a"}', reply(3, "a")),
        )
        with self.workers(4, options=NAMED) as (path, _), Client(path) as client:
            for line, wanted in forms:
                self.assertEqual(client.ask(line), wanted, line[:80])
            with Client(path) as other:
                other.say(*(line for line, _ in forms))
                told = by_session(other.rest())
            self.assertEqual(told["a"], [reply(4, "a"), reply(5, "a"), error("E02", "a"), reply(6, "a")], "all at once")
            self.assertEqual(told["b"], [reply(3, "b"), reply(4, "b")], "of the other session")
            self.assertEqual(Counter(told["-"]), Counter(wanted for _, wanted in forms if '"-"' in wanted), "of no session")

    def test_lost(self):
        """A client is notified for each session that it has named in a lost group, and can use them again when the group is back."""
        new = '{"class":"Probe","do":"new","session":"%s"}'
        with self.workers(1, options=NAMED) as (path, process):
            with Client(path) as client:
                for name in ("desk__b", "desk__a", "lamp"):
                    self.assertEqual(client.ask(new % name), reply(1, name), "an object")
                for server in servers_of(process):
                    os.kill(server, signal.SIGKILL)
                told = client.told()
            self.assertEqual(sorted(told), sorted(error("F04", name) for name in ("desk__a", "desk__b", "lamp")), "what it receives")
            with Client(path) as later:
                self.assertEqual(later.ask(new % "desk__a"), reply(1, "desk__a"), "later")

    def test_no_first_line(self):
        """There is no hello and nothing to share: each session may be named."""
        for line in (hello("desk"), '{"front":"share","session":"team"}'):
            with self.workers(2, options=NAMED) as (path, _), Client(path) as client:
                client.say(line, NEW)
                self.assertEqual(client.told(), [NOT_KNOWN], line)

    def test_record(self):
        """The record of a group starts again when its sessions are reset. It stays when its clients only leave."""
        records = self.records
        new, reset = '{"class":"Probe","do":"new","session":"desk__a"}', '{"do":"reset","session":"desk__a"}'
        with self.workers(2, options=(*NAMED, "--record", str(records))) as (path, process):
            with Client(path) as client:
                client.ask(new)
            wait_until(self, lambda: not self.ask_front(front="groups")["reply"][0]["clients"], "the client has gone")
            for server in servers_of(process):
                os.kill(server, signal.SIGKILL)
            with Client(path) as client:
                self.assertEqual(client.ask(new), reply(2, "desk__a"), "what it holds")
                client.ask("nonsense")
                self.assertEqual([it.name for it in records.iterdir()], ["desk.lines"], "the files")
                self.assertEqual(client.ask(reset), reply(True, "desk__a"), "a reset")
                wait_until(self, lambda: not Path(records, "desk.lines").read_bytes(), "the record starts again")
            wait_until(self, lambda: not any(records.iterdir()), "no file is left")
            self.assertEqual(self.places(), {}, "no group is left")
