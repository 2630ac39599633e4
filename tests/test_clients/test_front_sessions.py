"""What becomes of the sessions of clients that have gone, and sessions that several clients share."""

import json
import time
from pathlib import Path

from tests.support.lines import text_of

from .fronts import NEW, PATIENCE, STATUS, Client, FrontCases, classes_in, error, reply

TEE = 'tee "$0" | "$@"'
GONE = 20
SHARE, SHARED = '{"front":"share","session":"team"}', reply(True, "team")
NOT_KNOWN, NOT_SHARED = error("F01", "-"), error("F02", "-")
SPIN = text_of({"do": "spin"})
CONNECT = {"do": "connect", "sender": 1, "signal": "ping()", "receiver": 1}
PING = text_of({"do": "invoke", "object": 1, "method": "ping()", "args": []})
CALLED = text_of({"args": [], "call": "note()", "object": 1, "sender": 1, "session": "team"})
TEAM = ("--quiet", "--share", "team", "--share", "other")


def reset_of(name):
    return f'{{"do":"reset","session":"{name}"}}'


class Departed(FrontCases):
    """Clients that go away. Their server is given its lines through a file, in which these can be read."""

    def through(self, given):
        return ["sh", "-c", TEE, given, self.program]

    def wait_until_given(self, given, lines):
        """Waits until the server was given all these lines."""
        lines, until = list(lines), time.monotonic() + PATIENCE
        while not set(lines) <= set(given.read_text().splitlines()):
            if time.monotonic() > until:
                self.fail(f"{lines} are not given, but {given.read_text()[-500:]}")
            time.sleep(0.01)

    def test_reset(self):
        """The session of a client that has gone is reset, once and as its last command. Nobody is notified."""
        given = Path(self.room, "given")
        names = [f"c{number}" for number in range(2, GONE + 2)]
        with self.front(server=self.through(given)) as (path, _), Client(path) as stays:
            self.assertEqual(stays.ask(NEW), reply(1, "c1"), "one that stays")
            for name in names:
                with Client(path) as client:
                    self.assertEqual(client.ask(NEW), reply(1, name), "one that goes")
                    client.say(*[NEW] * 40)
            self.wait_until_given(given, map(reset_of, names))
            self.assertEqual(stays.ask(NEW), reply(2, "c1"), "what the one that stays receives")
            lines = given.read_text().splitlines()
        for name in names:
            own = [line for line in lines if f'"{name}"' in line]
            self.assertEqual((own[-1], own.count(reset_of(name))), (reset_of(name), 1), f"the lines of {name}")
        self.assertFalse(reset_of("c1") in lines, "a reset of the one that stays")

    def test_nothing_to_reset(self):
        """Nothing is given for clients that have asked for nothing."""
        given = Path(self.room, "given")
        with self.front(server=self.through(given)) as (path, _):
            for _ in range(3):
                Client(path).leave()
            with Client(path) as last:
                self.assertEqual(last.ask(NEW), reply(1, "c4"), "an object")
                wanted = '{"class":"Probe","do":"new","session":"c4"}'
                self.wait_until_given(given, [wanted])
                own = text_of({"do": "status", "session": "-"})  # by which the front knows that the server serves
                self.assertEqual(given.read_text().splitlines(), [own, wanted], "what the server is given")

    def test_who_listens(self):
        """Who has joined a client that has gone hears nothing more, and its join stays; who it had joined goes on."""
        cell = text_of({"do": "new", "class": "Cell"})
        publish = text_of({"do": "publish", "object": 1, "signal": "xChanged(int)", "name": "level"})
        join = {"do": "join", "name": "level", "types": ["int"], "object": 1, "method": "seen(int)"}
        given = Path(self.room, "given")
        with self.front(server=self.through(given)) as (path, _), Client(path) as stays:
            self.assertEqual(stays.ask(cell), reply(1, "c1"), "its object")
            self.assertEqual(stays.ask(publish), reply(True, "c1"), "its publication")
            with Client(path) as goes:
                self.assertEqual(goes.ask(cell), reply(1, "c2"), "the other's object")
                self.assertEqual(goes.ask(publish), reply(True, "c2"), "the other's publication")
                self.assertEqual(goes.ask(text_of({**join, "from": "c1"})), reply(True, "c2"), "its join")
                self.assertEqual(stays.ask(text_of({**join, "from": "c2"})), reply(True, "c1"), "the join that stays")
            self.wait_until_given(given, [reset_of("c2")])
            set_x = text_of({"do": "set", "object": 1, "property": "x", "value": 7})
            self.assertEqual(stays.ask(set_x), reply(True, "c1"), "what nobody else receives")
            self.assertEqual(json.loads(stays.ask(STATUS))["reply"]["joins"], 1, "its joins")
            self.assertEqual(json.loads(stays.ask(SPIN))["reply"]["events"], 0, "what it hears")


class Shared(FrontCases):
    """Several clients that speak for one session."""

    def test_shared(self):
        """Each client receives the answers to its own commands, and all receive calls and warnings. A client apart receives nothing."""
        with self.front(options=TEAM) as (path, _), Client(path) as one, Client(path) as two, Client(path) as apart:
            for client in (one, two):
                self.assertEqual(client.ask(SHARE), SHARED, "whether it is shared")
            self.assertEqual(apart.ask(NEW), reply(1, "c3"), "one that does not share")
            self.assertEqual([one.ask(NEW), two.ask(NEW)], [reply(1, "team"), reply(2, "team")], "their objects")
            self.assertEqual(one.ask(text_of({**CONNECT, "method": "note()"})), reply(1, "team"), "a connection")
            for client, other in ((one, two), (two, one)):
                client.say(PING)
                self.assertEqual([client.hear(), client.hear()], [CALLED, reply(True, "team")], "who asked")
                self.assertEqual(other.hear(), CALLED, "who did not ask")
            two.say("nonsense", '{"do":"jump"}', PING)
            refused = [error("E01", "-"), error("E02", "team")]
            self.assertEqual([two.hear() for _ in range(4)], [*refused, CALLED, reply(True, "team")], "who asked")
            self.assertEqual(one.hear(), CALLED, "who did not ask")
            self.assertEqual(json.loads(one.ask('{"do":"children"}'))["reply"], [1, 2], "the objects of both")
            self.assertEqual(apart.ask(NEW), reply(2, "c3"), "one that does not share, later")

    def test_warnings(self):
        """All receive warnings."""
        bind = text_of({"do": "bind", "object": 1, "property": "x", "to": {"prop": "x"}})
        loop = text_of({"object": 1, "property": "x", "session": "team", "warning": "BindingLoop"})
        with self.front(options=TEAM) as (path, _), Client(path) as one, Client(path) as two:
            self.assertEqual([one.ask(SHARE), two.ask(SHARE)], [SHARED] * 2, "whether it is shared")
            self.assertEqual(one.ask(text_of({"do": "new", "class": "Cell"})), reply(1, "team"), "an object")
            one.say(bind)
            self.assertEqual([one.hear(), one.hear(), two.hear()], [loop, reply(True, "team"), loop], "what they receive")

    def test_stays(self):
        """A shared session stays when all have gone, with what they left in it, and a reset is theirs to ask for."""
        with self.front(options=TEAM) as (path, _):
            for number in (1, 2, 3):
                with Client(path) as client:
                    client.say(SHARE, NEW)
                    self.assertEqual([client.hear(), client.hear()], [SHARED, reply(number, "team")], "its object")
            with Client(path) as client, Client(path) as other:
                client.say(SHARE, '{"do":"reset"}', NEW)
                wanted = [SHARED, reply(True, "team"), reply(1, "team")]
                self.assertEqual([client.hear() for _ in wanted], wanted, "after a reset")
                other.say('{"front":"share","session":"other"}', NEW)
                self.assertEqual([other.hear(), other.hear()], [reply(True, "other"), reply(1, "other")], "another one")

    def test_first_lines(self):
        """What else a first line may be: what asks the front for nothing that there is, is refused and ends the
        connection; commands are no such lines, and neither is what comes later."""
        with self.front(options=TEAM) as (path, _):
            for line, wanted in (
                ('{"front":"share","session":"nobody"}', NOT_SHARED),
                ('{"front":"share","session":"c1"}', NOT_SHARED),
                ('{"front":"share","session":5}', NOT_SHARED),
                ('{"front":"share","session":["team"]}', NOT_SHARED),
                ('{"front":"share"}', NOT_KNOWN),
                ('{"front":"share","session":"team","more":1}', NOT_KNOWN),
                ('{"front":"monitor","session":"team"}', NOT_KNOWN),
                ('{"front":null}', NOT_KNOWN),
            ):
                with self.subTest(line=line), Client(path) as client:
                    client.say("", line, NEW)
                    self.assertEqual(client.until_closed().decode(), f"{wanted}\n", "all that it receives")
            for line in ('{"front":"share","do":"status"}', '["front"]', "front", '{"front":' * 5_000):
                with self.subTest(line=line[:20]), Client(path) as client:
                    code = json.loads(client.ask(line))["error"]
                    self.assertEqual(code, "E01" if line.startswith(("front", '{"front":{')) else "E02", "its code")
                    self.assertEqual(json.loads(client.ask(NEW))["reply"], 1, "its own object")
                    self.assertEqual(json.loads(client.ask(SHARE))["error"], "E02", "a later line")

    def test_nothing_shared(self):
        """Where no session is shared, none can be had."""
        with self.front() as (path, _), Client(path) as client:
            self.assertEqual(client.ask(SHARE), NOT_SHARED, "the session")
            self.assertEqual(client.hear(), "", "the connection")


class Seen(FrontCases):
    """What a second client of a shared session can find out of what the first has made."""

    MADE = (
        {"do": "new", "class": "QObject"},
        {"do": "new", "class": "Probe", "parent": 1},
        {"do": "connect", "sender": 2, "signal": "ping()", "receiver": 2, "method": "note()", "single": True},
        {"do": "connect", "sender": 1, "signal": "destroyed()", "receiver": 2, "method": "late()", "type": "queued"},
        {"do": "block", "object": 2, "on": True},
        {"do": "bind", "object": 2, "property": "objectName", "to": {"prop": "objectName", "of": 1}},
    )
    SINGLE = {"connection": 1, "method": "note()", "receiver": 2, "sender": 2, "signal": "ping()", "single": True, "type": "auto"}
    QUEUED = {"connection": 2, "method": "late()", "receiver": 2, "sender": 1, "signal": "destroyed()", "single": False, "type": "queued"}
    CLASSES = [{"name": "Probe", "super": "QObject", "signals": ["ping()"], "slots": [{"sig": "note()", "body": []}, {"sig": "late()", "body": []}]}]
    DECLARED = {
        "class": "Probe",
        "properties": [{"bindable": True, "class": "QObject", "name": "objectName", "notify": "objectNameChanged(QString)", "type": "QString"}],
        "signals": [
            {"class": "QObject", "signature": "destroyed()", "types": []},
            {"class": "QObject", "signature": "objectNameChanged(QString)", "types": ["QString"]},
            {"class": "Probe", "signature": "ping()", "types": []},
        ],
        "slots": [
            {"class": "QObject", "signature": "deleteLater()", "types": []},
            {"class": "Probe", "signature": "note()", "types": []},
            {"class": "Probe", "signature": "late()", "types": []},
        ],
        "super": "QObject",
    }
    FOUND = (
        (
            {"do": "object", "object": 2},
            {"blocked": True, "children": 0, "class": "Probe", "connectionsFrom": 1, "connectionsTo": 2, "events": 0, "level": 2, "parent": 1},
        ),
        ({"do": "connections"}, [SINGLE, QUEUED]),
        ({"do": "connections", "object": 1}, [QUEUED]),
        ({"do": "describe", "class": "Probe"}, DECLARED),
        ({"do": "parent", "object": 2}, 1),
        ({"do": "findAll", "object": 1, "class": "Probe"}, [2]),
        ({"do": "bindings"}, [{"object": 2, "property": "objectName"}]),
        ({"do": "binding", "object": 2, "property": "objectName"}, {"of": 1, "prop": "objectName"}),
    )

    def classes(self):
        """The path of a class file with the classes that are described."""
        return classes_in(self.room, self.CLASSES)

    def make(self, one, two):
        """Has the first client make objects and connections, once both have asked for the shared session."""
        self.assertEqual([one.ask(SHARE), two.ask(SHARE)], [SHARED] * 2, "whether it is shared")
        for number, command in enumerate(self.MADE):
            self.assertIn('{"reply":', one.ask(text_of(command)), f"command {number}")

    def check_found(self, two):
        """Has the second client ask for them."""
        for command, found in self.FOUND:
            self.assertEqual(two.ask(text_of(command)), reply(found, "team"), command)

    def test_second(self):
        """The second client of a shared session reads what the first has made, and a client of another session does not."""
        with self.front(self.classes(), options=TEAM) as (path, _), Client(path) as one, Client(path) as two, Client(path) as apart:
            self.make(one, two)
            self.check_found(two)
            self.assertEqual(apart.ask('{"do":"object","object":2}'), error("E04", "c3"), "an object of another session")
            self.assertEqual(apart.ask('{"do":"connections"}'), reply([], "c3"), "its own connections")

    def test_second_live(self):
        """So it does where all sessions are live, and no command that only reads is followed by a `spin` of the front."""
        record = Path(self.room, "record")
        options = ("--live", "--record", record, *TEAM)
        with self.front(self.classes(), options=options) as (path, _), Client(path) as one, Client(path) as two:
            self.make(one, two)
            two.ask(STATUS)
            before = record.read_text()
            self.check_found(two)
            two.ask(STATUS)
            time.sleep(0.2)
            given = [json.loads(line)["do"] for line in record.read_text()[len(before) :].splitlines()]
        self.assertEqual(given, [*(command["do"] for command, _ in self.FOUND), "status"], "what the server is given")
