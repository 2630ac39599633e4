"""Rights of a front's clients, by user, group of users and token (docs/LIMITS.md). Who may not hear a name cannot learn
whether somebody has it."""

import json
import os
from hashlib import blake2b
from pathlib import Path

from tests.support.lines import text_of

from .fronts import NEW, STATUS, Client, error, reply
from .grouped import hello
from .limited import LimitedCases

UID, GID = os.getuid(), os.getgid()
TOKEN, OTHER = "a token that nobody can guess", "another one that nobody can guess"
NO_RIGHT, NOT_KNOWN, NOT_SHARED, NO_GROUP = (error(code, "-") for code in ("F20", "F01", "F02", "F03"))
PUBLISH = '{"do":"publish","name":"level","object":1,"signal":"xChanged(int)"}'
SET = '{"do":"set","object":1,"property":"x","value":7}'
CELL = '{"class":"Cell","do":"new"}'


def hash_of(token):
    return blake2b(token.encode(), digest_size=32).hexdigest()


def rules(default, *found):
    """A file with these rules."""
    return f"[rights]\ndefault = '{default}'\n" + "".join(f"[[rights.rule]]\n{rule}\n" for rule in found)


def share(session, **more):
    return text_of({"front": "share", "session": session, **more})


def join(session):
    return text_of({"do": "join", "from": session, "name": "level", "types": ["int"], "object": 1, "method": "seen(int)"})


def leave(session):
    return text_of({"do": "leave", "from": session, "name": "level", "object": 1, "method": "seen(int)"})


class Entry(LimitedCases):
    """Who may connect."""

    def test_users(self):
        """A user, and a group of users, that may connect and that may not."""
        for text, may in (
            (rules("refuse"), False),
            (rules("allow"), True),
            (rules("refuse", f"uid = [{UID}]\nconnect = true"), True),
            (rules("refuse", f"gid = [{GID}]\nconnect = true"), True),
            (rules("refuse", f"uid = [{UID + 1}]\nconnect = true"), False),
            (rules("refuse", f"uid = [{UID}]\ngid = [{GID + 1}]\nconnect = true"), False),
            (rules("allow", f"uid = [{UID}]\nconnect = false", "connect = true"), False),
            (rules("refuse", f"uid = [{UID}]\nhello = true", "connect = true"), True),
        ):
            with self.limited(text) as (path, _), Client(path) as client:
                if may:
                    self.assertEqual(client.ask(NEW), reply(1, "c1"), text)
                else:
                    self.assertEqual(self.closed_lines(client), [NO_RIGHT], text)

    def test_tokens(self):
        """A token in the first line lets a client in; a wrong one, a short one and none do not."""
        text = rules("refuse", f"token = '{hash_of(TOKEN)}'\nconnect = true\nhello = true", f"token = '{hash_of('short')}'\nconnect = true")
        with self.limited(text, "--workers", "2") as (path, _):
            for more, name in (({}, "c1"), ({"group": "desk"}, "desk__c2"), ({"live": True}, "c3")):
                with Client(path) as client:
                    answer = json.loads(client.ask(text_of({"front": "hello", "token": TOKEN, **more})))
                    self.assertEqual((answer["reply"], answer["session"]), (True, name), more)
                    self.assertEqual(client.ask(NEW), reply(1, name), more)
            for line in (
                text_of({"front": "hello", "token": OTHER}),
                text_of({"front": "hello", "token": "short"}),
                text_of({"front": "hello", "token": 5}),
                text_of({"front": "hello", "token": hash_of(TOKEN)}),
                text_of({"front": "hello", "group": "desk"}),
                NEW,
            ):
                with Client(path) as client:
                    client.say(line, NEW)
                    self.assertEqual(self.closed_lines(client), [NO_RIGHT], line)

    def test_no_token(self):
        """A client that says nothing is closed after a time; without rights a token is no request."""
        with self.limited(rules("refuse", f"token = '{hash_of(TOKEN)}'\nconnect = true")) as (path, _), Client(path) as client:
            self.assertEqual(self.closed_lines(client), [NO_RIGHT], "a client that waits")
        with self.limited("") as (path, _), Client(path) as client:
            client.say(text_of({"front": "hello", "token": TOKEN}))
            self.assertEqual(self.closed_lines(client), [NOT_KNOWN], "without rights")

    def test_names(self):
        """With --group-from name a token comes first too, and `hello` says which sessions a client may name: any other is
        answered as one that is no name."""
        text = rules("refuse", f"token = '{hash_of(TOKEN)}'\nconnect = true\nhello = ['desk', 'a__b']")
        with self.limited(text, "--workers", "2", "--group-from", "name") as (path, _), Client(path) as client:
            self.assertEqual(client.ask(text_of({"front": "hello", "token": TOKEN})), reply(True, "-"), "its first line")
            for name, wanted in (("desk", 1), ("desk__a", 1), ("a__b", 1), ("a", None), ("a__c", None), ("a b", None)):
                answer = client.ask(text_of({"do": "new", "class": "Probe", "session": name}))
                self.assertEqual(answer, error("E02", "-") if wanted is None else reply(1, name), name)


class Requests(LimitedCases):
    """What clients may ask for."""

    def test_hello_and_share(self):
        """A name that a client may not use is refused like an invalid one."""
        text = rules("refuse", f"uid = [{UID}]\nconnect = true\nhello = ['desk', 'ha*']\nshare = ['desk__team']")
        options = ("--workers", "2", "--share", "desk__team", "--share", "lamp__team")
        with self.limited(text, *options) as (path, _):
            for line, answer in (
                (hello("desk"), reply(True, "desk__c1")),
                (hello("hall"), reply(True, "hall__c2")),
                (hello("lamp"), NO_GROUP),
                (hello("no group"), NO_GROUP),
                (share("desk__team"), reply(True, "desk__team")),
                (share("lamp__team"), NOT_SHARED),
                (share("nobody"), NOT_SHARED),
            ):
                with Client(path) as client:
                    self.assertEqual(client.ask(line), answer, line)

    def test_joins(self):
        """A session that a client may not join is answered, byte for byte, like one that is not there, and is not heard; one
        that it may join is heard. This is so for `leave` too, and for words that are spelled in odd ways."""
        text = rules("allow", f"uid = [{UID}]\njoin = ['c1', 'nobody']")
        with self.limited(text) as (path, _):
            one, two, guest = (self.enterContext(Client(path)) for _ in range(3))
            for client in (one, two, guest):
                client.ask(CELL)
            for client in (one, two):
                self.assertIn("reply", client.ask(PUBLISH), "a publication")
            odd = join("c2").replace('"join"', '"jo\\u0069n"').replace('"c2"', '"\\u0063\\u0032"')
            answers = [guest.ask(line) for line in (join("c1"), join("c2"), join("nobody"), join("nobody_else"), odd)]
            self.assertEqual(answers, [reply(True, "c3")] * 5, "all answers")
            for client in (two, one):
                client.ask(SET)
            told = [guest.ask('{"do":"spin"}'), guest.hear()]
            self.assertEqual(json.loads(told[0])["args"], [7], "what is heard")
            self.assertEqual(json.loads(told[1])["reply"]["events"], 1, "how often")
            for name, had in (("c2", True), ("nobody", True), ("nobody_else", True), ("c2", False), ("c9", False)):
                self.assertEqual(guest.ask(leave(name)), reply(had, "c3"), f"leaving {name}")

    def test_joins_of_the_own_group(self):
        """`@group` stands for the sessions of the client's own group."""
        text = rules("refuse", "connect = true\nhello = true\njoin = ['@group']")
        with self.limited(text, "--workers", "1") as (path, _), Client(path) as host, Client(path) as guest:
            names = [json.loads(it.ask(hello("desk")))["session"] for it in (host, guest)]
            for client in (host, guest):
                client.ask(CELL)
            host.ask(PUBLISH)
            self.assertEqual(guest.ask(join(names[0])), reply(True, names[1]), "a join")
            host.ask(SET)
            self.assertEqual(json.loads(guest.ask('{"do":"spin"}'))["args"], [7], "what is heard")

    def test_joins_of_who_has_gone(self):
        """A client that disconnects at once joins nothing more than one that stays."""
        text = rules("allow", "join = false")
        with self.limited(text, "--share", "team") as (path, _), Client(path) as host:
            host.ask(CELL), host.ask(PUBLISH)
            with Client(path) as guest:
                guest.say(share("team"), CELL, *[join("c1")] * 50)
                guest.leave()
            with Client(path) as member:
                self.assertEqual(member.ask(share("team")), reply(True, "team"), "another member")
                member.ask(STATUS)
                host.ask(SET)
                self.assertEqual(json.loads(member.ask('{"do":"spin"}'))["reply"]["events"], 0, "what it hears")


class Guests(LimitedCases):
    """Monitors and operators."""

    def monitored(self, text):
        """A front with these rights whose monitors' socket the test uses."""
        return self.limited(text, "--monitor", Path(self.room, "monitors"))

    def monitor(self):
        return Client(Path(self.room, "monitors"))

    def test_monitors(self):
        """Who may monitor nothing is refused. Who may monitor some sessions receives nothing of others, whose names are
        answered like those of nobody."""
        with self.monitored(rules("refuse", "connect = true")) as _, self.monitor() as monitor:
            self.assertEqual(self.closed_lines(monitor), [NO_RIGHT], "no right")
        with self.monitored(rules("refuse", "connect = true\nmonitor = ['c2']")) as (path, _):
            one, two = (self.enterContext(Client(path)) for _ in range(2))
            monitors = {name: self.enterContext(self.monitor()) for name in ("c1", "c2", "nobody", "")}
            for name in ("c1", "c2", "nobody"):
                line = text_of({"front": "monitor", "session": name})
                self.assertEqual(monitors[name].ask(line), line, name)
            self.assertEqual([one.ask(NEW), two.ask(NEW)], [reply(1, "c1"), reply(1, "c2")], "the clients")
            self.assertEqual(monitors["c2"].hear(), reply(1, "c2"), "what may be heard")
            for name in ("c1", "nobody", ""):
                monitors[name].link.settimeout(0.3)
                with self.assertRaises(TimeoutError, msg=name):
                    monitors[name].hear()

    def test_monitors_with_a_token(self):
        """A monitor gives its token in its first line, for one session or for all."""
        with self.monitored(rules("refuse", "connect = true", f"token = '{hash_of(TOKEN)}'\nmonitor = true")) as (path, _):
            with Client(path) as client, self.monitor() as one, self.monitor() as every, self.monitor() as none:
                for monitor, more in ((one, {"session": "c1"}), (every, {})):
                    answer = monitor.ask(text_of({"front": "monitor", "token": TOKEN, **more}))
                    self.assertEqual(answer, text_of({"front": "monitor", **more}), "the answer, without the token")
                none.ask(text_of({"front": "monitor", "token": OTHER, "session": "c1"}))
                self.assertEqual(client.ask(NEW), reply(1, "c1"), "a client")
                self.assertEqual([one.hear(), every.hear()], [reply(1, "c1")] * 2, "what is heard")
                none.link.settimeout(0.3)
                with self.assertRaises(TimeoutError):
                    none.hear()

    def test_operators(self):
        """Who may control the front, by user and by token."""
        for text, more, may in (
            (rules("refuse"), {}, False),
            (rules("refuse", f"uid = [{UID}]\ncontrol = true"), {}, True),
            (rules("refuse", f"token = '{hash_of(TOKEN)}'\ncontrol = true"), {"token": TOKEN}, True),
            (rules("refuse", f"token = '{hash_of(TOKEN)}'\ncontrol = true"), {"token": OTHER}, False),
        ):
            with self.limited(text, "--workers", "1", "--control", self.control_path):
                answer = self.ask_front(front="groups", **more)
                self.assertEqual(answer.get("error"), None if may else "F20", text)
