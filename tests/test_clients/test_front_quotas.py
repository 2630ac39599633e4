"""Quotas of a front's clients (docs/LIMITS.md): what a client that exceeds one receives, and that others are served."""

import json
import os
import signal
import socket
import time
from pathlib import Path

from tests.support.lines import text_of

from .fronts import NEW, PATIENCE, STATUS, Client, error, reply
from .grouped import hello, wait_until, write_until
from .limited import LimitedCases, exceeded, refusals_of
from .stand_servers import wait_until_read

UID = os.getuid()
JOIN = {"do": "join", "name": "level", "object": 1, "method": "note()", "types": []}


def join_of(session):
    return text_of({**JOIN, "from": session})


class Files(LimitedCases):
    """The file of `--limits`."""

    def test_faults(self):
        """A fault in the file is one line with the place, and the status 2."""
        for text, place in (
            ("\nover = 'wait'\n", "`over`"),
            ("\n[client]\njoins = -1\n", "`client.joins` at or below line 2"),
            ("\n[clients]\n", "`clients`"),
            ("[uid]\nconnections = 'many'\n", "`uid.connections` at or below line 2"),
            ("\n[uid.1000]\nidle_seconds = 1\n", "`idle_seconds`"),
            ("[uid.anna]\njoins = 1\n", "`anna`"),
            ("[rights]\ndefault = 'allow'\n[[rights.rule]]\nfingerprint = ['ab:cd']\n", "`rights.rule.fingerprint` at or below line"),
            ("[client\n", "line 1"),
            ("\n[rights]\ndefault = 'maybe'\n", "`rights.default` at or below line 2"),
            ("[rights]\ndefault = 'allow'\n[[rights.rule]]\ntoken = 'secret'\n", "`rights.rule.token` at or below line 3"),
            ("[rights]\ndefault = 'allow'\n[[rights.rule]]\njoin = ['a b']\n", "`rights.rule.join` at or below line"),
        ):
            status, said = self.refused(text)
            self.assertEqual((status, said.count("\n")), (2, 1), f"{text!r}: {said}")
            self.assertTrue(said.startswith(f"metad-front: {self.limits}: ") and place in said, said)
        self.assertEqual(self.refused("command_seconds = 5\n"), (2, f"metad-front: {self.limits}: command_seconds needs --workers\n"))

    def test_no_file(self):
        """A file that is not there, and one that is no text."""
        self.limits.write_bytes(b"\xff")
        status, said = self.refused()
        self.assertEqual((status, said), (2, f"metad-front: {self.limits}: it is not UTF-8\n"))
        self.limits.unlink()
        status, said = self.refused()
        self.assertEqual((status, said), (2, f"metad-front: {self.limits} cannot be read: No such file or directory\n"))

    def test_hangup(self):
        """After SIGHUP the file counts as it is then; if it has a fault, the limits stay."""
        self.limits.write_text("[uid]\nconnections = 1\n")
        options = ("--limits", self.limits)
        with self.front(options=options) as (path, process), Client(path) as first:
            self.assertEqual(first.ask(NEW), reply(1, "c1"), "the first")
            with Client(path) as second:
                self.assertEqual(self.closed_lines(second), [exceeded("F11", "uid.connections")], "one more")
            self.limits.write_text("[uid]\nconnections = 0\n")
            process.send_signal(signal.SIGHUP)
            wait_until(self, lambda: any("the limits stay" in line for line in process.log.lines()), "the fault is said")
            with Client(path) as third:
                self.assertEqual(self.closed_lines(third), [exceeded("F11", "uid.connections")], "where the limits stay")
            self.limits.write_text("[uid]\nconnections = 2\n")
            process.send_signal(signal.SIGHUP)
            wait_until(self, lambda: any(line.endswith("is read again") for line in process.log.lines()), "the file is read")
            with Client(path) as fourth:
                self.assertEqual(fourth.ask(NEW), reply(1, "c4"), "with other limits")


class Users(LimitedCases):
    """Quotas of single users."""

    def count_let_in(self, text):
        """How many of four connections the front lets in."""
        with self.limited(text) as (path, _):
            clients = [self.enterContext(Client(path)) for _ in range(4)]
            for client in clients:
                client.offer(NEW)  # one that is refused may be closed already
            told = [client.hear() for client in clients]
            wanted = [reply(1, f"c{at}") for at in range(1, 5)]
            self.assertLessEqual(set(told), {*wanted, exceeded("F11", "uid.connections")}, text)
            return sum(one == other for one, other in zip(told, wanted))

    def test_connections(self):
        """A table of a user replaces single limits for this user alone."""
        for text, count in (
            (f"[uid]\nconnections = 1\n[uid.{UID}]\nconnections = 3\n", 3),
            (f"[uid.{UID}]\nconnections = 2\n[uid]\nconnections = 3\n", 2),
            (f"[uid]\nconnections = 3\n[uid.{UID + 1}]\nconnections = 1\n", 3),
            (f"[uid]\nconnections = 2\n[uid.{UID}]\njoins = 1\n", 2),
            (f"[uid.{UID + 1}]\nconnections = 1\n", 4),
        ):
            self.assertEqual(self.count_let_in(text), count, text)

    def test_others(self):
        """The rate, the joins and the unfinished lines of a user."""
        text = f"over = 'refuse'\n[uid]\njoins = 0\n[uid.{UID}]\njoins = 1\nhalf_line_bytes = 1000\n"
        with self.limited(text + "commands = { per_second = 1, burst = 4 }\n") as (path, _), Client(path) as client:
            told = [client.ask(line) for line in (NEW, join_of("c8"), join_of("c9"))]
            self.assertEqual(told, [reply(1, "c1"), reply(True, "c1"), exceeded("F17", "uid.joins", "c1")], "joins")
            client.say(*[STATUS] * 4)  # at once, since another one is allowed each second
            told = [client.hear() for _ in range(4)]
            self.assertEqual(told[-1], exceeded("F12", "uid.commands", "c1"), "the rate")
            client.link.sendall(b" " * 1_001)
            self.assertEqual(self.closed_lines(client), [exceeded("F14", "uid.half_line_bytes", "c1")], "unfinished lines")

    def test_hangup(self):
        """After SIGHUP a user has what the file gives it then."""
        with self.limited("[uid]\nconnections = 1\n") as (path, process), Client(path) as first:
            self.assertEqual(first.ask(NEW), reply(1, "c1"), "the first")
            self.limits.write_text(f"[uid]\nconnections = 1\n[uid.{UID}]\nconnections = 2\n")
            process.send_signal(signal.SIGHUP)
            wait_until(self, lambda: any(line.endswith("is read again") for line in process.log.lines()), "the file is read")
            with Client(path) as second:
                self.assertEqual(second.ask(NEW), reply(1, "c2"), "the second")


class Rates(LimitedCases):
    """How fast commands and bytes may come."""

    def test_delayed(self):
        """Commands over the rate are delayed: all are answered, in order, and no faster than the file says."""
        with self.limited("[client]\ncommands = { per_second = 50, burst = 5 }\n") as (path, _), Client(path) as client:
            begun = time.monotonic()
            client.say(*[NEW] * 55)
            told = client.rest()
            took = time.monotonic() - begun
            self.assertEqual(told, [reply(number, "c1") for number in range(1, 56)], "all answers")
            self.assertGreaterEqual(took, 0.95, "55 commands, 5 of them at once and 50 in a second")

    def test_refused(self):
        """Commands over the rate are refused where the file says so, in order with the answers to the others."""
        text = "over = 'refuse'\n[client]\ncommands = { per_second = 1, burst = 5 }\n"
        with self.limited(text) as (path, _), Client(path) as client, Client(path) as other:
            client.say(*[NEW] * 20)
            told = client.rest()
            self.assertEqual(told[:5], [reply(number, "c1") for number in range(1, 6)], "those of the burst")
            self.assertEqual(set(told[5:]), {exceeded("F12", "client.commands", "c1")}, "the others")
            self.assertEqual(len(told), 20, "each is answered once")
            self.assertEqual(other.ask(NEW), reply(1, "c2"), "another client")

    def test_of_a_user(self):
        """All clients of a user share a rate, and take turns; a client that connects again has no new burst."""
        with self.limited("[uid]\ncommands = { per_second = 40, burst = 4 }\n") as (path, _):
            begun = time.monotonic()
            for _ in range(4):
                clients = [self.enterContext(Client(path)) for _ in range(4)]
                for client in clients:
                    client.say(*[NEW] * 3)
                for client in clients:
                    self.assertEqual([json.loads(line)["reply"] for line in client.rest()], [1, 2, 3], "each client")
                    client.leave()
            self.assertGreaterEqual(time.monotonic() - begun, 44 / 40 * 0.95, "48 commands and 16 resets, 4 of them at once")

    def test_of_a_group(self):
        """All clients of a group share a rate, and other groups are served meanwhile."""
        with self.limited("[group]\ncommands = { per_second = 20, burst = 2 }\n", "--workers", "2") as (path, _):
            one, two, other = (self.enterContext(Client(path)) for _ in range(3))
            names = [json.loads(it.ask(hello("desk")))["session"] for it in (one, two)]
            begun = time.monotonic()
            one.say(*[NEW] * 11), two.say(*[NEW] * 11)
            self.assertEqual(other.ask(NEW), reply(1, "c3"), "another group")
            for client, name in zip((one, two), names):
                self.assertEqual(client.rest(), [reply(number, name) for number in range(1, 12)], name)
            self.assertGreaterEqual(time.monotonic() - begun, 0.95, "22 commands, 2 of them at once")

    def test_bytes(self):
        """Bytes over the rate are delayed, also those of blank lines."""
        with self.limited("[client]\ninput_bytes = { per_second = 40000, burst = 4000 }\n") as (path, _), Client(path) as client:
            begun = time.monotonic()
            client.link.sendall(b" " * 43_999 + b"\n" + f"{NEW}\n".encode())
            self.assertEqual(client.hear(), reply(1, "c1"), "what comes after them")
            self.assertGreaterEqual(time.monotonic() - begun, 0.5, "44,000 bytes; 4,000 of them and a piece come at once")


class Bounds(LimitedCases):
    """How much clients may have and hold."""

    def test_half_lines(self):
        """A line that is long and does not end, and one that does not end in time: the earlier commands are answered first."""
        text = "[client]\nhalf_line_bytes = 1000\nhalf_line_seconds = 1\n"
        with self.limited(text) as (path, _):
            with Client(path) as client:
                client.link.sendall(f"{NEW}\n{NEW}\n".encode() + b" " * 1_001)
                wanted = [reply(1, "c1"), reply(2, "c1"), exceeded("F14", "client.half_line_bytes", "c1")]
                self.assertEqual(self.closed_lines(client), wanted, "a long one")
            with Client(path) as client:
                client.link.sendall(f'{NEW}\n{{"do":'.encode())
                wanted = [reply(1, "c2"), exceeded("F14", "client.half_line_seconds", "c2")]
                self.assertEqual(self.closed_lines(client), wanted, "one that does not end")
        with self.limited(text.replace("seconds = 1", "seconds = 60")) as (path, _), Client(path) as client:
            client.link.sendall(NEW.encode())
            wait_until_read(self, client.link)
            client.link.sendall(b"\n")
            self.assertEqual(client.hear(), reply(1, "c1"), "one that ends in time")

    def test_half_lines_that_wait(self):
        """The time in which the front does not read a client is no time of its unfinished line."""
        text = "[client]\nhalf_line_seconds = 1\ncommands = { per_second = 2, burst = 1 }\n"
        with self.limited(text) as (path, _), Client(path) as client:
            client.link.sendall(f"{NEW}\n{NEW}\n{NEW}\n{NEW}\n{NEW}".encode())
            wanted = [*(reply(at, "c1") for at in range(1, 5)), exceeded("F14", "client.half_line_seconds", "c1")]
            self.assertEqual(self.closed_lines(client), wanted, "four lines in 1.5 seconds, and the half one a second later")
        text = "[client]\nhalf_line_seconds = 1\ninput_bytes = { per_second = 20000, burst = 16384 }\n"
        with self.limited(text) as (path, _), Client(path) as client:
            client.link.sendall(b" " * 65_000 + f"\n{NEW}\n".encode())
            self.assertEqual(client.hear(), reply(1, "c1"), "a line that is read in three seconds")

    def test_half_lines_of_a_user(self):
        """The unfinished lines of all clients of a user count together."""
        with self.limited("[uid]\nhalf_line_bytes = 10000\n") as (path, _):
            clients = [self.enterContext(Client(path)) for _ in range(4)]
            for at, client in enumerate(clients, 1):
                self.assertEqual(client.name(), f"c{at}", "its name")
                client.link.sendall(b" " * 3_000)
            self.assertEqual(self.closed_lines(clients[3]), [exceeded("F14", "uid.half_line_bytes", "c4")], "the last one")
            clients[0].link.sendall(f"{NEW}\n".encode())
            self.assertEqual(clients[0].hear(), reply(1, "c1"), "the first one")

    def test_idle(self):
        """A client that neither writes nor receives anything is closed; one that only receives is not."""
        with self.limited("[client]\nidle_seconds = 1\n", "--share", "team") as (path, _):
            with Client(path) as idle, Client(path) as busy, Client(path) as hears:
                for client in (busy, hears):
                    client.ask('{"front":"share","session":"team"}')
                self.assertEqual(busy.ask('{"class":"Probe","do":"new"}'), reply(1, "team"), "an object")
                begun = time.monotonic()
                while time.monotonic() < begun + 2:
                    busy.say('{"do":"invoke","object":1,"method":"note()","args":[]}')
                    self.assertTrue(busy.hear() and busy.hear() and hears.hear(), "a call")
                    time.sleep(0.1)
                self.assertEqual(self.closed_lines(idle), [exceeded("F15", "client.idle_seconds", "c1")], "who does nothing")

    def test_connections(self):
        """A user's connections: one too many is refused and closed, and comes in once another has gone."""
        with self.limited("[uid]\nconnections = 2\n") as (path, _), Client(path) as one, Client(path) as two:
            self.assertEqual([it.ask(NEW) for it in (one, two)], [reply(1, "c1"), reply(1, "c2")], "those that may")
            with Client(path) as three:
                self.assertEqual(self.closed_lines(three), [exceeded("F11", "uid.connections")], "one too many")
            one.leave()

            def comes_in():
                with Client(path) as again:
                    try:
                        return "reply" in again.ask(NEW)
                    except OSError:  # it was refused and closed before it said anything
                        return False

            wait_until(self, comes_in, "another one comes in")

    def test_group_connections_and_sessions(self):
        """The clients and sessions of a group."""
        for key, code in (("connections", "F11"), ("sessions", "F16")):
            with self.limited(f"[group]\n{key} = 2\n", "--workers", "2") as (path, _):
                inside = [self.enterContext(Client(path)) for _ in range(2)]
                self.assertEqual([it.ask(hello("desk")) for it in inside], [reply(True, f"desk__c{at}") for at in (1, 2)], key)
                with Client(path) as more:
                    more.say(hello("desk"), NEW)
                    self.assertEqual(self.closed_lines(more), [exceeded(code, f"group.{key}")], key)
                with Client(path) as other:
                    self.assertEqual(other.ask(hello("lamp")), reply(True, "lamp__c4"), "another group")
                self.assertEqual(inside[0].ask(NEW), reply(1, "desk__c1"), "a client of the group")

    def test_sessions_that_are_named(self):
        """The sessions that a client names: a command for one too many is refused, and the others are done."""
        options = ("--workers", "2", "--group-from", "name")
        for key in ("client", "uid"):
            with self.limited(f"[{key}]\nsessions = 3\n", *options) as (path, _), Client(path) as client:
                for name in ("desk__a", "desk__b", "lamp", "desk__c", "moon", "lamp"):
                    answer = client.ask(f'{{"class":"Probe","do":"new","session":"{name}"}}')
                    is_refused = name in ("desk__c", "moon")
                    wanted = exceeded("F16", f"{key}.sessions", name) if is_refused else None
                    self.assertEqual(answer if is_refused else wanted, wanted, name)
                    if not is_refused:
                        self.assertEqual(json.loads(answer)["session"], name, answer)

    def test_joins(self):
        """Joins: one too many is refused, those that fail do not count, and `leave` and `reset` make room."""
        with self.limited("[client]\njoins = 2\n") as (path, _), Client(path) as client:
            self.assertEqual(client.ask(join_of("c9")), error("E04", "c1"), "one without an object")
            self.assertEqual(client.ask(NEW), reply(1, "c1"), "an object")
            one_too_many = exceeded("F17", "client.joins", "c1")
            client.say(*[join_of(name) for name in ("c7", "c8", "c9")], STATUS)
            told = [client.hear() for _ in range(3)]
            self.assertEqual(told, [reply(True, "c1"), reply(True, "c1"), one_too_many], "three joins")
            self.assertEqual(json.loads(client.hear())["reply"]["joins"], 2, "what the server has")
            leave = {key: JOIN[key] for key in ("name", "object", "method")}
            self.assertEqual(client.ask(text_of({"do": "leave", "from": "c7", **leave})), reply(True, "c1"), "one less")
            self.assertEqual([client.ask(join_of(name)) for name in ("c9", "c7")], [reply(True, "c1"), one_too_many], "then")
            self.assertEqual([client.ask(line) for line in ('{"do":"reset"}', NEW)], [reply(True, "c1"), reply(1, "c1")], "a reset")
            self.assertEqual([client.ask(join_of(name)) for name in ("c8", "c7")], [reply(True, "c1")] * 2, "after it")

    def test_joins_are_not_allowed(self):
        """With 0 joins nobody listens to anybody."""
        with self.limited("[uid]\njoins = 0\n") as (path, _), Client(path) as client:
            client.say(NEW, join_of("c9"))
            self.assertEqual([client.hear(), client.hear()], [reply(1, "c1"), exceeded("F17", "uid.joins", "c1")], "a join")

    def test_unread(self):
        """A client that does not read is closed after a last line that says why, and others are served."""
        metrics = Path(self.room, "metrics")
        for key in ("client", "uid"):
            text, options = f"[{key}]\nunread_bytes = 50000\n", ("--metrics", metrics)
            with self.limited(text, *options) as (path, _), Client(path) as slow, Client(path) as other:
                slow.link.setsockopt(socket.SOL_SOCKET, socket.SO_RCVBUF, 4_096)
                is_refused = lambda: other.ask(NEW) and refusals_of(metrics, "F13") == 1
                write_until(self, slow.link, b'{"do":"classes"}\n' * 100, is_refused, "the limit is enforced")
                self.check_cut(slow, key)
                told = other.name()
                self.assertEqual(told, "c2", "the other one")

    def check_cut(self, slow, key):
        """The last line of a client says that it has left too much unread; all lines before it are whole."""
        slow.link.settimeout(PATIENCE)
        told = self.closed_lines(slow)
        self.assertEqual(told[-1], exceeded("F13", f"{key}.unread_bytes", "c1"), "the last line")
        for line in told[:-1]:
            json.loads(line)
