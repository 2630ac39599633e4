"""Attacks on a front with limits: what the attacker receives, and that others wait at most 5 times as long as alone and lose
nothing (docs/LIMITS.md)."""

import json
import multiprocessing
import threading
from contextlib import contextmanager
from pathlib import Path

from tests.support.lines import text_of

from .fronts import NEW, PATIENCE, STATUS, Client, error, reply
from .grouped import hello, write_until
from .limited import LimitedCases, exceeded, refusals_of
from .test_front_health import ALIVE, GET

FORKS = multiprocessing.get_context("fork")
LIMITS = """\
front_memory = 64000000
command_seconds = 20
[client]
commands = { per_second = 300, burst = 300 }
input_bytes = { per_second = 200000, burst = 200000 }
unread_bytes = 60000
half_line_bytes = 8192
half_line_seconds = 1
joins = 10
[uid]
connections = 100
[rights]
default = "allow"
[[rights.rule]]
join = ["c1"]
share = ["team"]
"""
HARMLESS = LIMITS.replace("300, burst = 300", "100000").replace("200000, burst = 200000", "100000000")  # for who is not delayed
FLOOD = f"{STATUS}\n".encode() * 500
CELL = '{"class":"Cell","do":"new"}'
RING = 40  # cells of a chain; each sends its signal twice to the next: more calls than anybody can wait for


def chain():
    """Commands that make such a chain, and the line that starts it."""
    yield from [CELL] * RING
    for at in range(1, RING):
        relay = {"do": "connect", "sender": at, "signal": "xChanged(int)", "receiver": at + 1, "method": "xChanged(int)"}
        yield from [text_of(relay)] * 2


class Attacks(LimitedCases):
    """Each attack, next to a client that means well."""

    def attacked(self, text, attack, what, *options, words=()):
        """Checks how long others wait while another process repeats an attack; returns what the attacks have returned."""
        with self.limited(text, "--workers", "2", *options, words=words) as (path, _):
            ended, (near, far) = FORKS.Event(), FORKS.Pipe(duplex=False)

            def repeat():
                found = []
                while not (found and ended.is_set()):
                    found.append(attack(path, ended))
                far.send(found)

            @contextmanager
            def under_attack():
                process = FORKS.Process(target=repeat)
                process.start()
                try:
                    yield
                finally:
                    ended.set()
                self.assertTrue(near.poll(60), "the attack ends")
                found.extend(near.recv())
                process.join()

            found = []
            self.check_wait(path, under_attack, what)
            return found

    def flooded(self, path, ended, data=FLOOD):
        """Writes as much as the front takes, and reads what comes; returns the last lines."""
        with Client(path) as client:
            client.link.setblocking(False)
            told, rest = b"", data
            while not ended.is_set():
                try:
                    rest = rest[client.link.send(rest) :] or data
                except BlockingIOError:
                    ended.wait(0.002)
                try:
                    piece = client.link.recv(1 << 20)
                    told = (told + piece)[-10_000:]
                    if not piece:
                        break
                except BlockingIOError:
                    pass
            return told.decode().splitlines()[-2:]

    def test_flood(self):
        """A flood of commands is delayed: the attacker receives right answers, only fewer."""
        found = self.attacked(LIMITS, self.flooded, "a flood")
        self.assertTrue(all(line.startswith('{"reply":') for line in found[0][:-1]), found[0])

    def test_blank_lines(self):
        """A flood of blank lines is not read faster than others write."""
        self.attacked(LIMITS, lambda path, ended: self.flooded(path, ended, b"\n" * 10_000), "blank lines")

    def test_half_lines(self):
        """Lines that do not end: their clients are closed after a line that says so."""

        def attack(path, ended):
            with Client(path) as long, Client(path) as late:
                long.link.sendall(b'{"do":"' + b"x" * 9_000)
                late.link.sendall(b'{"do":"')
                return self.closed_lines(long), self.closed_lines(late)

        for long, late in self.attacked(HARMLESS, attack, "half lines"):
            self.assertEqual(exceeded("F14", "client.half_line_bytes", json.loads(long[0])["session"]), *long)
            self.assertEqual(exceeded("F14", "client.half_line_seconds", json.loads(late[0])["session"]), *late)

    def test_slow_reader(self):
        """A client that does not read is closed after a line that says so."""

        metrics = Path(self.room, "metrics")

        def attack(path, ended):
            with Client(path) as client:
                before = refusals_of(metrics, "F13")
                write_until(self, client.link, b'{"do":"classes"}\n' * 100, lambda: refusals_of(metrics, "F13") > before, "it is closed")
                client.link.settimeout(PATIENCE)
                return self.closed_lines(client)

        ends = [lines[-1] for lines in self.attacked(HARMLESS, attack, "a slow reader", "--metrics", metrics)]
        self.assertTrue(any('"F13","limit":"client.unread_bytes"' in end for end in ends), ends)

    def test_memory(self):
        """A session that fills the server's memory fails; the server and other sessions go on."""
        value = "x" * 1_000

        def attack(path, ended):
            with Client(path) as client:
                name = json.loads(client.ask(hello("full")))["session"]
                for number in range(1, 400):
                    lines = [text_of({"do": "set", "object": number, "property": f"p{at}", "value": value}) for at in range(60)]
                    client.say(NEW, *lines)
                    codes = [json.loads(client.hear()).get("error") for _ in range(61)]
                    if any(codes):
                        return name, [code for code in codes if code][:1], client.ask(NEW)
                return name, [], ""

        found = self.attacked(HARMLESS, attack, "memory", "--server-memory", str(16 << 20))
        for name, codes, then in found:
            self.assertEqual((codes, then), (["E21"], error("E20", name)), "what the attacker receives")

    def test_long_loop(self):
        """A line that would call for hours ends after the turns that the server gives a command."""

        def attack(path, ended):
            with Client(path) as client:
                client.say(*chain())
                for _ in range(RING + 2 * (RING - 1)):
                    client.hear()
                return client.ask('{"do":"set","object":1,"property":"x","value":1}')

        found = self.attacked(HARMLESS, attack, "a long loop", words=("--turns", "100"))
        self.assertTrue(all('"warning":"E23"' in line or "E23" in line for line in found), found[:3])

    def test_guesses(self):
        """Guesses of names are answered alike, whether or not the names exist, and nothing is heard."""

        def attack(path, ended):
            answers = {"join": set(), "share": set()}
            for name in ("team", "hidden", "nobody", "c1", "c2"):
                with Client(path) as client:
                    answers["share"].add((name == "team", client.ask(text_of({"front": "share", "session": name}))))
            with Client(path) as client:
                client.ask(CELL)
                name = client.name()
                for at in range(1, 9):
                    line = {"do": "join", "from": f"c{at}", "name": "level", "types": ["int"], "object": 1, "method": "seen(int)"}
                    answers["join"].add(client.ask(text_of(line)).replace(name, ""))
            return answers

        wanted = {"share": {(True, reply(True, "team")), (False, error("F02", "-"))}, "join": {reply(True, "")}}
        for answers in self.attacked(HARMLESS, attack, "guesses", "--share", "team", "--share", "hidden"):
            self.assertEqual(answers, wanted, "what is answered")

    def test_health_check(self):
        """The health check answers while its socket is flooded and clients do all that they may."""
        place = Path(self.room, "health")
        with self.limited(LIMITS, "--workers", "2", "--health", place) as (path, _):
            ended = threading.Event()
            flood = threading.Thread(target=self.flooded, args=(path, ended))
            flood.start()
            idle = [self.enterContext(Client(place)) for _ in range(6)]
            try:
                for _ in range(20):
                    with Client(place) as check:
                        check.link.sendall(GET.encode())
                        self.assertEqual(check.until_closed().decode(), ALIVE, "the check")
            finally:
                ended.set()
                flood.join()
            self.assertTrue(idle)

    def test_connections(self):
        """More connections than a user may have: each is refused by a line, and those that are there are served."""

        def attack(path, ended):
            links = [Client(path) for _ in range(100)]
            told = self.closed_lines(links[-1])
            for link in links:
                link.leave()
            return told

        with self.limited(LIMITS, "--workers", "1") as (path, _), Client(path) as honest:
            self.assertEqual(honest.ask(NEW), reply(1, "c1"), "who is there")
            for at in range(2, 6):
                self.assertEqual(attack(path, None), [exceeded("F11", "uid.connections")], "one too many")
                self.assertEqual(honest.ask(NEW), reply(at, "c1"), "who is there")
