"""Commands that take too long, and the memory of servers and of the front (docs/LIMITS.md)."""

import json
import select
import sys
import time
from pathlib import Path

from tests.support.lines import text_of

from .fronts import NEW, PATIENCE, Client, error, reply
from .grouped import hello, worker_of
from .limited import LimitedCases, exceeded

COUNTS = """\
import sys, time
counts = {}
for line in sys.stdin:
    name = line.split('"session":"')[1].split('"')[0]
    if "long" in line:
        print('{"args":[],"call":"begun()","object":1,"sender":0,"session":"%s"}' % name, flush=True)
        time.sleep(3600)
    counts[name] = counts.get(name, 0) + 1
    print('{"reply":%d,"session":"%s"}' % (counts[name], name), flush=True)
"""  # a server that counts the commands of each session, and never ends one of them
LONG_ANSWERS = """\
import sys
for line in sys.stdin:
    print('{"reply":"%s","session":"%s"}' % ("x" * 60000, line.split('"session":"')[1].split('"')[0]), flush=True)
"""
SERVER = [sys.executable, "-c", COUNTS]
ONE, LONG = '{"do":"one"}', '{"do":"long"}'
SECOND = "command_seconds = 1\n"
TOO_LONG = "command_seconds"
MEMORY = 32 << 20
TEXT, WORDS = "x" * 60_000, "x" * 1_000


def begun(name):
    return text_of({"args": [], "call": "begun()", "object": 1, "sender": 0, "session": name})


class Deadlines(LimitedCases):
    """Commands that take too long."""

    def slow(self, *options, count="1"):
        return self.limited(SECOND, "--workers", count, *options, server=SERVER)

    def entered(self, path, group):
        """A client of a group, and the name of its session."""
        client = self.enterContext(Client(path))
        return client, json.loads(client.ask(hello(group)))["session"]

    def test_recorded(self):
        """With a record, the command is answered by an error, and all others of the worker continue as if it had never been
        given: those of its client, of its group and of other groups."""
        records = Path(self.room, "records")
        with self.slow("--record", str(records)) as (path, process):
            one, two, other = (self.entered(path, group) for group in ("desk", "desk", "lamp"))
            for client, name in (one, two, other):
                self.assertEqual(client.ask(ONE), reply(1, name), "before")
            one[0].say(ONE, LONG, ONE, ONE)
            self.assertEqual([one[0].hear(), one[0].hear()], [reply(2, one[1]), begun(one[1])], "what comes at once")
            for client, _ in (two, other):
                client.say(ONE, ONE)
            wanted = [exceeded("F18", TOO_LONG, one[1]), reply(3, one[1]), reply(4, one[1])]
            self.assertEqual([one[0].hear() for _ in range(3)], wanted, "its own")
            for client, name in (two, other):
                self.assertEqual([client.hear(), client.hear()], [reply(2, name), reply(3, name)], name)
            self.assertIn("metad-front: worker 1: a command has taken 1 seconds, and the server is ended", process.log.lines())
            recorded = Path(records, "desk.lines").read_text()
            self.assertEqual((recorded.count('"one"'), "long" in recorded, "begun" in recorded), (7, False, False), recorded)

    def test_twice(self):
        """A client that gives such commands one after another has each answered by an error; nothing is lost."""
        with self.slow("--record", str(Path(self.room, "records"))) as (path, _):
            one, other = (self.entered(path, group) for group in ("desk", "lamp"))
            one[0].say(ONE, LONG, ONE, LONG, ONE)
            other[0].say(*[ONE] * 5)
            long = [begun(one[1]), exceeded("F18", TOO_LONG, one[1])]
            wanted = [reply(1, one[1]), *long, reply(2, one[1]), *long, reply(3, one[1])]
            self.assertEqual([one[0].hear() for _ in wanted], wanted, "its own")
            self.assertEqual([other[0].hear() for _ in range(5)], [reply(at, other[1]) for at in range(1, 6)], "another one")

    def test_not_recorded(self):
        """Without a record, its worker's clients are disconnected; those of another worker notice nothing."""
        far = next(it for it in ("lamp", "moon", "sun", "torch", "candle") if worker_of(it, 2) != worker_of("desk", 2))
        with self.slow(count="2") as (path, _):
            one, two, other = (self.entered(path, group) for group in ("desk", "desk", far))
            for client, name in (two, other):
                self.assertEqual(client.ask(ONE), reply(1, name), "before")
            one[0].say(LONG, ONE)
            wanted = [begun(one[1]), exceeded("F18", TOO_LONG, one[1]), error("F04", one[1])]
            self.assertEqual(self.closed_lines(one[0]), wanted, "its client")
            self.assertEqual(self.closed_lines(two[0]), [error("F04", two[1])], "its group")
            self.assertEqual(other[0].ask(ONE), reply(2, other[1]), "another worker")

    def test_gone(self):
        """A command is ended too if its client has disconnected, and no later client has to do with it."""
        with self.slow("--record", str(Path(self.room, "records"))) as (path, process):
            other = self.entered(path, "lamp")
            with Client(path) as client:
                client.say(hello("desk"), LONG)
                self.assertIn("reply", client.hear(), "its name")
                self.assertIn("begun", client.hear(), "the call")
            self.assertEqual(other[0].ask(ONE), reply(1, other[1]), "another one")
            late = self.entered(path, "desk")
            self.assertEqual(late[0].ask(ONE), reply(1, late[1]), "a later one")

    def test_waiting(self):
        """Time in which a command waits for others does not count, and short commands may come for as long as they like."""
        slowly = COUNTS.replace("    counts[name] =", "    time.sleep(0.3)\n    counts[name] =", 1)
        with self.limited("command_seconds = 3\n", "--workers", "1", server=[sys.executable, "-c", slowly]) as (path, _):
            one, two = (self.entered(path, group) for group in ("desk", "lamp"))
            for client, _ in (one, two):
                client.say(*[ONE] * 12)  # 3.6 seconds of its own, and 7.2 with the other's
            for client, name in (one, two):
                self.assertEqual([client.hear() for _ in range(12)], [reply(at, name) for at in range(1, 13)], name)


class Memory(LimitedCases):
    """The memory of servers and of the front."""

    def fill(self, client):
        """Fills the memory of a session's server; returns the codes of the errors that come."""
        codes = []
        for number in range(1, 2_000):
            client.say(NEW, *[text_of({"do": "set", "object": number, "property": f"p{at}", "value": WORDS}) for at in range(60)])
            told = [json.loads(client.hear()) for _ in range(61)]
            codes = [it["error"] for it in told if "error" in it]
            if codes:
                break
        return codes

    def test_server(self):
        """A session that fills a server's memory fails, and is answered so until its reset; the server goes on, and another
        worker notices nothing."""
        far = next(it for it in ("lamp", "moon", "sun", "torch", "candle") if worker_of(it, 2) != worker_of("desk", 2))
        with self.limited("", "--workers", "2", "--server-memory", str(MEMORY)) as (path, process):
            full, mate, other = (self.enterContext(Client(path)) for _ in range(3))
            names = [json.loads(it.ask(hello(group)))["session"] for it, group in ((full, "desk"), (mate, "desk"), (other, far))]
            self.assertEqual([it.ask(NEW) for it in (mate, other)], [reply(1, name) for name in names[1:]], "before")
            codes = self.fill(full)
            self.assertEqual(codes[0], "E21", codes)
            self.assertEqual(full.ask(NEW), error("E20", names[0]), "where it has failed")
            self.assertEqual(other.ask(NEW), reply(2, names[2]), "another worker")
            self.assertEqual(full.ask('{"do":"reset"}'), reply(True, names[0]), "its reset")
            self.assertEqual(full.ask(NEW), reply(1, names[0]), "then")
            self.assertEqual(mate.ask(NEW), reply(2, names[1]), "its group")
            self.assertFalse(any("was ended" in line for line in process.log.lines()), process.log.lines())

    def test_words(self):
        """Words that --server-memory does not accept."""
        for word in ("0", "1M", "-5", "1048575", "99999999999999"):
            status, said = self.refused("", "--server-memory", word)
            self.assertEqual(status, 2, said)
            self.assertIn("argument --server-memory: ", said)

    def test_front(self):
        """Beyond the front's own memory the client is closed that holds most; the others lose nothing."""
        count = 22
        with self.limited("front_memory = 1000000\n", server=[sys.executable, "-c", LONG_ANSWERS]) as (path, _):
            honest = self.enterContext(Client(path))
            name = honest.name()
            slow = [self.enterContext(Client(path)) for _ in range(24)]
            for client in slow:
                client.say(*[ONE] * count)
            ended, until = select.poll(), time.monotonic() + PATIENCE
            for client in slow:
                ended.register(client.link, 0)  # which is for the end of a connection alone
            while not ended.poll(0):
                self.assertLess(time.monotonic(), until, "nobody is closed")
                self.assertEqual(honest.ask(ONE), reply(TEXT, name), "who reads")
            ends = [self.end_of(client, f"c{at}", count) for at, client in enumerate(slow, 2)]
            self.assertEqual(set(ends) - {"all", "F19", "cut"}, set(), "how they end")
            self.assertGreater(len(ends) - ends.count("all"), 0, "nobody is closed")

    def end_of(self, client, name, count):
        """How a client ends that reads late: with all answers, a last line that says why not, or one that is cut off."""
        for _ in range(count):
            line = client.hear()
            if line != reply(TEXT, name):
                break
        else:
            return "all"
        if line == exceeded("F19", "front_memory", name):
            return "F19"
        return "cut" if reply(TEXT, name).startswith(line) else line
