"""The order in which the server of a front is given commands. The rule itself is tested with its code (front/src/turns.rs)."""

import json
import time
from pathlib import Path

from tests.support.lines import text_of

from .fronts import GREETED_BY_SHELL, NEW, PATIENCE, STATUS, Client, FrontCases, classes_in, reply
from .stand_servers import stopped

TEXT = "n" * 4_096
CALLS = 100
EAR = {"name": "Ear", "super": "QObject", "signals": ["told(QString)"], "slots": [{"sig": "hear(QString)", "body": []}]}
TELL = text_of({"do": "invoke", "object": 1, "method": "told(QString)", "args": [TEXT]})
QUIET = 0.4
WRONG = '{"front":"nothing"}'


class Beside(FrontCases):
    """Clients next to one whose commands ask for much."""

    def test_much(self):
        """A client that asks for little waits for at most one of the many waiting commands of a client that asks for much."""
        record = Path(self.room, "record")
        connect = {"do": "connect", "sender": 1, "signal": "told(QString)", "receiver": 1, "method": "hear(QString)"}
        options = ("--quiet", "--mode", "600", "--record", record)
        with self.front(classes_in(self.room, [EAR]), options=options) as (path, _), Client(path) as much, Client(path) as little:
            much.say('{"do":"new","class":"Ear"}', *[text_of(connect)] * CALLS)
            self.assertEqual([json.loads(much.hear())["reply"] for _ in range(CALLS + 1)], [1, *range(1, CALLS + 1)], "its connections")
            much.say(TELL)
            self.skip_answer(much)
            much.say(*[TELL] * 29)
            asked = 0
            for answered in range(1, 30):
                self.skip_answer(much)
                if answered % 5 == 0:
                    self.assertEqual(json.loads(little.ask(STATUS))["reply"]["objects"], 0, "one that asks for little")
                    asked += 1
        given = [("c2" if b'"c2"' in line else "c1") for line in record.read_bytes().splitlines() if b"invoke" in line or b"status" in line]
        self.assertEqual((given.count("c2"), asked, given.count("c1")), (5, 5, 30), "the lines of both")
        at = [number for number, name in enumerate(given) if name == "c2"]
        for number, place in enumerate(at, 1):
            before = given[:place].count("c1")
            self.assertLessEqual(before, 1 + 5 * number + 2, f"how many commands of the other one were before it: {given}")

    def test_under_way(self):
        """A server that does not answer is given 32 commands of a single client, and 8 of each if there are two."""
        for count, most in ((1, 32), (2, 16)):
            given = Path(self.room, f"given to {count}")
            with self.front(server=["sh", "-c", GREETED_BY_SHELL + 'cat > "$0"', given]) as (path, process):
                clients = [Client(path) for _ in range(count)]
                try:
                    self.let_in(path)
                    with stopped(self, process):
                        for client in clients:
                            client.say(*[STATUS] * 100)
                    self.wait_for_lines(given, most)
                    time.sleep(QUIET)
                    self.assertEqual(len(given.read_bytes().splitlines()), most, f"what the server is given for {count}")
                finally:
                    for client in clients:
                        client.leave()

    def let_in(self, path):
        """Waits until those who came before are let in: another one comes, and goes."""
        with Client(path) as last:
            last.say(WRONG)
            last.until_closed()

    def wait_for_lines(self, path, count):
        """Waits until a file has so many lines."""
        until = time.monotonic() + PATIENCE
        while not path.exists() or path.read_bytes().count(b"\n") < count:
            self.assertLess(time.monotonic(), until, "the lines are not there")
            time.sleep(0.01)

    def skip_answer(self, client):
        """Reads up to the answer of a command."""
        wanted = reply(True, "c1")
        while client.hear() != wanted:
            pass

    def test_many(self):
        """A client is answered although many others ask without end."""
        with self.front() as (path, _), Client(path) as quiet:
            busy = [Client(path) for _ in range(20)]
            try:
                for client in busy:
                    client.say(*[NEW] * 200)
                self.assertEqual([quiet.ask(NEW) for _ in range(10)], [reply(number, "c1") for number in range(1, 11)], "the quiet one")
                for client in busy:
                    told = [json.loads(client.hear())["reply"] for _ in range(200)]
                    self.assertEqual(told, list(range(1, 201)), "a busy one")
            finally:
                for client in busy:
                    client.leave()
