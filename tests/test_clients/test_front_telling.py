"""How a front reports what happens: its log, the record of what the server is given, and monitors."""

import json
import os
import re
import stat
import subprocess
import time
from contextlib import contextmanager
from pathlib import Path

from tests.support.lines import text_of

from .fronts import FRONT, NEW, PATIENCE, STATUS, Client, FrontCases, classes_in, error, reply
from .grouped import wait_until

TEXT = "n" * 4_096
UNREAD_MOST = 16 * 1024 * 1024
GET = text_of({"do": "get", "object": 1, "property": "objectName"})
SET = text_of({"do": "set", "object": 1, "property": "objectName", "value": TEXT})
WRONG_SHARE = '{"front":"share","session":"nobody"}'
COMERS = 3_000
LEFT_OUT = re.compile(rb"\(lines left out before this one: (\d+)\)\n")


def chosen(session):
    return f'{{"front":"monitor","session":"{session}"}}'


class Logging(FrontCases):
    """What a front says on standard error."""

    def test_log(self):
        """Each client and monitor that comes, goes and is closed, and why, in this order."""
        second = Path(self.room, "second")
        with self.front(options=("--share", "team", "--monitor", second)) as (path, process):
            said = [f"metad-front: monitors at {second}", f"metad-front: listening at {path}"]

            def then(*words):
                said.extend(f"metad-front: {it}" for it in words)
                process.log.wait_for(self, said[-1])

            with Client(path) as client:
                then("c1 has come")
                self.assertEqual(client.ask(NEW), reply(1, "c1"), "an object")
            then("c1 has gone")
            with Client(path) as client:
                self.assertEqual(client.ask('{"front":"share","session":"team"}'), reply(True, "team"), "a shared session")
                then("c2 has come", "c2 speaks for team")
            then("c2 has gone")
            with Client(path) as client:
                client.say(WRONG_SHARE)
                then("c3 has come", "c3 is closed: it has asked for a session that is not shared")
            with Client(path) as client:
                client.say('{"front":1}')
                then("c4 has come", "c4 is closed: its first line asks for nothing that there is")
            with Client(second) as monitor:
                then("monitor 1 has come")
                monitor.say("hello")
                then("monitor 1 is closed: its first line asks for nothing that there is")
            with Client(path) as client:
                then("c5 has come")
                client.say(NEW, SET, *[GET] * 100)
                client.hear()
            then("c5 has gone, without having read all")
            self.assertEqual(process.log.lines(), said, "all that is said")

    def test_closed(self):
        """Who leaves too much unread is closed, and that is said."""
        slots = [{"sig": "hear(QString)", "body": []}]
        classes = classes_in(self.room, [{"name": "Ear", "super": "QObject", "signals": ["told(QString)"], "slots": slots}])
        connect = text_of({"do": "connect", "sender": 1, "signal": "told(QString)", "receiver": 1, "method": "hear(QString)"})
        count = UNREAD_MOST // len(TEXT) + 200
        with self.front(classes, options=("--mode", "600")) as (path, process), Client(path) as client:
            client.say(text_of({"do": "new", "class": "Ear"}), *[connect] * count)
            self.assertEqual([json.loads(client.hear())["reply"] for _ in range(count + 1)], [1, *range(1, count + 1)], "its connections")
            client.say(text_of({"do": "invoke", "object": 1, "method": "told(QString)", "args": [TEXT]}))
            process.log.wait_for(self, f"metad-front: c1 is closed: it has left more than {UNREAD_MOST} bytes unread")

    def test_nobody_reads(self):
        """Whoever reads the log never blocks the front: lines are left out, and then the log says how many."""
        path, (reader, writer) = Path(self.room, "socket"), os.pipe()
        with subprocess.Popen([FRONT, path, self.program], stderr=writer) as process:
            os.close(writer)
            try:
                self.wait_for(path, process)
                for _ in range(COMERS):
                    Client(path).leave()
                with Client(path) as client:
                    self.assertEqual(json.loads(client.ask(NEW))["reply"], 1, "an object, when all have come")
                said, left_out = self.taken_from(reader)
                self.assertTrue(said.startswith(b"metad-front: listening at "), "its first line")
                self.assertGreater(said.count(b" has come"), 100, "lines that were not left out")
                self.assertGreater(left_out, 0, "lines that were left out")
                os.close(reader)
                with Client(path) as client:
                    self.assertEqual(json.loads(client.ask(NEW))["reply"], 1, "an object where nobody can read")
            finally:
                process.terminate()
            self.assertEqual(process.wait(PATIENCE), 0, "the front's end")

    def taken_from(self, reader):
        """What is read from a pipe, while others come and go, until it says how many lines were left out; and how many."""
        said, until = b"", time.monotonic() + PATIENCE
        while time.monotonic() < until:
            Client(Path(self.room, "socket")).leave()
            said += os.read(reader, 65_536)
            found = LEFT_OUT.search(said)
            if found:
                return said, int(found[1])
        self.fail(f"it does not say how many lines were left out: {said[-200:]}")


class Recording(FrontCases):
    """The record of what the server is given."""

    def test_record(self):
        """The record is what the server was given, byte for byte: the server says the same to it again."""
        record, second = Path(self.room, "record"), Path(self.room, "second")
        record.write_text("an older one that is longer than nothing\n" * 1_000)
        with self.front(options=("--mode", "600", "--record", record, "--monitor", second)) as (path, process):
            self.check_record(path, process, record, second)

    def check_record(self, path, process, record, second):
        """For several clients, a monitor receives what the server answers to the record."""
        with Client(second) as monitor:
            process.log.wait_for(self, "metad-front: monitor 1 has come")
            with Client(path) as one, Client(path) as other:
                for number in range(1, 6):
                    for client in (one, other):
                        client.say(NEW, "nonsense", '{"x":"\u00e4"}', "y" * 70_000, " ", STATUS)
                        told = [client.hear() for _ in range(5)]
                        self.assertEqual(json.loads(told[0])["reply"], number, "an object")
                one.link.sendall(b'{"do":"\xff"}\n')
                self.assertEqual(one.hear(), error("E01", "-"), "a line that is no UTF-8")
            given = {b'{"do":"reset","session":"%s"}' % name for name in (b"c1", b"c2")}
            wait_until(self, lambda: given <= set(record.read_bytes().splitlines()), "the sessions of both are reset")
            with Client(path) as last:
                self.assertEqual(last.ask(NEW), reply(1, "c3"), "an object")
            lines = []
            while lines[-1:] != [reply(1, "c3")]:
                lines.append(monitor.hear())
        again = subprocess.run([self.program], input=record.read_bytes(), capture_output=True, timeout=PATIENCE)
        said = again.stdout.decode().splitlines()
        self.assertEqual(said[: len(lines)], lines, "what the server says to the record")
        self.assertEqual(said[len(lines) :], [reply(True, "c3")][: len(said) - len(lines)], "what came when the last client had gone")
        resets = [reply(True, name) for name in ("c1", "c2")]
        self.assertEqual((len(lines), sorted(set(lines) & set(resets))), (2 * 5 * 5 + 1 + 2 + 1, resets), "what a monitor receives")

    def test_rights(self):
        """Nobody but its owner may read a record."""
        record = Path(self.room, "record")
        before = os.umask(0)
        try:
            with self.front(options=("--mode", "600", "--record", record)):
                self.assertEqual(oct(stat.S_IMODE(record.stat().st_mode)), oct(0o600), "the rights of the record")
        finally:
            os.umask(before)

    def test_full(self):
        """A record that cannot be written ends, and that is said once; the front goes on."""
        with self.front(options=("--record", "/dev/full")) as (path, process), Client(path) as client:
            self.assertEqual([client.ask(NEW) for _ in range(3)], [reply(number, "c1") for number in (1, 2, 3)], "its objects")
            line = "metad-front: /dev/full cannot be written: No space left on device; nothing more is recorded"
            process.log.wait_for(self, line)
            self.assertEqual(process.log.lines().count(line), 1, "what is said")


class Monitors(FrontCases):
    """Those who only read."""

    @contextmanager
    def monitored(self, *options):
        second = Path(self.room, "second")
        with self.front(options=("--mode", "600", "--monitor", second, *options)) as (path, process):
            yield path, second, process

    def test_all(self):
        """A monitor receives all lines of all sessions unchanged, from the moment it connects."""
        with self.monitored() as (path, second, process), Client(path) as one, Client(path) as other:
            names = [one.name(), other.name()]
            with Client(second) as monitor:
                process.log.wait_for(self, "metad-front: monitor 1 has come")
                lines = []
                for client in (one, other, one):
                    lines += [client.ask(NEW), client.ask("nonsense"), client.ask('{"do":"jump"}')]
                invoke = text_of({"do": "invoke", "object": 1, "method": "note()", "args": []})
                one.say(invoke)
                lines += [one.hear(), one.hear()]
                self.assertEqual([monitor.hear() for _ in lines], lines, "what a monitor receives")
            whose = [json.loads(line)["session"] for line in lines[:7]]
            self.assertEqual(whose, [names[0], "-", names[0], names[1], "-", names[1], names[0]], "whose lines they are")

    def test_one(self):
        """A monitor that names a session receives only the lines of that one after its answer. Other monitors receive all lines."""
        with self.monitored() as (path, second, _), Client(path) as one, Client(path) as other:
            names = [one.name(), other.name()]
            with Client(second) as of_one, Client(second) as of_none:
                for monitor, session in ((of_one, names[0]), (of_none, "-")):
                    self.assertEqual(monitor.ask(chosen(session)), chosen(session), "its answer")
                lines = [client.ask(line) for line in (NEW, "nonsense", NEW) for client in (other, one)]
                self.assertEqual([of_one.hear(), of_one.hear()], [reply(1, names[0]), reply(2, names[0])], "its lines")
                self.assertEqual([of_none.hear(), of_none.hear()], [lines[2], lines[3]], "lines of nobody's session")

    def test_refused(self):
        """A first line that a monitor may not send is refused and ends the connection. Later lines are ignored."""
        with self.monitored() as (path, second, _), Client(path) as client:
            for line in ("hello", NEW, "{}", chosen("a b"), '{"front":"monitor"}', '{"front":"share","session":"c1"}', "x" * 70_000):
                with self.subTest(line=line[:20]), Client(second) as monitor:
                    monitor.say(line)
                    self.assertEqual(monitor.until_closed().decode(), error("F01", "-") + "\n", "all that it receives")
            with Client(second) as monitor:
                self.assertEqual(monitor.ask(chosen("c1")), chosen("c1"), "its answer")
                monitor.say(NEW, "hello", chosen("c2"))
                self.assertEqual([client.ask(NEW), monitor.hear()], [reply(1, "c1")] * 2, "what it receives, and nothing done for it")

    def test_rights(self):
        """The rights of the monitors' socket are its own."""
        with self.monitored("--monitor-mode", "640") as (path, second, _):
            self.assertEqual([oct(it.stat().st_mode & 0o777) for it in (path, second)], ["0o600", "0o640"], "the rights")

    def test_slow(self):
        """A monitor that does not read is closed in the end, and it blocks nobody."""
        with self.monitored() as (path, second, process), Client(second) as slow, Client(path) as client:
            client.say(NEW, SET)
            self.assertEqual([client.hear(), client.hear()], [reply(1, "c1"), reply(True, "c1")], "a long text")
            count, line = 2 * UNREAD_MOST // len(TEXT), reply(TEXT, "c1")
            for _ in range(count // 32):
                client.say(*[GET] * 32)
                self.assertEqual([client.hear() for _ in range(32)], [line] * 32, "what the client receives")
            process.log.wait_for(self, f"metad-front: monitor 1 is closed: it has left more than {UNREAD_MOST} bytes unread")
            told = slow.until_closed().decode().splitlines()
            self.assertEqual(told[:3], [reply(1, "c1"), reply(True, "c1"), line], "what it had received")
            self.assertLess(len(told), count, "how much it receives")
