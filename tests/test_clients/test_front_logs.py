"""The front's log as JSON, its levels, its limit, and that it has nothing of what clients write (front/src/log.rs)."""

import json
import os
import re
import signal
import subprocess
import sys
import time
from contextlib import contextmanager
from datetime import datetime, timedelta, timezone
from pathlib import Path

from tests.support.documents import OPERATING_PAGE
from tests.support.lines import text_of
from tests.support.markdown import section
from tests.support.program import ROOT

from .fronts import FRONT, GREETED_BY_PYTHON, NEW, PATIENCE, Client, Log, error, reply
from .grouped import WorkerCases, hello, servers_of, wait_until

JSON = ("--log-format", "json")
KEYS = {"time", "level", "event", "fields", "message"}
TIME = re.compile(r"\d{4}-\d\d-\d\dT\d\d:\d\d:\d\d\.\d{3}Z")
SECRET = "hunter2_of_a_client"
SECRET_NUMBER = 7_306_115_219
ECHOES = GREETED_BY_PYTHON + "for line in sys.stdin: print(line.strip(), flush=True)"
MEDDLES = GREETED_BY_PYTHON + (
    "for line in sys.stdin: print('{\"args\":[%s],\"call\":\"x()\",\"object\":1,\"sender\":0,\"session\":\"nobody\"}' % line.strip(), flush=True)"
)
COMERS = 300


class JsonLog(Log):
    """A log of JSON lines."""

    def events(self):
        return [json.loads(line) for line in self.lines()]

    def of(self, event):
        """The fields of the events of this kind."""
        return [it["fields"] for it in self.events() if it["event"] == event]

    def wait_for_event(self, test, event, **fields):
        """Waits until there is an event of this kind with these fields."""
        found = lambda: any(fields.items() <= it.items() for it in self.of(event))
        wait_until(test, found, f"{event} {fields} is logged")


class LogCases(WorkerCases):
    """Tests of fronts whose log is read."""

    @contextmanager
    def logged(self, *options, server=None, status=0):
        """The path of a front, its process, and its log. At the end it is asked to end, unless it has ended."""
        path, log = Path(self.room, "socket"), JsonLog(Path(self.room, "log"))
        words = [FRONT, *JSON, *options, path, *(server or [self.program])]
        with log.path.open("wb") as stderr, subprocess.Popen(words, stderr=stderr) as process:
            try:
                if {"error", "warn"} & set(options):
                    self.wait_for(path, process)
                else:
                    wait_until(self, lambda: f"listening at {path}" in log.path.read_text(), "it listens")
                yield path, process, log
                if status == 0:
                    process.terminate()
                self.assertEqual(process.wait(PATIENCE), status, log.lines())
            finally:
                process.kill()


class Form(LogCases):
    """The lines of a log."""

    def test_events(self):
        """Each line is an object with time, level, event, fields and message, and the time is that of the event."""
        before, monitors = datetime.now(timezone.utc), Path(self.room, "monitors")
        options = ("--workers", "1", "--record", self.records, "--control", self.control_path, "--monitor", monitors, "--log-level", "debug")
        with self.logged(*options) as (path, process, log):
            with Client(path) as client, Client(monitors):
                name = json.loads(client.ask(hello("desk")))["session"]
                client.ask(NEW)
                os.kill(servers_of(process)[0], signal.SIGKILL)
                self.assertEqual(client.ask(NEW), reply(2, name), "the next object")
                log.wait_for_event(self, "worker_restored", worker=1)
                log.wait_for_event(self, "guest_came", guest="monitor 1")
                process.send_signal(signal.SIGHUP)
                log.wait_for_event(self, "records_checked", records=1, missing=0)
            log.wait_for_event(self, "client_gone", client=1, reason="left", how="has gone")
            log.wait_for_event(self, "guest_gone", guest="monitor 1")
            events = log.events()
            after = datetime.now(timezone.utc)
            for it in events:
                self.assertEqual(it.keys(), KEYS, it)
                self.assertRegex(it["time"], TIME)
                said = datetime.strptime(it["time"], "%Y-%m-%dT%H:%M:%S.%fZ").replace(tzinfo=timezone.utc)
                self.assertTrue(before - timedelta(milliseconds=1) <= said <= after, it)
                self.assertIsInstance(it["fields"], dict)
            levels = {it["event"]: it["level"] for it in events}
            wanted = {"listening": "info", "client_came": "info", "worker_ended": "error", "replay_begun": "debug"}
            self.assertEqual({name: levels.get(name) for name in wanted}, wanted, "their levels")
            self.assertIn({"for": "listening", "at": str(path)}, log.of("listening"))
            self.assertIn({"worker": 1, "why": "the server was ended by signal 9"}, log.of("worker_ended"))
            self.assertIn({"client": 1, "session": name, "live": False}, log.of("client_named"))

    def test_levels(self):
        """Only events that are serious enough are logged, and with --quiet none of clients that come and go."""
        for options, wanted in (
            (("--log-level", "error"), set()),
            (("--log-level", "warn"), set()),
            (("--log-level", "info"), {"listening", "client_came", "client_gone"}),
            (("--log-level", "debug", "--quiet"), {"listening"}),
        ):
            with self.logged(*options) as (path, _, log):
                with Client(path) as client:
                    self.assertEqual(json.loads(client.ask(NEW))["reply"], 1, "an object")
                if "client_gone" in wanted:
                    log.wait_for_event(self, "client_gone", client=1)
                with Client(path) as client:
                    self.assertEqual(json.loads(client.ask(NEW))["reply"], 1, "another one")
            self.assertEqual({it["event"] for it in log.events()}, wanted, options)

    def test_end(self):
        """The reason why a front ends is a line like the others."""
        with self.logged(status=1) as (path, process, log), Client(path) as client:
            self.assertEqual(client.ask(NEW), reply(1, "c1"), "an object")
            os.kill(servers_of(process)[0], signal.SIGKILL)
            process.wait(PATIENCE)
        last = log.events()[-1]
        self.assertEqual((last["level"], last["event"], last["message"]), ("error", "ended", "the server was ended by signal 9"))

    def test_words(self):
        """Formats, levels and rates that there are not."""
        for words in (("--log-format", "xml"), ("--log-level", "loud"), ("--log-rate", "-1"), ("--log-rate", "many"), ("--log-rate", "01x")):
            ran = subprocess.run([FRONT, *words, "s", "p"], capture_output=True, text=True, timeout=PATIENCE)
            self.assertEqual((ran.returncode, ran.stdout), (2, ""), words)
            self.assertIn(f"metad-front: error: argument {words[0]}: ", ran.stderr)

    def test_page(self):
        """The page about operating lists the events that the sources log."""
        source = "\n".join(path.read_text() for path in sorted((ROOT / "front" / "src").glob("*.rs")))
        logged = set(re.findall(r'\.say\(\s*(?:Level::\w+|level),\s*"(\w+)"', source)) | set(re.findall(r'\.note\(\s*"(\w+)"', source))
        logged |= {"left_out", "ended"}  # which the log adds
        shown = re.findall(r"^- `(\w+)`(?: \(|:)", section(OPERATING_PAGE.read_text(), "The log"), re.MULTILINE)
        self.assertEqual(sorted(shown), sorted(logged))


class Limits(LogCases):
    """Events that come often."""

    def come_and_go(self, path, count):
        for _ in range(count):
            with Client(path) as client:
                client.say('{"front":"hello","live":true}')
                client.hear()

    def test_flood(self):
        """Of many clients that come and go a few are logged, then one line says how many were not; other events are logged."""
        with self.logged("--log-rate", "20") as (path, process, log):
            begun = time.monotonic()
            self.come_and_go(path, COMERS)
            seconds = time.monotonic() - begun
            process.send_signal(signal.SIGHUP)
            log.wait_for_event(self, "nothing_recorded")
            for event in ("client_came", "client_gone", "client_named"):
                wait_until(self, lambda event=event: self.counted(log, event) == COMERS, f"all of {event} are counted")
                self.assertLessEqual(len(log.of(event)), 20 * (seconds + 2), event)
            self.assertLessEqual(len(log.of("left_out")), 3 * (seconds + 2), "lines that say so")
            with Client(path):
                time.sleep(0)
            self.assertEqual({it["level"] for it in log.events() if it["event"] == "left_out"}, {"warn"})

    def counted(self, log, event):
        """How many events of a kind were logged or left out, as the log says."""
        return len(log.of(event)) + sum(it["lines"] for it in log.of("left_out") if it["event"] == event)

    def test_no_limit(self):
        """With 0, and as text, all are logged."""
        with self.logged("--log-rate", "0") as (path, _, log):
            self.come_and_go(path, COMERS)
            wait_until(self, lambda: len(log.of("client_gone")) == COMERS, "all have gone")
            self.assertEqual((len(log.of("client_came")), log.of("left_out")), (COMERS, []))
        with self.logged("--log-format", "text") as (path, process, log):
            self.come_and_go(path, COMERS)
            log.wait_for(self, f"metad-front: c{COMERS} has gone")
            self.assertEqual(len(log.lines()), 3 * COMERS + 1, "all lines")


class Secrets(LogCases):
    """Nothing that clients write is in the log."""

    def check_secret(self, log):
        text = log.path.read_text()
        self.assertNotIn(SECRET, text)
        self.assertNotIn(str(SECRET_NUMBER), text)
        return text

    def lines(self):
        """A secret in all kinds of places of a client's lines."""
        yield from (SECRET, f"{{{SECRET}", text_of({SECRET: SECRET}), text_of({"do": SECRET}), text_of({"do": "new", "class": SECRET}))
        yield from (text_of({"do": "new", "class": "Cell", "session": SECRET}), text_of({"do": "status", "id": SECRET}))
        yield text_of({"do": "set", "object": 1, "property": "objectName", "value": SECRET})
        yield text_of({"do": "set", "object": 1, "property": SECRET, "value": SECRET_NUMBER})
        yield text_of({"do": "bind", "object": 1, "property": "objectName", "to": {"const": SECRET}})
        yield text_of({"do": "publish", "object": 1, "signal": "xChanged(int)", "name": SECRET})
        yield text_of({"do": "join", "from": SECRET, "name": SECRET, "types": ["int"], "object": 1, "method": "seen(int)"})
        yield text_of({"do": "leave", "from": SECRET, "name": SECRET, "types": ["int"], "object": 1, "method": "seen(int)"})
        yield text_of({"do": "invoke", "object": 1, "method": f"{SECRET}()", "args": [SECRET]})
        yield SECRET * 4_000  # too long

    def test_commands(self):
        """Commands, first lines, lines of monitors and operators, and a restart with what they left."""
        monitors = Path(self.room, "monitors")
        options = ("--workers", "2", "--record", self.records, "--monitor", monitors, "--control", self.control_path, "--share", "team")
        with self.logged(*options, "--log-level", "debug", "--log-rate", "0") as (path, process, log):
            client = self.enterContext(Client(path))
            client.say(text_of({"do": "new", "class": "Cell"}), *self.lines())
            answers = [client.hear() for _ in range(1 + len(list(self.lines())))]
            self.assertEqual(json.loads(answers[0])["reply"], 1, "an object")
            for place in (path, monitors, self.control_path):
                for line in (
                    {"front": SECRET},
                    {"front": "share", "session": SECRET},
                    {"front": "hello", "group": f"{SECRET}__"},
                    {"front": "monitor", "session": SECRET + "-"},
                    {"front": "move", "group": SECRET, "worker": 1},
                    {"front": "groups", SECRET: SECRET},
                ):
                    with Client(place) as other:
                        other.say(text_of(line), SECRET)
                        other.rest()
            for server in servers_of(process):
                os.kill(server, signal.SIGKILL)
            self.assertEqual(json.loads(client.ask('{"do":"children"}'))["reply"][0], 1, "what is restored")
            self.assertIn("join_in_vain", {it["event"] for it in log.events()})
            process.send_signal(signal.SIGHUP)
            log.wait_for_event(self, "records_checked", records=1)
        self.assertIn("worker_restored", self.check_secret(log))

    def test_difference(self):
        """A record that the server answers otherwise: the log says the kind and the length of both lines."""
        self.records.mkdir(mode=0o700)
        given = text_of({"class": "Cell", "do": "new", "session": "desk"})
        named = text_of({"do": "set", "object": 1, "property": "objectName", "session": "desk", "value": SECRET})
        asked = text_of({"do": "get", "object": 1, "property": "objectName", "session": "desk"})
        lines = [f"> {given}", reply(1, "desk"), f"> {named}", reply(True, "desk"), f"> {asked}", reply("x" + SECRET, "desk")]
        (self.records / "desk.lines").write_text("\n".join(lines) + "\n")
        options = ("--workers", "1", "--record", self.records, "--resume", "--group-from", "name", "--log-level", "debug")
        with self.logged(*options) as (_, _, log):
            length = len(reply(SECRET, "desk"))
            why = f"answer 3 of its record is a reply of {length + 1} bytes, and is now a reply of {length} bytes"
            log.wait_for_event(self, "group_not_restored", group="desk", why=why)
        self.check_secret(log)

    def test_strange_servers(self):
        """A server that sends back what it is sent, or answers for others: the log has the length of the line."""
        for code, words in ((ECHOES, "the server wrote no line of the protocol"), (MEDDLES, "the server did not tell c1 ")):
            with self.logged(server=[sys.executable, "-c", code], status=1) as (path, process, log), Client(path) as client:
                client.say(SECRET)
                client.until_closed()
                process.wait(PATIENCE)
            self.assertRegex(self.check_secret(log), f"{words}.*: a line of \\d+ bytes")

    def test_text(self):
        """As text too, where a client's group is lost."""
        with self.logged("--log-format", "text", "--workers", "1") as (path, process, log), Client(path) as client:
            client.say(text_of({"do": "new", "class": "Cell"}), *self.lines())
            for _ in range(1 + len(list(self.lines()))):
                client.hear()
            os.kill(servers_of(process)[0], signal.SIGKILL)
            self.assertEqual(client.told(), [error("F04", "c1")], "what is lost")
            log.wait_for(self, "metad-front: what c1 held is lost")
        self.check_secret(log)
