"""Records that are opened again on a hangup, as logrotate wants it (front/src/rotating.rs)."""

import json
import os
import shutil
import signal
import subprocess
from pathlib import Path

from tests.support.program import ROOT

from .fronts import NEW, PATIENCE, Client, FrontCases, reply
from .grouped import WorkerCases, hello, servers_of, wait_until

GIVEN = '{"class":"Probe","do":"new","session":"c1"}'
LINES, TIMES = 2_000, 8
EXAMPLE = ROOT / "examples" / "systemd" / "metad-front.logrotate"


def hang_up(test, process, said):
    """Sends a hangup, and waits until the front logs once more that it has come."""
    before = process.log.lines().count(said)
    process.send_signal(signal.SIGHUP)
    wait_until(test, lambda: process.log.lines().count(said) > before, f"{said!r} is said")


class Rotates(FrontCases):
    """A front with one server."""

    def setUp(self):
        super().setUp()
        self.record = Path(self.room, "record")
        self.opened = f"metad-front: hangup: {self.record} is opened again"

    def test_moved(self):
        """A record that was moved away is begun again, readable by its owner alone, and one that was not is continued."""
        older = Path(self.room, "record.1")
        with self.front(options=("--mode", "600", "--record", self.record)) as (path, process), Client(path) as client:
            self.assertEqual(client.ask(NEW), reply(1, "c1"), "an object")
            self.record.rename(older)
            self.assertEqual(client.ask(NEW), reply(2, "c1"), "one before the hangup")
            hang_up(self, process, self.opened)
            self.assertEqual(client.ask(NEW), reply(3, "c1"), "one after it")
            hang_up(self, process, self.opened)
            self.assertEqual(client.ask(NEW), reply(4, "c1"), "one after another hangup")
            self.assertEqual(self.record.stat().st_mode & 0o777, 0o600, "its rights")
            self.assertEqual((older.read_text(), self.record.read_text()), (2 * f"{GIVEN}\n", 2 * f"{GIVEN}\n"), "the records")

    def test_under_load(self):
        """However often records are moved away while clients give commands, all lines are there once, in their order."""
        with self.front(options=("--mode", "600", "--record", self.record)) as (path, process), Client(path) as client:
            older = []
            for at in range(TIMES):
                lines = [json.dumps({"do": "status", "at": at * LINES + number}) for number in range(LINES)]
                client.say(*lines[: LINES // 2])
                older.append(self.record.rename(Path(self.room, f"record.{at}")))
                process.send_signal(signal.SIGHUP)
                client.say(*lines[LINES // 2 :])
                for _ in lines:
                    client.hear()
                wait_until(self, lambda count=at + 1: process.log.lines().count(self.opened) == count, "it is opened again")
        given = "".join(path.read_text() for path in (*older, self.record)).splitlines()
        wanted = [json.dumps({"do": "status", "at": at})[:-1] + ',"session":"c1"}' for at in range(TIMES * LINES)]
        self.assertEqual(given[: len(wanted)], wanted, "all lines")
        self.assertLessEqual(len(given), len(wanted) + 1, "all lines, and perhaps that of a client that goes")

    def test_cannot_be_opened(self):
        """If a record cannot be opened again the front continues with the file that was open, and says so."""
        folder = Path(self.room, "folder")
        folder.mkdir()
        record = folder / "record"
        with self.front(options=("--mode", "600", "--record", record)) as (path, process), Client(path) as client:
            moved = folder.rename(Path(self.room, "elsewhere"))
            why = "cannot be opened again: No such file or directory; the file that was open is written on"
            hang_up(self, process, f"metad-front: hangup: {record} {why}")
            self.assertEqual(client.ask(NEW), reply(1, "c1"), "an object")
            self.assertEqual((moved / "record").read_text(), f"{GIVEN}\n", "the record")

    def test_no_record(self):
        """Without a record a hangup makes no difference, and is logged; with workers too."""
        said = "metad-front: hangup: there is no record that could be opened again"
        for more in ((), ("--workers", "2")):
            with self.front(options=("--mode", "600", *more)) as (path, process), Client(path) as client:
                hang_up(self, process, said)
                hang_up(self, process, said)
                self.assertEqual(client.ask(NEW), reply(1, "c1"), "an object")

    def test_example(self):
        """The example file for logrotate is one that logrotate takes, and asks the unit of the example to open its record."""
        text = EXAMPLE.read_text()
        self.assertIn("systemctl reload 'metad-front@*.service'", text)
        if shutil.which("logrotate") is None:
            self.skipTest("logrotate is not on the path")
        place = Path(self.room, "example")
        shutil.copy(EXAMPLE, place)
        place.chmod(0o644)
        ran = subprocess.run(["logrotate", "-d", place], capture_output=True, text=True, timeout=PATIENCE)
        self.assertEqual(ran.returncode, 0, ran.stderr)
        self.assertNotIn("error:", ran.stderr + ran.stdout)

    def test_by_logrotate(self):
        """Rotation by logrotate loses nothing."""
        if shutil.which("logrotate") is None:
            self.skipTest("logrotate is not on the path")
        with self.front(options=("--mode", "600", "--record", self.record)) as (path, process), Client(path) as client:
            self.assertEqual(client.ask(NEW), reply(1, "c1"), "an object")
            rules, state = Path(self.room, "rules"), Path(self.room, "state")
            body = f"rotate 3\nnocreate\nsu {os.getuid()} {os.getgid()}\npostrotate\nkill -HUP {process.pid}\nendscript\n"
            rules.write_text(f"{self.record} {{\n{body}}}\n")
            rules.chmod(0o644)
            for number in (2, 3):
                ran = subprocess.run(["logrotate", "-f", "-s", state, rules], capture_output=True, text=True, timeout=PATIENCE)
                self.assertEqual((ran.returncode, ran.stderr), (0, ""))
                wait_until(self, lambda count=number - 1: process.log.lines().count(self.opened) == count, "it is opened again")
                self.assertEqual(client.ask(NEW), reply(number, "c1"), "the next object")
            files = [self.record.with_name(name) for name in ("record.2", "record.1", "record")]
            self.assertEqual([path.read_text() for path in files], [f"{GIVEN}\n"] * 3, "the records")


class GroupRecords(WorkerCases):
    """A front with workers, where each group has a record that brings it back."""

    def test_groups(self):
        """The records of groups stay. Where one is moved away, its group cannot be brought back until its sessions are reset,
        which is said, and the record that begins then brings back what comes then."""
        with self.workers(1, options=("--record", str(self.records))) as (path, process):
            client, other = self.enterContext(Client(path)), self.enterContext(Client(path))
            for greeted, group in ((client, "desk"), (other, "hall")):
                name = json.loads(greeted.ask(hello(group)))["session"]
                self.assertEqual(greeted.ask(NEW), reply(1, name), "an object")
            hang_up(self, process, f"metad-front: hangup: 2 of 2 records are where they were in {self.records}")
            record = self.records / "desk.lines"
            record.rename(Path(self.room, "moved"))
            hang_up(self, process, f"metad-front: hangup: 1 of 2 records are where they were in {self.records}")
            why = "is not what it was; its group cannot be brought back until its sessions are reset"
            self.assertIn(f"metad-front: {record} {why}", process.log.lines())
            self.assertEqual([client.ask(NEW), client.ask('{"do":"reset"}')], [reply(2, "desk__c1"), reply(True, "desk__c1")], "a reset")
            self.assertEqual(client.ask(NEW), reply(1, "desk__c1"), "an object then")
            for server in servers_of(process):
                os.kill(server, signal.SIGKILL)
            self.assertEqual([client.ask(NEW), other.ask(NEW)], [reply(2, "desk__c1"), reply(2, "hall__c2")], "what is brought back")
