"""Fronts that continue where an earlier one was killed, and servers and fronts that are stuck."""

import json
import os
import signal
import socket
import subprocess
import time
from pathlib import Path

from .fronts import FRONT, NEW, PATIENCE, Client, FrontCases, Log, reply
from .grouped import WorkerCases, hello, servers_of, wait_until

SHARE = '{"front":"share","session":"desk__team"}'
NAMED = '{"class":"Probe","do":"new","session":"%s"}'
KILLS = 5


class Resumed(WorkerCases):
    """Fronts with records that are killed."""

    def start(self, *options):
        """A front with records, which continues where an earlier one was."""
        path, log = Path(self.room, "socket"), Log(Path(self.room, "log"))
        words = [FRONT, "--workers", "2", "--record", self.records, "--control", self.control_path, *options, path, self.program]
        with log.path.open("wb") as stderr:
            process = subprocess.Popen(words, stderr=stderr)
        self.addCleanup(process.wait)
        self.addCleanup(process.kill)
        process.log = log
        log.wait_for(self, f"metad-front: listening at {path}", process)
        return path, process

    def kill(self, process):
        """Kills a front; its servers end by themselves."""
        servers = servers_of(process)
        process.kill()
        process.wait()
        wait_until(self, lambda: not any(Path(f"/proc/{it}").exists() for it in servers), "its servers have ended")

    def test_shared(self):
        """In a shared session all answered commands are there after each kill, and sessions of clients are reset."""
        path, process = self.start("--share", "desk__team")
        made = 0
        for _ in range(KILLS):
            with Client(path) as client, Client(path) as own:
                self.assertEqual(client.ask(SHARE), reply(True, "desk__team"), "a share")
                name = json.loads(own.ask(hello("desk")))["session"]
                self.assertEqual(own.ask(NEW), reply(1, name), "an object of a client")
                client.say(*[NEW] * 300)
                for _ in range(100):
                    made += 1
                    self.assertEqual(client.hear(), reply(made, "desk__team"), "an object")
                self.kill(process)
                last = [json.loads(line)["reply"] for line in client.told()]
            made += len(last)
            path, process = self.start("--share", "desk__team", "--resume")
            with Client(path) as client:
                self.assertEqual(client.ask(SHARE), reply(True, "desk__team"), "a share")
                there = json.loads(client.ask('{"do":"children"}'))["reply"]
                self.assertGreaterEqual(len(there), made, "its objects")
                self.assertEqual(there, list(range(1, len(there) + 1)), "its objects")
                made = len(there)
            given = f'> {{"do":"reset","session":"{name}"}}'
            wait_until(self, lambda line=given: line in (self.records / "desk.lines").read_text().splitlines(), "a reset")
        process.terminate()

    def test_named(self):
        """Sessions that clients name are as they were, on both workers, even if a worker is killed later."""
        path, process = self.start("--group-from", "name")
        names = [f"g{number}__a" for number in range(8)]
        with Client(path) as client:
            for name in names:
                self.assertEqual(client.ask(NAMED % name), reply(1, name), "an object")
        self.kill(process)
        path, process = self.start("--group-from", "name", "--resume")
        with Client(path) as client:
            for name in names:
                self.assertEqual(client.ask(NAMED % name), reply(2, name), "the next object")
            for server in servers_of(process):
                os.kill(server, signal.SIGKILL)
            for name in names:
                self.assertEqual(client.ask(NAMED % name), reply(3, name), "the one after that")
                self.assertEqual(client.ask(f'{{"do":"reset","session":"{name}"}}'), reply(True, name), "a reset")
        wait_until(self, lambda: not any(self.records.iterdir()), "no record is left")
        process.terminate()

    def test_half_a_line(self):
        """Half a line at the end of a record, which no server was given, is dropped."""
        path, process = self.start("--group-from", "name")
        with Client(path) as client:
            self.assertEqual(client.ask(NAMED % "desk"), reply(1, "desk"), "an object")
        self.kill(process)
        with (self.records / "desk.lines").open("a") as record:
            record.write('> {"class":"Pro')
        path, process = self.start("--group-from", "name", "--resume")
        with Client(path) as client:
            self.assertEqual(client.ask(NAMED % "desk"), reply(2, "desk"), "the next one")
        process.terminate()

    def test_another_program(self):
        """A record that the server answers otherwise is lost, and the log says why."""
        self.records.mkdir(mode=0o700)
        (self.records / "desk.lines").write_text(f'> {NAMED % "desk"}\n{reply(7, "desk")}\n')
        path, process = self.start("--group-from", "name", "--resume")
        length = len(reply(7, "desk"))
        why = f"answer 1 of its record is a reply of {length} bytes, and is now a reply of {length} bytes"
        process.log.wait_for(self, f"metad-front: desk cannot be brought back: {why}", process)
        with Client(path) as client:
            self.assertEqual(client.ask(NAMED % "desk"), reply(1, "desk"), "a new session")
        process.terminate()

    def test_words(self):
        """The option needs records and workers."""
        for words in (("--resume",), ("--resume", "--record", "r"), ("--resume", "--workers", "2")):
            ran = subprocess.run([FRONT, *words, "s", "p"], capture_output=True, text=True, timeout=PATIENCE)
            self.assertEqual((ran.returncode, ran.stdout), (2, ""), ran.stderr)
            self.assertIn("metad-front: error: --resume needs --record and --workers\n", ran.stderr)


class Stuck(WorkerCases):
    """Servers and fronts that are stuck."""

    def test_stopped_worker(self):
        """A worker that is stopped is ended, and another one takes its place with the same state."""
        options = ("--watchdog", "1", "--record", str(self.records))
        with self.workers(1, options=options) as (path, process), Client(path) as client:
            self.assertEqual(client.ask(NEW), reply(1, "c1"), "an object")
            os.kill(servers_of(process)[0], signal.SIGSTOP)
            self.assertEqual(client.ask(NEW), reply(2, "c1"), "the next object")
            said = "metad-front: worker 1: the server has been silent for 1 seconds, and is ended"
            self.assertIn(said, process.log.lines(), "what is said")

    def test_idle_worker(self):
        """A worker that has nothing to do is not ended."""
        # on a busy machine a command may take as long as the watchdog waits: then the record brings the object back
        options = ("--watchdog", "1", "--record", str(self.records))
        with self.workers(1, options=options) as (path, process), Client(path) as client:
            self.assertEqual(client.ask(NEW), reply(1, "c1"), "an object")
            before, said = servers_of(process), process.log.lines()
            time.sleep(1.5)
            self.assertEqual((servers_of(process), process.log.lines()), (before, said), "the same server")
            self.assertEqual(client.ask(NEW), reply(2, "c1"), "the next object")

    def test_only_server(self):
        """Without workers the front ends with its server."""
        path = Path(self.room, "socket")
        process = subprocess.Popen([FRONT, "--watchdog", "1", path, self.program], stderr=subprocess.PIPE, text=True)
        self.addCleanup(process.kill)
        self.wait_for(path, process)
        with Client(path) as client:
            self.assertEqual(json.loads(client.ask(NEW))["reply"], 1, "an object")
            os.kill(servers_of(process)[0], signal.SIGSTOP)
            client.say(NEW)
            self.assertEqual(client.told(), [], "what is received")
        said = process.communicate(timeout=PATIENCE)[1]
        self.assertEqual(process.returncode, 1, said)
        self.assertTrue(said.endswith("metad-front: the server was ended by signal 9\n"), said)


class Systemd(FrontCases):
    """The notifications to systemd."""

    def test_told(self):
        """The front notifies systemd that it is ready, regularly that it is not stuck, and that it ends; no server does."""
        place, path, note = (Path(self.room, name) for name in ("notify", "socket", "environment"))
        with socket.socket(socket.AF_UNIX, socket.SOCK_DGRAM) as link:
            link.bind(str(place))
            link.settimeout(PATIENCE)
            own = {**os.environ, "NOTIFY_SOCKET": str(place), "WATCHDOG_USEC": "400000"}
            server = ["sh", "-c", f'env > "{note}"; exec "{self.program}"']
            words = ["sh", "-c", 'WATCHDOG_PID=$$ exec "$@"', "sh", FRONT, "--quiet", path, *server]
            process = subprocess.Popen(words, env=own, stderr=subprocess.DEVNULL)
            self.addCleanup(process.kill)
            told = ""
            while told.count("WATCHDOG=1") < 3 or "READY=1" not in told:
                told += link.recv(4_096).decode()
            self.assertIn(f"STATUS=listening at {path}", told, "what it says of itself")
            process.terminate()
            while "STOPPING=1" not in told:
                told += link.recv(4_096).decode()
            self.assertEqual(process.wait(PATIENCE), 0, "its end")
        self.assertNotIn("NOTIFY_SOCKET", note.read_text(), "what its server has")
        self.assertNotIn("WATCHDOG", note.read_text(), "what its server has")
