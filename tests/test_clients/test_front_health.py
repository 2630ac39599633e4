"""Checks of a front's health, by HTTP and out of its clients' reach (front/src/health.rs)."""

import os
import re
import signal
import socket
import subprocess
from http.client import HTTPConnection
from pathlib import Path

from .fronts import FRONT, NEW, PATIENCE, STATUS, Client, Log, error, reply
from .grouped import WorkerCases, servers_of, wait_until
from .stand_servers import make_gate, open_gate, stopped

GET = "GET / HTTP/1.0\r\n\r\n"
CHECKS_MOST = 8


def answer_of(status, word):
    """An answer of HTTP/1.0."""
    head = f"HTTP/1.0 {status}\r\nContent-Type: text/plain\r\nContent-Length: {len(word) + 1}\r\nCache-Control: no-store\r\n"
    return f"{head}Connection: close\r\n\r\n{word}\n"


ALIVE = answer_of("200 OK", "alive")
SLOW, REPLAYING, FULL = (answer_of("503 Service Unavailable", word) for word in ("slow", "replaying", "full"))
LIVE = "GET /live HTTP/1.0\r\n\r\n"


class Health(WorkerCases):
    """The front's answers about its health."""

    def setUp(self):
        super().setUp()
        self.place = Path(self.room, "health")

    def asked(self, request=GET):
        """The answer to a request at the front's socket for checks."""
        with Client(self.place) as client:
            client.link.sendall(request.encode())
            return client.until_closed().decode()

    def wait_for_health(self, answer, what):
        wait_until(self, lambda: self.asked() == answer, what)

    def test_alive(self):
        """A front is alive, slow if a server does not answer, and alive again. Clients have no part in that, nothing is logged
        about checks, and nothing of them is recorded or sent to monitors."""
        record, monitors = Path(self.room, "record"), Path(self.room, "monitors")
        options = ("--health", self.place, "--mode", "600", "--record", record, "--monitor", monitors)
        with self.front(options=options) as (path, process), Client(path) as client, Client(monitors) as monitor:
            process.log.wait_for(self, "metad-front: monitor 1 has come")
            self.assertEqual(client.ask(NEW), reply(1, "c1"), "an object")
            said = process.log.lines()
            for _ in range(3):
                self.wait_for_health(ALIVE, "at first")
            os.kill(servers_of(process)[0], signal.SIGSTOP)
            self.assertEqual([self.asked(), self.asked(LIVE)], [SLOW, SLOW], "where the server is stopped")
            os.kill(servers_of(process)[0], signal.SIGCONT)
            self.wait_for_health(ALIVE, "where it goes on")
            self.assertEqual(client.ask(NEW), reply(2, "c1"), "the client")
            self.assertEqual(process.log.lines(), said, "what is said")
            given = '{"class":"Probe","do":"new","session":"c1"}\n'
            self.assertEqual(record.read_text(), 2 * given, "what is recorded")
            self.assertEqual([monitor.hear(), monitor.hear()], [reply(1, "c1"), reply(2, "c1")], "what a monitor receives")

    def test_replaying(self):
        """The front is replaying while a worker is brought back, and alive then."""
        gate, flag = make_gate(self.room), str(Path(self.room, "flag"))
        server = ["sh", "-c", f'test -e "$0" && cat "{gate}"; touch "$0"; exec "{self.program}"', flag]
        with self.workers(1, options=("--health", self.place, "--record", str(self.records)), server=server) as (path, process):
            with Client(path) as client:
                self.assertEqual(client.ask(NEW), reply(1, "c1"), "an object")
                self.wait_for_health(ALIVE, "at first")
                os.kill(servers_of(process)[0], signal.SIGKILL)
                self.wait_for_health(REPLAYING, "where it is brought back")
                self.assertEqual(self.asked(LIVE), answer_of("200 OK", "replaying"), "whether it lives")
                open_gate(gate)
                self.assertEqual(client.ask(NEW), reply(2, "c1"), "the client")
                self.wait_for_health(ALIVE, "then")

    def test_full(self):
        """The front is full if no more clients are let in, even if they have all files that they may, and alive when some have
        disconnected. A check takes no client's place."""
        path, log = Path(self.room, "socket"), Log(Path(self.room, "log"))
        words = ["sh", "-c", 'ulimit -n 40; exec "$@"', "sh", FRONT, "--quiet", "--health", self.place, path, self.program]
        with log.path.open("wb") as stderr, subprocess.Popen(words, stderr=stderr) as process:
            try:
                log.wait_for(self, f"metad-front: listening at {path}", process)
                clients = [self.enterContext(Client(path)) for _ in range(50)]
                self.wait_for_health(FULL, "where all have come")
                self.assertEqual(self.asked(LIVE), answer_of("200 OK", "full"), "whether it lives")
                for client in clients:
                    client.leave()
                self.wait_for_health(ALIVE, "where all have gone")
            finally:
                process.terminate()
            self.assertEqual(process.wait(PATIENCE), 0, "its end")

    def test_port(self):
        """The front answers checks over the network too, at a port of this machine alone or at an address."""
        for place in ("0", "127.0.0.1:0"):
            with self.front(options=("--quiet", "--health", place)) as (path, process):
                (line,) = [line for line in process.log.lines() if "health at" in line]
                port = int(re.fullmatch(r"metad-front: health at 127\.0\.0\.1:(\d+)", line)[1])
                link = HTTPConnection("127.0.0.1", port, timeout=PATIENCE)
                link.request("GET", "/any/path")
                answer = link.getresponse()
                self.assertEqual((answer.status, answer.read(), answer.headers["Content-Type"]), (200, b"alive\n", "text/plain"), place)
                link.close()

    def test_requests(self):
        """Requests for the head alone, by other methods, in pieces, too long, without an end and of nothing."""
        with self.front(options=("--quiet", "--health", self.place)) as (path, _), Client(path) as client:
            self.wait_for_health(ALIVE, "at first")
            self.assertEqual(self.asked("HEAD / HTTP/1.1\r\nHost: here\r\n\r\n"), ALIVE.replace("alive\n", ""), "the head")
            self.assertEqual(self.asked("POST / HTTP/1.0\r\n\r\n"), answer_of("405 Method Not Allowed", "GET"), "another method")
            self.assertEqual(self.asked("x" * 9_000), answer_of("400 Bad Request", "long"), "one that is too long")
            self.assertEqual(self.asked("GET / HTTP/1.0\r\n"), answer_of("408 Request Timeout", "late"), "one that does not end")
            with Client(self.place) as pieces:
                for piece in GET:
                    pieces.link.sendall(piece.encode())
                self.assertEqual(pieces.until_closed().decode(), ALIVE, "one in pieces")
            with Client(self.place) as half:
                half.link.sendall(GET.encode())
                half.link.shutdown(socket.SHUT_WR)
                self.assertEqual(half.until_closed().decode(), ALIVE, "one that says no more")
            with Client(self.place) as nothing:
                nothing.link.shutdown(socket.SHUT_WR)
                self.assertEqual(nothing.until_closed(), b"", "nothing")
            self.assertEqual(client.ask(NEW), reply(1, "c1"), "a client")

    def test_many_at_once(self):
        """Connections that send no request take no more than some places, and none of a client."""
        with self.front(options=("--quiet", "--health", self.place)) as (path, process):
            with stopped(self, process):
                *idle, more = [self.enterContext(Client(self.place)) for _ in range(CHECKS_MOST + 1)]
            self.assertEqual(more.until_closed(), b"", "one more")
            with Client(path) as client:
                self.assertEqual(client.ask(NEW), reply(1, "c1"), "a client")
            for link in idle:
                self.assertEqual(link.until_closed().decode(), answer_of("408 Request Timeout", "late"), "those that ask for nothing")
            self.wait_for_health(ALIVE, "then")

    def test_out_of_reach(self):
        """Checks ask for no session: clients can neither name nor share that, and what clients have filled or
        broken makes no difference."""
        with self.workers(2, options=("--health", self.place, "--group-from", "name")) as (path, _), Client(path) as client:
            for name in ("-", "front__health"):
                line = f'{{"class":"Probe","do":"new","session":"{name}"}}'
                wanted = error("E02", "-") if name == "-" else reply(1, name)
                self.assertEqual(client.ask(line), wanted, name)
            self.wait_for_health(ALIVE, "while a client names sessions")
            self.assertEqual(client.ask('{"do":"status","session":"-"}'), error("E02", "-"), "what the client receives")
            client.say(STATUS)
            self.assertEqual(client.hear(), error("E02", "-"), "its own")

    def test_rights(self):
        """The permissions of the socket for checks are its own, or those of the clients' socket."""
        for more, wanted in ((("--health-mode", "644"), 0o644), ((), 0o600)):
            with self.front(options=("--quiet", "--mode", "600", "--health", self.place, *more)) as (path, _):
                self.assertEqual([it.stat().st_mode & 0o777 for it in (path, self.place)], [0o600, wanted], more)
        words = [FRONT, "--health-mode", "644", "--health", "0", path, self.program]
        ran = subprocess.run(words, capture_output=True, text=True, timeout=PATIENCE)
        self.assertEqual((ran.returncode, ran.stdout), (2, ""), ran.stderr)
        self.assertIn("--health-mode needs --health with a path", ran.stderr)

    def test_words(self):
        """A port that is not one and a port that is taken."""
        path = Path(self.room, "socket")
        ran = subprocess.run([FRONT, "--health", "65536", path, self.program], capture_output=True, text=True, timeout=PATIENCE)
        self.assertEqual((ran.returncode, ran.stdout), (2, ""), ran.stderr)
        self.assertIn("argument --health: '65536' is no number of a port", ran.stderr)
        with socket.socket() as taken:
            taken.bind(("127.0.0.1", 0))
            taken.listen()
            port = str(taken.getsockname()[1])
            ran = subprocess.run([FRONT, "--health", port, path, self.program], capture_output=True, text=True, timeout=PATIENCE)
        said = f"metad-front: 127.0.0.1:{port} cannot be bound: Address already in use\n"
        self.assertEqual((ran.returncode, ran.stdout, ran.stderr), (1, "", said), "a port that is taken")
