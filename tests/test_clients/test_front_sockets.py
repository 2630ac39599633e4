"""Where a front listens: sockets that were left, that are in use, that it was passed, and their rights."""

import json
import os
import re
import socket
import subprocess
import sys
from contextlib import contextmanager
from pathlib import Path

from tests.support.program import ROOT

from .fronts import FRONT, NEW, PASSED, PATIENCE, Client, FrontCases, Log, front_of, parser, reply

PASS = """
import os, sys
numbers, pid, count, *words = sys.argv[1:]
for at, number in enumerate(numbers.split(",")):
    os.dup2(int(number), 100 + at)
for at, number in enumerate(numbers.split(",")):
    os.dup2(100 + at, 3 + at)
os.closerange(3 + len(numbers.split(",")), 200)
os.environ.update(LISTEN_PID=pid or str(os.getpid()), LISTEN_FDS=count)
os.execv(words[0], words)
"""
NOT_PASSED = "metad-front: no socket was passed: LISTEN_PID has to be the front's, and LISTEN_FDS the number of sockets\n"
NOT_LISTENING = "metad-front: file %d, which was passed, is no Unix-domain socket at which somebody listens\n"
NO_SOCKET = "metad-front: file %d, which was passed, is no socket: %s\n"
SHOW_ENVIRONMENT = 'for it in LISTEN_PID LISTEN_FDS LISTEN_FDNAMES; do eval "test -z \\"\\${$it+set}\\"" || exit 7; done; exec "$0"'


def bound_at(path):
    """A socket at a path, where nobody listens yet."""
    link = socket.socket(socket.AF_UNIX)
    link.bind(str(path))
    return link


class Sockets(FrontCases):
    """Where a front listens."""

    def refused(self, *words, **how):
        """What is said by a front that ends with status 1."""
        ran = subprocess.run([FRONT, *words], capture_output=True, text=True, timeout=PATIENCE, **how)
        self.assertEqual((ran.returncode, ran.stdout), (1, ""), ran.stderr)
        return ran.stderr

    def test_left(self):
        """A socket that was left by a front that was killed is taken by the next front."""
        path = Path(self.room, "socket")
        killed = front_of("--quiet", path, self.program)
        self.wait_for(path, killed)
        killed.kill()
        killed.communicate(timeout=PATIENCE)
        self.assertTrue(path.is_socket(), "a socket is left")
        with self.front() as (path, _), Client(path) as client:
            self.assertEqual(client.ask(NEW), reply(1, "c1"), "an object")

    def test_in_use(self):
        """Where somebody answers, a second front ends, and the first one goes on; also where so many wait that nobody
        else is let in."""
        with self.front() as (path, _), Client(path) as client:
            self.assertEqual(self.refused(path, self.program), f"metad-front: {path} cannot be bound: somebody answers there\n")
            self.assertEqual(client.ask(NEW), reply(1, "c1"), "the first front")
            with Client(path) as other:
                self.assertEqual(json.loads(other.ask(NEW))["reply"], 1, "a new client")
        busy = Path(self.room, "busy")
        with bound_at(busy) as listener, socket.socket(socket.AF_UNIX) as waits:
            listener.listen(0)
            waits.connect(str(busy))
            self.assertEqual(self.refused(busy, self.program), f"metad-front: {busy} cannot be bound: somebody answers there\n")
            self.assertTrue(busy.is_socket(), "the busy socket is gone")

    def test_no_sockets(self):
        """What is no socket stays, also a link to one that was left."""
        file, link, left = (Path(self.room, name) for name in ("file", "link", "left"))
        file.write_text("kept")
        bound_at(left).close()
        link.symlink_to(left)
        for path in (file, link):
            said = self.refused(path, self.program)
            self.assertEqual(said, f"metad-front: {path} cannot be bound: Address already in use\n", "what it says")
        self.assertEqual((file.read_text(), link.is_symlink(), left.is_socket()), ("kept", True, True), "what is there")

    def test_at_once(self):
        """Of fronts that begin at once over a socket that was left, one listens there, and the others end."""
        path = Path(self.room, "socket")
        bound_at(path).close()
        fronts = [front_of("--quiet", path, self.program) for _ in range(4)]
        try:
            others = [process for process in fronts if self.ends_or_listens(process)]
            self.assertEqual(len(others), 3, "how many have ended")
            self.assertEqual({process.returncode for process in others}, {1}, "their statuses")
            with Client(path) as client:
                self.assertEqual(json.loads(client.ask(NEW))["reply"], 1, "an object")
        finally:
            for process in fronts:
                process.kill()
                process.communicate()

    def ends_or_listens(self, process):
        """Waits for the first that a front says; whether it has ended then."""
        said = process.stderr.readline()
        return not said.startswith("metad-front: listening") and process.wait(PATIENCE) is not None

    def test_taken_away(self):
        """A front that ends does not remove a file that has replaced its socket."""
        path, log = Path(self.room, "socket"), Log(Path(self.room, "log"))
        with log.path.open("wb") as stderr, subprocess.Popen([FRONT, path, self.program], stderr=stderr) as process:
            try:
                log.wait_for(self, f"metad-front: listening at {path}", process)
                path.unlink()
                path.write_text("of somebody else")
            finally:
                process.terminate()
            self.assertEqual((process.wait(PATIENCE), path.read_text()), (0, "of somebody else"), "what is there")

    def test_mode(self):
        """The rights of the socket are those that `--mode` says, and else those that the umask leaves."""
        for options, umask, wanted in ((("--mode", "660"), 0o077, 0o660), (("--mode", "0600"), 0, 0o600), ((), 0o027, 0o750)):
            before = os.umask(umask)
            try:
                with self.front(options=("--quiet", *options)) as (path, _):
                    self.assertEqual(oct(path.stat().st_mode & 0o777), oct(wanted), f"the rights by {options}")
            finally:
                os.umask(before)

    @contextmanager
    def passed(self, numbers, *words, pid="", count=None):
        """A front to which files are passed as systemd does it."""
        given = [sys.executable, "-c", PASS, ",".join(map(str, numbers)), pid, count or str(len(numbers)), str(FRONT), *words]
        pipe = subprocess.PIPE
        with subprocess.Popen(given, stdout=pipe, stderr=pipe, text=True, pass_fds=numbers) as process:
            try:
                yield process
            finally:
                process.kill()

    def test_passed(self):
        """A passed socket: clients that came before the front are served, the server does not learn of the socket, and it stays
        when the front ends."""
        path = Path(self.room, "socket")
        with bound_at(path) as listener:
            listener.listen()
            with Client(path) as early:
                early.say(NEW)
                with self.passed([listener.fileno()], "--quiet", "-", "sh", "-c", SHOW_ENVIRONMENT, self.program) as process:
                    self.assertEqual(early.hear(), reply(1, "c1"), "the early client")
                    with Client(path) as later:
                        self.assertEqual(later.ask(NEW), reply(1, "c2"), "a later client")
                    process.terminate()
                    said = process.communicate(timeout=PATIENCE)
                    self.assertEqual((process.returncode, *said), (0, "", f"metad-front: listening at {path}\n"), "its end")
            self.assertTrue(path.is_socket(), "the socket is gone")

    def test_two_passed(self):
        """Clients of each of two sockets that are passed have sessions of one server, and both sockets stay at the end."""
        paths = [Path(self.room, name) for name in ("first", "second")]
        with bound_at(paths[0]) as first, bound_at(paths[1]) as second:
            first.listen()
            second.listen()
            with self.passed([first.fileno(), second.fileno()], "--quiet", "-", self.program) as process:
                said = [process.stderr.readline() for _ in paths]
                self.assertEqual(said, [f"metad-front: listening at {path}\n" for path in paths], "what it says")
                clients = [self.enterContext(Client(path)) for path in paths for _ in range(2)]
                self.assertEqual(sorted(client.name() for client in clients), ["c1", "c2", "c3", "c4"], "their sessions")
                cell, join = '{"class":"Cell","do":"new"}', '{"do":"join","from":"%s","name":"level","types":["int"],"object":1,"method":"seen(int)"}'
                self.assertEqual([clients[0].ask(cell), clients[2].ask(cell)], [reply(1, clients[0].name()), reply(1, clients[2].name())], "objects")
                self.assertEqual(clients[2].ask(join % clients[0].name()), reply(True, clients[2].name()), "a join of the other's")
                process.terminate()
                self.assertEqual((process.communicate(timeout=PATIENCE), process.returncode), (("", ""), 0), "its end")
        self.assertEqual([path.is_socket() for path in paths], [True, True], "the sockets")

    def test_one_of_two(self):
        """Where one of several files that are passed is no socket that listens, the front ends and names it."""
        with bound_at(Path(self.room, "socket")) as link, socket.socket() as network, open(os.devnull, "rb") as file:
            link.listen()
            network.bind(("127.0.0.1", 0))
            network.listen()
            for second, count, wanted in (
                (network, None, NOT_LISTENING % 4),
                (file, None, NO_SOCKET % (4, "Socket operation on non-socket")),
                (link, "3", NOT_LISTENING % 5),
            ):
                with self.passed([link.fileno(), second.fileno()], "-", self.program, count=count) as process:
                    said = process.communicate(timeout=PATIENCE)
                    self.assertEqual((process.returncode, *said), (1, "", wanted), f"what is said of {second}")

    def test_units(self):
        """The units of the examples: a front that is passed its socket, with words that it takes."""
        socket_unit, service = ((ROOT / "examples" / "systemd" / f"metad-front.{it}").read_text() for it in ("socket", "service"))
        (words,) = re.findall(r"^ExecStart=\S+/metad-front (.*)$", service, re.MULTILINE)
        given = parser().parse_args(words.split())
        self.assertEqual((given.socket, given.program, given.args), (PASSED, "/usr/local/bin/metad", ["--turns", "100"]), "the words")
        self.assertIn("KillMode=mixed", service.splitlines(), "who is asked to end")
        self.assertTrue(re.search(r"^ListenStream=/", socket_unit, re.MULTILINE), "where clients connect")

    def test_not_passed(self):
        """What was passed to somebody else, too many, and what is no socket that listens."""
        self.assertEqual(self.refused("-", self.program), NOT_PASSED, "without anything")
        with bound_at(Path(self.room, "socket")) as link, open(os.devnull, "rb") as file, socket.socket() as network:
            network.bind(("127.0.0.1", 0))
            network.listen()
            for source, keys, wanted in (
                (link, {"pid": "1"}, NOT_PASSED),
                (link, {"count": "0"}, NOT_PASSED),
                (link, {"count": "two"}, NOT_PASSED),
                (link, {}, NOT_LISTENING % 3),
                (network, {}, NOT_LISTENING % 3),
                (file, {}, NO_SOCKET % (3, "Socket operation on non-socket")),
            ):
                with self.passed([source.fileno()], "-", self.program, **keys) as process:
                    said = process.communicate(timeout=PATIENCE)
                    self.assertEqual((process.returncode, *said), (1, "", wanted), f"what is said of {source} with {keys}")
