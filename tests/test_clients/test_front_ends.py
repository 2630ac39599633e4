"""How a front ends: by its server, by signals, and by words that mean nothing or ask for what cannot be had."""

import json
import os
import select
import signal
import socket
import subprocess
import sys
import time
from contextlib import contextmanager
from pathlib import Path

from tests.support.program import library

from .fronts import FRONT, GREETED_BY_PYTHON, GREETED_BY_SHELL, NEW, PATIENCE, STATUS, Client, FrontCases, front_of, reply
from .stand_servers import make_gate, open_gate, wait_until_true

USAGE = "usage: metad-front [options] SOCKET PROGRAM [ARGS...]\n"
HELLO = "metad-front: the server wrote no line of the protocol: b'hello'\n"
REFUSED = "metad: class file refused: C01 at class 0\nmetad-front: the server has ended with status 1\n"
CALL = '{"args":[],"call":"note()","object":1,"sender":0,"session":"c1"}'
SECONDS_TO_END = 5 + 10 + 40  # of the server, of monitors that read, and for a busy machine
TAKING_ITS_TIME = "import signal, time; signal.signal(signal.SIGTERM, signal.SIG_IGN)"


class Ends(FrontCases):
    """The ends of a front."""

    @contextmanager
    def served(self):
        """A front, a client of it that was answered, and the number of its server."""
        note = Path(self.room, "pid")
        path = Path(self.room, "socket")
        # a shell may start these tests in the background with interrupts ignored
        own = {"preexec_fn": lambda: signal.signal(signal.SIGINT, signal.SIG_DFL)}
        process = front_of("--quiet", path, "sh", "-c", f'echo $$ > "{note}"; exec "{self.program}"', **own)
        try:
            self.wait_for(path, process)
            with Client(path) as client:
                self.assertEqual(json.loads(client.ask(NEW))["reply"], 1, "an object")
                yield process, client, int(note.read_text())
        finally:
            process.kill()
            process.communicate()

    def said(self, *words, before=0):
        """The log of a front that has listened and ended: `before` is the number of words before `listening`."""
        words = [*words[:before], f"listening at {self.room}/socket", *words[before:]]
        return "".join(f"metad-front: {it}\n" for it in words)

    def test_server_ends(self):
        """The server's end ends the front, which says how, and its clients."""
        with self.served() as (process, client, number):
            os.kill(number, signal.SIGSTOP)
            client.say(NEW)
            os.kill(number, signal.SIGKILL)
            self.assertEqual(client.until_closed(), b"", "the end for a client")
            said = process.communicate(timeout=PATIENCE)
            self.assertEqual(said, ("", self.said("the server was ended by signal 9")), "what it says")
            self.assertEqual(process.returncode, 1, "the front's status")
            self.assertFalse(Path(self.room, "socket").exists(), "its socket is there")

    def test_signals(self):
        """An interrupt and SIGTERM end the front in order, and its server with it."""
        for number in (signal.SIGINT, signal.SIGTERM):
            with self.subTest(signal=number), self.served() as (process, client, server):
                process.send_signal(number)
                said = process.communicate(timeout=PATIENCE)
                self.assertEqual((process.returncode, *said), (0, "", self.said()), "the front's end")
                self.assertFalse(Path(self.room, "socket").exists(), "its socket is there")
                self.assertFalse(Path(f"/proc/{server}").exists(), "its server is there")
                self.assertEqual(client.until_closed(), b"", "the end for a client")
        self.tell("cases: 2")

    def test_tied(self):
        """A tied front ends when its standard input ends, and ignores what it reads there. The input cannot be a file."""
        path = Path(self.room, "socket")
        process = front_of("--quiet", "--tied", path, self.program, stdin=subprocess.PIPE)
        try:
            self.wait_for(path, process)
            process.stdin.write("nothing\n")
            process.stdin.flush()
            with Client(path) as client:
                self.assertEqual(json.loads(client.ask(NEW))["reply"], 1, "an object")
                said = process.communicate(timeout=PATIENCE)
                self.assertEqual(client.until_closed(), b"", "the end for a client")
        finally:
            process.kill()
        self.assertEqual((process.returncode, *said), (0, "", self.said()), "the front's end")
        for given in ({"stdin": subprocess.DEVNULL}, {"preexec_fn": lambda: os.close(0)}):
            process = front_of("--tied", path, self.program, **given)
            said = process.communicate(timeout=PATIENCE)
            self.assertEqual((process.returncode, said[0]), (2, ""), "the status")
            self.assertTrue(said[1].startswith(USAGE) and "--tied needs a pipe" in said[1], said[1])

    def test_hangup_passed_over(self):
        """A front that was started to pass over hangups, as by nohup, does."""
        path = Path(self.room, "socket")
        words = ["sh", "-c", 'trap "" HUP; exec "$@"', "sh", FRONT, "--quiet", path, self.program]
        with subprocess.Popen(words, stderr=subprocess.DEVNULL) as process:
            try:
                self.wait_for(path, process)
                process.send_signal(signal.SIGHUP)
                with Client(path) as client:
                    self.assertEqual(json.loads(client.ask(NEW))["reply"], 1, "an object")
            finally:
                process.terminate()
            self.assertEqual(process.wait(PATIENCE), 0, "the front's end")

    def test_server_that_stays(self):
        """A server that does not end when it is asked to is killed."""
        path, note = Path(self.room, "socket"), Path(self.room, "pid")
        script = f"{GREETED_BY_PYTHON}{TAKING_ITS_TIME}; import os; open({str(note)!r}, 'w').write(str(os.getpid())); time.sleep(100)"
        process = front_of("--quiet", path, sys.executable, "-c", script)
        try:
            self.wait_for(path, process)
            wait_until_true(self, lambda: note.exists() and note.read_text(), "the server passes over SIGTERM")
            process.terminate()
            self.assertEqual((*process.communicate(timeout=PATIENCE), process.returncode), ("", self.said(), 0), "its end")
            self.assertFalse(Path(f"/proc/{note.read_text()}").exists(), "its server is there")
        finally:
            process.kill()
            process.communicate()

    def test_asked_meanwhile(self):
        """The front ends in its time whatever its clients and its server do: with clients that flood it, do not read and do
        not end their lines, and with a server that is stopped, that writes without an end, or that ignores SIGTERM."""
        stopped = f'{GREETED_BY_SHELL}kill -STOP $$; exec "{self.program}"'
        endless = f'trap "" TERM; {GREETED_BY_SHELL}read line; while :; do echo \'{CALL}\'; done'
        for what, script in (("stopped", stopped), ("endless", endless), ("usual", f'exec "{self.program}"')):
            with self.subTest(server=what):
                path, monitor = Path(self.room, "socket"), Path(self.room, "monitor")
                process = front_of("--quiet", "--monitor", monitor, path, "sh", "-c", script)
                try:
                    # nobody has connected before the first one, so its session is that of the calls
                    self.assertEqual(process.stderr.readline() + process.stderr.readline(), self.said(f"monitors at {monitor}", before=1))
                    with Client(path) as first, Client(path) as half, Client(path) as flood, Client(monitor):
                        first.say(STATUS)
                        half.link.sendall(60_000 * b"x")
                        flood.link.setblocking(False)
                        with self.assertRaises(BlockingIOError):
                            while True:
                                flood.link.send(1_000 * f"{STATUS}\n".encode())
                        begun = time.monotonic()
                        process.terminate()
                        said = process.communicate(timeout=PATIENCE)
                    self.assertEqual((process.returncode, *said), (0, "", ""), "its end")
                    self.assertLess(time.monotonic() - begun, SECONDS_TO_END, "how long it takes")
                finally:
                    process.kill()
                    process.communicate()

    def test_asked_early(self):
        """The front ends even if it is asked to right before it waits."""
        path, note = Path(self.room, "socket"), Path(self.room, "note")
        own = {**os.environ, "LD_PRELOAD": library("early_signal"), "EARLY_SIGNAL": str(note)}
        process = front_of("--quiet", path, self.program, env=own)
        try:
            self.assertEqual(process.stderr.readline(), self.said(), "what it says")
            with Client(path) as client:
                self.assertEqual(client.ask(NEW), reply(1, "c1"), "an object")
                note.touch()  # from now on the next wait comes with a signal
            said = process.communicate(timeout=PATIENCE)
            self.assertEqual((process.returncode, *said), (0, "", ""), "the front's end")
            self.assertFalse(path.exists(), "its socket is there")
        finally:
            process.kill()
            process.wait()

    def test_words(self):
        """Words that mean nothing end the front with status 2 and a line of usage."""
        path = Path(self.room, "socket")
        server = (path, self.program)
        for given, wanted in (
            ((), "metad-front: error: the following arguments are required: SOCKET, PROGRAM\n"),
            ((path,), "metad-front: error: the following arguments are required: PROGRAM\n"),
            (("--slow", *server), None),
            (("--qui", *server), None),
            (("", self.program), None),
            (("--mode", "888", *server), None),
            (("--mode", "", *server), None),
            (("--mode", "1777", *server), None),
            (("--mode", "-1", *server), None),
            (("--mode", "660", "-", self.program), None),
            (("--monitor-mode", "660", *server), None),
            (("--share", "a b", *server), None),
            (("--share", "", *server), None),
            (("--share", "c7", *server), None),
            (("--share", "n" * 65, *server), None),
            (("--record", "", *server), None),
            (("--monitor",), None),
        ):
            with self.subTest(words=given):
                ran = subprocess.run([FRONT, *given], capture_output=True, text=True, timeout=PATIENCE)
                self.assertEqual((ran.returncode, ran.stdout, path.exists()), (2, "", False), "its status")
                self.assertTrue(ran.stderr.startswith(USAGE + "metad-front: error: "), ran.stderr)
                self.assertNotIn("Traceback", ran.stderr, "what it says")
                self.assertIn(wanted or "", ran.stderr, "what it says")

    def test_what_cannot_be_had(self):
        """The front ends with status 1 if something cannot be bound, started or opened, or if the server is no server."""
        path, taken, room = Path(self.room, "socket"), Path(self.room, "taken"), self.room
        taken.write_text("")
        for given, wanted in (
            ((path, f"{room}/nothing"), f"metad-front: {room}/nothing cannot be started: No such file or directory\n"),
            ((taken, self.program), f"metad-front: {taken} cannot be bound: Address already in use\n"),
            ((f"{room}/no/way", self.program), f"metad-front: {room}/no/way cannot be bound: No such file or directory\n"),
            ((Path(room, 200 * "x"), self.program), None),
            (("--monitor", path, path, self.program), f"metad-front: {path} cannot be bound: somebody answers there\n"),
            (("--record", room, path, self.program), f"metad-front: {room} cannot be written: Is a directory\n"),
            (("--quiet", path, "echo", "hello"), HELLO),
            (("--quiet", path, "false"), "metad-front: the server has ended with status 1\n"),
            (("--quiet", path, "true"), "metad-front: the server has ended with status 0\n"),
        ):
            with self.subTest(words=given):
                ran = subprocess.run([FRONT, *given], capture_output=True, text=True, timeout=PATIENCE)
                self.assertEqual((ran.returncode, ran.stdout, path.exists()), (1, "", False), f"its status: {ran.stderr}")
                self.assertNotIn("Traceback", ran.stderr, "what it says")
                wanted_lines = sorted((wanted or ran.stderr).splitlines())
                self.assertEqual(sorted(ran.stderr.splitlines()), wanted_lines, "what it says")
                self.assertTrue(ran.stderr, "it says nothing")
        self.assertTrue(taken.exists(), "the file there is gone")

    def test_not_served(self):
        """A server that refuses its class file or its words ends the front with the server's own message and status. The
        front does not say that it listens, with or without workers."""
        path = Path(self.room, "socket")
        for given, status, wanted in (
            (("--quiet", path, self.program, "/dev/null"), 1, REFUSED),
            (("--quiet", "--workers", "2", path, self.program, "/dev/null"), 1, REFUSED),
            (("--quiet", path, self.program, "--turns", "0"), 2, "metad-front: the server has ended with status 2\n"),
            (("--quiet", path, "sh", "-c", "read line; exit 7"), 7, "metad-front: the server has ended with status 7\n"),
        ):
            with self.subTest(words=given):
                ran = subprocess.run([FRONT, *given], capture_output=True, text=True, timeout=PATIENCE)
                self.assertEqual((ran.returncode, ran.stdout, path.exists()), (status, "", False), f"its status: {ran.stderr}")
                self.assertLessEqual(set(wanted.splitlines()), set(ran.stderr.splitlines()), "what it says")
                self.assertNotIn("listening", ran.stderr, "what it says")

    def test_listening(self):
        """The front says that it listens, and tells systemd that it is ready, once its server serves and no sooner. Clients
        that connected before are served then."""
        path, place, gate = Path(self.room, "socket"), Path(self.room, "notify"), make_gate(self.room)
        with socket.socket(socket.AF_UNIX, socket.SOCK_DGRAM) as link:
            link.bind(str(place))
            own = {**os.environ, "NOTIFY_SOCKET": str(place), "WATCHDOG_USEC": "100000"}
            process = front_of("--quiet", path, "sh", "-c", f'cat "{gate}"; exec "{self.program}"', env=own)
            try:
                self.wait_for(path, process)
                with Client(path) as client:
                    client.say(NEW)
                    ready = select.select([link, process.stderr, client.link], [], [], 0.5)[0]
                    self.assertEqual(ready, [], "what is said before the server serves")
                    open_gate(gate)
                    link.settimeout(PATIENCE)
                    self.assertEqual(link.recv(4_096).decode(), f"READY=1\nSTATUS=listening at {path}\n", "lines to systemd")
                    self.assertEqual(process.stderr.readline(), self.said(), "what it says")
                    self.assertEqual(client.hear(), reply(1, "c2"), "an early client, which came after the one that waited")
            finally:
                process.terminate()
                process.communicate(timeout=PATIENCE)

    def test_help(self):
        """The help goes to standard output, wherever it is asked for. If that cannot be written, the front says so."""
        with open("/dev/full", "wb") as full:
            for words, where, wanted in (
                (("--help",), subprocess.PIPE, (0, "")),
                (("--quiet", "-h"), subprocess.PIPE, (0, "")),
                (("--help",), full, (1, "metad-front: standard output cannot be written: No space left on device\n")),
            ):
                run = [FRONT, *words]
                ran = subprocess.run(run, stdout=where, stderr=subprocess.PIPE, text=True, timeout=PATIENCE)
                self.assertEqual((ran.returncode, ran.stderr), wanted, f"the end of {words}")
                self.assertTrue(where is full or ran.stdout.startswith(USAGE), "the help")
        reader, writer = os.pipe()
        os.close(reader)
        ran = subprocess.run([FRONT, "--help"], stdout=writer, stderr=subprocess.PIPE, timeout=PATIENCE)
        os.close(writer)
        self.assertEqual((ran.returncode, ran.stderr), (0, b""), "where nobody reads it")

    def test_words_of_the_server(self):
        """Words after PROGRAM are the server's, even if they are options of the front. There may be no words."""
        path = Path(self.room, "socket")
        show = 'import json, sys; print(json.dumps({"reply": sys.argv[1:], "session": "c1"}, separators=(",", ":")), flush=True); input()'
        for words in ((), ("--quiet", "-h", "--", "x y", "--share", "")):
            script = f"{GREETED_BY_PYTHON}sys.stdin.readline()\n{show}"
            with self.front("-c", script, *words, server=[sys.executable]) as (path, _), Client(path) as client:
                self.assertEqual(client.ask(STATUS), reply(list(words), "c1"), "its words")
