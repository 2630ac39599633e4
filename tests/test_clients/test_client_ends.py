"""How servers that the client in Python has started begin and end."""

import gc
import os
import signal
import socket
import subprocess
import sys
import time
from pathlib import Path

import metad

from tests.support.program import SECONDS

from . import PYTHON
from .fronts import ClientCases

OWNER = """
import metad, sys, time
server = metad.start("sh", "-c", sys.argv[1])
server.session("a").new("QObject")
print("ready", flush=True)
time.sleep(60)
"""  # a program that does not close its server
LINGERS = """
import sys, time
input(), print('{"error":"E02","session":"-"}')
sys.stdin.read(), time.sleep(1)
"""  # a server that does not end at once with its input


class Ends(ClientCases):
    """The beginning and the end of a server."""

    def wait_until(self, what, holds):
        until = time.monotonic() + SECONDS
        while not holds():
            self.assertLess(time.monotonic(), until, what)
            time.sleep(0.01)

    def noted_end(self):
        """The words of a shell that runs the program and then notes its status, and the path of the note."""
        note = Path(self.room, "ended")
        return f'"{self.program}"; echo $? > "{note}.new"; mv "{note}.new" "{note}"', note

    def test_class_files(self):
        """A refused class file is reported when the server is started."""
        refused = self.raised("no JSON", metad.ClassFileRefused, metad.start, self.program, "/dev/null")
        said = "metad: class file refused: C01 at class 0\n"
        self.assertEqual((refused.status, refused.stderr), (1, said), "how it ended")
        self.assertEqual(str(refused), f"the server has ended with status 1: {said.strip()}", "its text")
        strange = {"classes": [{"name": "Lamp", "super": "Light"}]}
        refused = self.raised("no superclass", metad.ClassFileRefused, metad.start, self.program, classes=strange)
        self.assertEqual(refused.stderr, "metad: class file refused: C04 at class 1\n", "the fault")

    def test_not_started(self):
        """Words that mean nothing, a program that does nothing, and one that is not there."""
        ended = self.raised("words that mean nothing", metad.NotStarted, metad.start, self.program, "--turns", "none")
        self.assertEqual((ended.status, bool(ended.stderr)), (2, True), "the status, and whether there is a text")
        self.assertNotIsInstance(ended, metad.ClassFileRefused, "the exception")
        began = time.monotonic()
        self.raised("no answer", metad.NotAnswered, metad.start, "sleep", str(SECONDS), timeout=0.1)
        self.assertLess(time.monotonic() - began, SECONDS / 2, "how long it takes")
        self.raised("a program that is not there", OSError, metad.start, Path(self.room, "nothing"))

    def test_first_line(self):
        """What a server is given when it is started is answered for nobody, and enters no session."""
        note = Path(self.room, "given")
        with metad.start("sh", "-c", f'tee "{note}" | "{self.program}"') as server:
            self.assertEqual(server.session("a").new("QObject"), 1, "the first object")
        first, second = note.read_text().splitlines()
        alone = subprocess.run([self.program], input=f"{first}\n", capture_output=True, text=True, check=True)
        self.assertEqual(alone.stdout, '{"error":"E02","session":"-"}\n', "what answers it")
        self.assertEqual(second, '{"class":"QObject","do":"new","session":"a"}', "the next line")

    def test_classes(self):
        """Classes that are given as they are."""
        lamp = {"name": "Lamp", "super": "QObject", "properties": [{"name": "level", "type": "int"}]}
        with metad.start(self.program, classes={"classes": [lamp]}) as server:
            meta = server.session("a").meta("Lamp")
            self.assertEqual(meta["properties"], ["objectName", "level"], "the properties")

    def test_not_closed(self):
        """A server that nobody holds any more warns of that, and ends."""
        script, note = self.noted_end()
        server = metad.start("sh", "-c", script)
        server.session("a", on_call=print).new("QObject")
        with self.assertWarns(ResourceWarning):
            del server
            gc.collect()
        self.wait_until("it does not end", note.exists)
        self.assertEqual(note.read_text(), "0\n", "its status")

    def test_held_by_a_session(self):
        """A server whose session is held is held."""
        session = metad.start(self.program).session("a")
        gc.collect()
        self.assertEqual(session.new("QObject"), 1, "an object")
        self.assertEqual(session.server.close(), 0, "the status")

    def test_owner_killed(self):
        """A server ends with the program that has started it, however that ends."""
        script, note = self.noted_end()
        own = {**os.environ, "PYTHONPATH": os.environ.get("PYTHONPATH", str(PYTHON))}
        with subprocess.Popen([sys.executable, "-c", OWNER, script], stdout=subprocess.PIPE, env=own) as process:
            self.assertEqual(process.stdout.readline(), b"ready\n", "what it does")
            process.send_signal(signal.SIGKILL)
        self.wait_until("it does not end", note.exists)
        self.assertEqual(note.read_text(), "0\n", "its status")

    def test_closed(self):
        """What is given to a server that was closed, and a close that takes too long."""
        with metad.start(self.program) as server:
            session = server.session("a")
        gone = self.raised("after the end", metad.ServerGone, session.status)
        self.assertEqual(gone.status, 0, "its status")
        server = metad.start(sys.executable, "-uc", LINGERS)
        self.raised("a server that does not end", metad.NotAnswered, server.close, timeout=0.05)
        self.assertEqual(server.close(), 0, "its status at the end")

    def test_connection_closed(self):
        """All commands under way end with the connection, and those to come."""
        path = Path(self.room, "socket")
        with socket.socket(socket.AF_UNIX) as listener:
            listener.bind(str(path))
            listener.listen()
            with metad.connect(path, live=False) as server, listener.accept()[0] as link:
                session = server.session("mine")
                first, *under_way = [session.send("new", class_="QObject") for _ in range(4)]
                link.recv(1)
                link.sendall(b'{"reply":1,"session":"c1"}\n{"rep')
                self.assertEqual(first.result(), 1, "the answer that came")
                self.raised("no answer in time", metad.NotAnswered, under_way[0].result, timeout=0.05)
                link.shutdown(socket.SHUT_RDWR)
                for pending in under_way:
                    gone = self.raised("a command under way", metad.ConnectionClosed, pending.result)
                    self.assertEqual((gone.status, str(gone)), (None, "the connection was closed"), "how it ended")
                self.raised("a later command", metad.ConnectionClosed, session.status)
                self.assertEqual((first.result(), session.known_as), (1, "c1"), "what was answered before")
                self.assertIsNone(server.close(), "what is known of the server")
