"""Interrupts of the client in Python, at random moments: none takes an answer or a call from anybody.

A thread sends signals to the main one, whose handler raises an exception while the main thread does something that may
be interrupted. Each signal waits for the one before to be handled, so that none comes where nobody expects it.
"""

import itertools
import os
import random
import signal
import subprocess
import sys
import threading
import time
from contextlib import contextmanager
from pathlib import Path

import metad

from tests.support.seeds import SEED

from . import PYTHON
from .fronts import ClientCases

OBJECTS = 50
INTERRUPTS = 150  # that have to come
BEHIND = 200  # commands that are given while the server is held up: more than fits into a pipe
TEXT_MOST = 4_096
STAYS = """
import metad, sys, time
with metad.start(sys.argv[1]) as server:
    session = server.session("a")
    session.new("QObject")
    try:
        print("ready", flush=True)
        time.sleep(60)
    except KeyboardInterrupt:
        print(session.status()["objects"], flush=True)
"""  # a program whose server outlives an interrupt
HELD_UP = """
import metad, sys
note, program = sys.argv[1:]
with metad.start("sh", "-c", f'echo $$ > "{note}"; exec "{program}"') as server:
    session = server.session("a")
    print("ready", flush=True)
    sys.stdin.readline()
    pending = session.send("new", class_="QObject")
    try:
        print("waits", flush=True)
        pending.result()
    except KeyboardInterrupt:
        print("interrupted", pending.done(), flush=True)
    sys.stdin.readline()
    print(pending.result(), session.status()["objects"], flush=True)
"""  # a program that waits for an answer while its server is held up


class Interrupted(Exception):
    """What the handler raises."""


class Interrupts(ClientCases):
    """A client that is interrupted."""

    def setUp(self):
        super().setUp()
        self.chance = random.Random(SEED)
        self.count, self.is_armed = 0, False
        before = signal.signal(signal.SIGUSR1, self.interrupt)
        self.addCleanup(signal.signal, signal.SIGUSR1, before)

    def interrupt(self, _number, _frame):
        if self.is_armed:
            self.is_armed, self.count = False, self.count + 1
            raise Interrupted

    @contextmanager
    def storm(self, most):
        """Signals come after so many seconds at most, again and again."""
        over, main = threading.Event(), threading.main_thread().ident

        def send():
            while not over.wait(self.chance.uniform(0, most)):
                signal.pthread_kill(main, signal.SIGUSR1)

        thread = threading.Thread(target=send)
        thread.start()
        try:
            yield
        finally:
            self.is_armed = False
            over.set()
            thread.join()

    def tried(self, call):
        """The result of a call, or None if it was interrupted."""
        try:
            self.is_armed = True
            came = call()
            self.is_armed = False
            return came
        except Interrupted:
            return None

    @contextmanager
    def named_objects(self):
        """A session with named objects, whose caller is interrupted."""
        with metad.start(self.program) as server, self.storm(0.002):
            session = server.session("a")
            for at in range(1, OBJECTS + 1):
                session.new("QObject")
                session.set(at, "objectName", f"name {at}")
            yield session

    def test_waits(self):
        """Each command has the answer that is its own, though the wait for it was interrupted."""
        with self.named_objects() as session:
            while self.count < INTERRUPTS:
                at = self.chance.randrange(OBJECTS) + 1
                pending = session.send("get", object=at, property="objectName")
                self.assertIn(self.tried(pending.result), (None, f"name {at}"), "the answer where it is had")
                self.assertEqual(pending.result(), f"name {at}", "the answer later")

    def test_methods(self):
        """A method that was interrupted, wherever it was, has no part in the answers to others."""
        with self.named_objects() as session:
            while self.count < INTERRUPTS:
                at = self.chance.randrange(OBJECTS) + 1
                self.assertIn(self.tried(lambda: session.get(at, "objectName")), (None, f"name {at}"), "its answer")
                self.assertEqual(session.get(at, "objectName"), f"name {at}", "the answer of another one")

    def test_calls(self):
        """Each call is delivered once and in order, though the waiting thread is interrupted."""
        heard, sure = [], []
        with metad.start(self.program) as server, self.storm(0.002):
            session = server.session("a", on_call=heard.append)
            session.new("Cell")
            for number in itertools.takewhile(lambda _: self.count < INTERRUPTS, itertools.count()):
                pending = self.tried(lambda: session.send("invoke", object=1, method="seen(int)", args=[number]))
                if pending is not None:
                    sure.append(number)
                    self.tried(pending.result)
            session.status()
        numbers = [call.args[0] for call in heard]
        self.assertEqual(numbers, sorted({*numbers, *sure}), "what was delivered")

    def test_writing(self):
        """An interrupt while the server takes nothing leaves no half of a line."""
        note = Path(self.room, "pid")
        with metad.start("sh", "-c", f'echo $$ > "{note}"; exec "{self.program}"') as server:
            session = server.session("a")
            session.new("QObject")
            number, text = int(note.read_text()), "n" * TEXT_MOST
            os.kill(number, signal.SIGSTOP)
            try:
                with self.storm(0.5):
                    given = [self.tried(lambda: session.send("set", object=1, property="objectName", value=text))]
                    given += [session.send("get", object=1, property="objectName") for _ in range(BEHIND)]
                    given += [session.send("set", object=1, property="objectName", value=text) for _ in range(BEHIND)]
                    self.assertIsNone(self.tried(given[-1].result), "a wait that is interrupted")
            finally:
                os.kill(number, signal.SIGCONT)
            answers = [it.result() for it in given if it]
            # a first command that was interrupted may have been written before that, or not
            possible = [text] if given[0] else [text, ""]
            wanted = [[True] * bool(given[0]) + [it] * BEHIND + [True] * BEHIND for it in possible]
            self.assertIn(answers, wanted, "the answers")

    def test_keyboard(self):
        """An interrupt from the keyboard while an answer is waited for leaves the command under way."""
        note = Path(self.room, "pid")
        with self.program_of(HELD_UP, note, self.program) as process:
            self.assertEqual(process.stdout.readline(), "ready\n", "what it does")
            number = int(note.read_text())
            os.kill(number, signal.SIGSTOP)
            try:
                print("go", file=process.stdin, flush=True)
                self.assertEqual(process.stdout.readline(), "waits\n", "what it does")
                time.sleep(0.2)
                process.send_signal(signal.SIGINT)
                self.assertEqual(process.stdout.readline(), "interrupted False\n", "how the wait ends")
            finally:
                os.kill(number, signal.SIGCONT)
            print("go", file=process.stdin, flush=True)
            self.assertEqual(process.stdout.read(), "1 1\n", "the answer, and how many objects there are")
            self.assertEqual(process.wait(), 0, "the status")

    def test_terminal(self):
        """An interrupt of all programs of a terminal leaves the server to the program that started it."""
        with self.program_of(STAYS, self.program, start_new_session=True) as process:
            self.assertEqual(process.stdout.readline(), "ready\n", "what it does")
            time.sleep(0.2)
            os.killpg(process.pid, signal.SIGINT)
            self.assertEqual(process.stdout.read(), "1\n", "how many objects the server has")
            self.assertEqual(process.wait(), 0, "the status")

    @contextmanager
    def program_of(self, code, *words, **how):
        """A program in Python that uses the client, with pipes to it."""
        pipe, own = subprocess.PIPE, {**os.environ, "PYTHONPATH": os.environ.get("PYTHONPATH", str(PYTHON))}
        words = [sys.executable, "-c", code, *words]
        with subprocess.Popen(words, stdin=pipe, stdout=pipe, text=True, env=own, **how) as process:
            try:
                yield process
            finally:
                process.kill()
