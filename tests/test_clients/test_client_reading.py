"""Who reads what a server writes: whoever waits for an answer, for all others too, without threads in the background.

The tests play the server at two pipes, so that they decide what comes when.
"""

import fcntl
import os
import signal
import struct
import sys
import termios
import threading
import time
from contextlib import contextmanager

import metad

from tests.support.program import SECONDS

from .fronts import PATIENCE, ClientCases

COMMANDS, THREADS = 50, 4
AHEAD, TEXT = 2_000, "n" * 200  # more than fits into pipes, in both directions


def reply(value):
    return f'{{"reply":{value},"session":"a"}}\n'.encode()


def call(number):
    return f'{{"args":[{number}],"call":"seen(int)","object":1,"sender":0,"session":"a"}}\n'.encode()


class Interrupted(Exception):
    """What a handler raises."""


class Played:
    """A server that a test plays: it reads and writes lines as they are."""

    def __init__(self):
        self.given, to_server = os.pipe()
        from_server, self.told = os.pipe()
        self.reader = open(from_server, "rb")
        self.server = metad.Server(self.reader, open(to_server, "wb"))
        self.session = self.server.session("a")

    def hear(self, count):
        """Reads so many lines that the client has written."""
        text = b""
        while text.count(b"\n") < count:
            text += os.read(self.given, 65_536)
        return text.decode().splitlines()

    def say(self, *lines):
        os.write(self.told, b"".join(lines))

    def is_read(self):
        """Whether the client has read all that was said."""
        return struct.unpack("i", fcntl.ioctl(self.reader, termios.FIONREAD, struct.pack("i", 0))) == (0,)

    def end(self):
        os.close(self.told)
        os.close(self.given)
        self.server.close()
        self.reader.close()


def threads():
    """The names of the threads that the client has started."""
    return sorted(it.name for it in threading.enumerate() if it.name.startswith("metad "))


def reads(thread):
    """Whether a thread reads until its answer has come."""
    frame = sys._current_frames().get(thread)
    while frame is not None and frame.f_code.co_name not in ("_read_until", "_take_first"):
        frame = frame.f_back
    return frame is not None


class Reading(ClientCases):
    """Waits for answers."""

    @contextmanager
    def played(self):
        played = Played()
        try:
            yield played
        finally:
            played.end()

    @contextmanager
    def handled(self, handler, played):
        """A signal comes when the main thread reads and has read all that was said, and is handled so."""
        before = signal.signal(signal.SIGUSR1, handler)
        main = threading.main_thread().ident

        def send():
            self.wait_until("nobody reads", lambda: reads(main) and played.is_read())
            signal.pthread_kill(main, signal.SIGUSR1)

        sender = threading.Thread(target=send)
        sender.start()
        try:
            yield
        finally:
            sender.join()
            signal.signal(signal.SIGUSR1, before)

    def wait_until(self, what, holds):
        until = time.monotonic() + SECONDS
        while not holds():
            self.assertLess(time.monotonic(), until, what)
            time.sleep(0.01)

    def test_no_threads(self):
        """Commands, callbacks and commands that are sent ahead need no thread."""
        heard = []
        with metad.start(self.program) as server:
            session = server.session("a", on_call=heard.append)
            cell = session.new("Cell")
            for value in range(COMMANDS):
                session.invoke(cell, "seen(int)", [value])
                self.assertEqual(threads(), [], "what runs besides the caller")
            sent = [session.send("get", object=cell, property="x") for _ in range(COMMANDS)]
            self.assertEqual([it.result(timeout=PATIENCE) for it in sent], [0] * COMMANDS, "the answers")
            self.assertEqual(threads(), [], "what runs besides the caller")
        self.assertEqual([it.args for it in heard], [[value] for value in range(COMMANDS)], "the calls")

    def test_handed_over(self):
        """Of several threads that wait, one reads for all; when it leaves, another one goes on."""
        with self.played() as played:
            sent = [played.session.send("status") for _ in range(THREADS)]
            answers, late = {}, []

            def wait(at):
                try:
                    answers[at] = sent[at].result(timeout=0.2 if at == 0 else PATIENCE)
                except metad.NotAnswered:
                    late.append(at)

            waits = [threading.Thread(target=wait, args=(at,)) for at in range(THREADS)]
            waits[0].start()  # reads first, and leaves when its time is over
            time.sleep(0.05)
            for it in waits[1:]:
                it.start()
            waits[0].join()
            self.assertEqual(late, [0], "who has left")
            played.say(reply(0), reply(1), reply(2))
            waits[2].join()
            self.assertEqual(answers[2], 2, "an answer, while another thread waits for a later one")
            played.say(reply(3))
            for it in waits:
                it.join()
            self.assertEqual((answers, sent[0].result()), ({1: 1, 2: 2, 3: 3}, 0), "the answers")
            self.assertEqual(threads(), [], "what runs besides these")

    def test_half_a_line(self):
        """An interrupt in the middle of a line, and of a call before the answer, loses nothing."""

        def interrupt(_number, _frame):
            raise Interrupted

        heard = []
        with self.played() as played:
            played.session.on_call = lambda it: heard.append(it.args[0])
            pending = played.session.send("status")
            whole = call(1) + call(2) + reply(7)
            ends = [5, len(call(1)) + 3, len(whole) - 4]
            for begin, end in zip([0, *ends], ends):
                played.say(whole[begin:end])
                with self.handled(interrupt, played):
                    self.raised("a wait in the middle of a line", Interrupted, pending.result)
            played.say(whole[ends[-1] :])
            self.assertEqual((pending.result(), heard), (7, [1, 2]), "the answer and the calls")

    def test_handler_asks(self):
        """A signal handler may give commands and wait, while what it interrupts waits too; both have their answers."""
        came = []

        def ask(_number, _frame):
            came.append(played.session.send("status").result(timeout=PATIENCE))

        def answer():
            played.hear(2)
            played.say(reply(1), reply(2))
            played.hear(1)  # by which what was interrupted looks again
            played.say(b'{"error":"E02","session":"-"}\n')

        for timeout in (None, PATIENCE):
            with self.played() as played, self.handled(ask, played):
                answerer = threading.Thread(target=answer)
                answerer.start()
                self.assertEqual(played.session.send("status").result(timeout), 1, "the answer that was waited for first")
                answerer.join()
                self.assertEqual(came.pop(), 2, "the answer in the handler")

    def test_handler_times_out(self):
        """A handler whose exception is a `TimeoutError` ends the wait of a method; the answer that comes later is of no other command."""

        def time_out(_number, _frame):
            raise TimeoutError("the time of the program is over")

        with self.played() as played, self.handled(time_out, played):
            late = self.raised("a method that waits", TimeoutError, played.session.status)
            self.assertEqual(str(late), "the time of the program is over", "what is raised")
            pending = played.session.send("status")
            played.say(reply(1))
            self.assertFalse(pending.done(), "whether a later command has the answer")
            played.say(reply(2))
            self.assertEqual(pending.result(PATIENCE), 2, "the answer to the later command")

    def test_answer_taken(self):
        """A method returns the answer that another thread has read just before it was to read."""
        with self.played() as played:
            connection = played.server.connection
            give = connection.give_all

            def give_all(answers, parts):
                give(answers, parts)
                played.say(reply(5))
                thread = threading.Thread(target=connection.wait, args=(answers[0], PATIENCE))
                thread.start()
                thread.join()

            connection.give_all = give_all
            self.assertEqual([played.session.status() for _ in range(3)], [5, 5, 5], "the answers")

    def test_handler_takes(self):
        """A signal handler that gives commands after an answer was read, and before it is taken, disturbs nobody."""
        with self.played() as played:
            session, files, sent = played.session, played.server.connection._files, []
            first_text = files.first_text
            played.say(reply(0))
            self.assertEqual(session.status(), 0, "the first answer")

            def interrupted():
                text = first_text()
                files.first_text = first_text
                played.say(reply(2))
                self.assertEqual(session.send("status").result(PATIENCE), 2, "the answer in the handler")
                sent.append(session.send("status"))
                return text

            for at in range(2):
                files.first_text = interrupted
                played.say(reply(1))
                self.assertEqual(session.status(), 1, "the answer of what was interrupted")
                played.say(b'{"error":"E02","session":"-"}\n', reply(3))
                self.assertEqual(sent.pop().result(PATIENCE), 3, "the answer to what the handler has sent")

    def test_reads_while_another_writes(self):
        """A thread that reads does not wait for one that writes, whose signal handler may wait for what is read."""
        came = []
        with self.played() as played:
            connection, pending = played.server.connection, played.session.send("status")
            thread = threading.Thread(target=lambda: came.append(pending.result(PATIENCE)))
            with connection._writing:
                connection._unwritten.append(b"")
                thread.start()
                time.sleep(0.1)
                played.say(reply(1))
                thread.join(PATIENCE)
                connection._unwritten.clear()
                self.assertEqual(came, [1], "the answer")
            thread.join()

    def test_forms(self):
        """Replies are understood however their JSON is written, and name the session; several lines are no reply."""
        with self.played() as played:
            session = played.session
            for text, value, name in (
                (reply("[1,{\"a\":null}]"), [1, {"a": None}], "a"),
                (b'{"session":"a","reply":2}\n', 2, "a"),
                (b'{"reply" : "x" , "session": "a"}\n', "x", "a"),
                (b'{"reply":3,"session":"other"}\n', 3, "other"),
                (b'{"reply":4,"session":"a","more":5}\n', 4, "a"),
                (b'{"reply":1,"reply":"\xc3\xa4\\n","session":"a"}\n', "\u00e4\n", "a"),
            ):
                with self.subTest(text=text):
                    played.say(text)
                    self.assertEqual((session.status(), session.known_as), (value, name))
            played.say(b'{"reply":[1,\n2],"session":"a"}\n')
            strange = self.raised("a reply in two lines", metad.StrangeLine, session.status)
            self.assertEqual(strange.line, b'{"reply":[1,\n')

    def test_ahead(self):
        """Commands without a wait are done all the same, also where pipes are full; then no thread is left."""
        with metad.start(self.program) as server:
            session, other = server.session("a"), server.session("b")
            session.new("QObject")
            sent = [session.send("set", object=1, property="objectName", value=f"{TEXT}{at}") for at in range(AHEAD)]
            read = [session.send("get", object=1, property="objectName") for _ in range(AHEAD)]
            self.wait_until("not all is answered", read[-1].done)
            self.assertEqual({it.result() for it in sent}, {True}, "the writes")
            self.assertEqual({it.result() for it in read}, {f"{TEXT}{AHEAD - 1}"}, "what is read")
            self.wait_until("a thread is left", lambda: not threads())
            self.assertEqual(other.new("QObject"), 1, "a later command")

    def test_long_lines(self):
        """A line that is longer than a pipe takes at once is one line, whoever waits."""
        with metad.start(self.program) as server:
            session = server.session("a")
            session.new("QObject")
            text = "n" * 4_096
            for _ in range(5):
                self.assertIs(session.set(1, "objectName", text), True, "a write")
                self.assertEqual(session.get(1, "objectName"), text, "what is read")
            refused = self.raised("a line that is too long", metad.Refused, session.set, 1, "objectName", 70_000 * "x")
            self.assertEqual(refused.code, "E01", "its code")

    def test_held_by_streams(self):
        """What a stream has read already is taken first."""
        given, to_server = os.pipe()
        from_server, told = os.pipe()
        reader = open(from_server, "rb")
        os.write(told, b"first\n" + reply(1)[:9])
        self.assertEqual(reader.readline(), b"first\n", "what was read before")
        with metad.Server(reader, open(to_server, "wb")) as server:
            pending = server.session("a").send("status")
            os.write(told, reply(1)[9:])
            self.assertEqual(pending.result(timeout=PATIENCE), 1, "the answer")
        os.close(told)
        os.close(given)
        reader.close()
