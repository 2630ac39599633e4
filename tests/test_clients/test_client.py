"""The client in Python (clients/python/metad), and its page.

What has to come is taken from docs/PROTOCOL.md: its examples are run by the methods of the client, and its tables
say which commands and codes there are.
"""

import io
import json
import keyword
import os
import re
import signal
import subprocess
import sys
import threading
import time
from pathlib import Path

import metad

from tests.support import protocol
from tools.listing.names import NAMES
from tests.support.documents import examples_of
from tests.support.pages import check_page
from tests.support.program import SECONDS, lay_out

from . import PYTHON
from .fronts import ClientCases

PIPELINED = 1_000
LINE_MOST = 65_536
TEXT_MOST = 4_096
REFUSED = (
    'get {"object":7,"property":"objectName"}: E04, no such object. '
    "What to do: forget the number; it never means another object"
)
NO_OBJECT = ("E04", "no such object")
MIRROR = """
import json, sys
for line in sys.stdin:
    print(json.dumps({"reply": json.loads(line), "session": "a"}))
"""  # a server whose replies are the commands
STRANGE = """
import sys
input(), print('{"error":"E02","session":"-"}')
input(), print(sys.argv[1])
sys.stdin.read()
"""  # a server that answers its first line, and writes what it was given at the next one
ANSWERED = b'{"reply":1,"session":"a"}\n'


def method_of(do):
    """The name in Python of a command. `object` of a session is the object itself, as a proxy."""
    return NAMES.get(do) or re.sub("[A-Z]", lambda it: "_" + it[0].lower(), do)


def keys_of(command):
    """The keys of a command as the client is given them."""
    keys = {key: value for key, value in command.items() if key not in ("do", "session")}
    return {f"{key}_" if keyword.iskeyword(key) else key: value for key, value in keys.items()}


class Unasked:
    """What a server writes that answers a line before it was given."""

    def __init__(self):
        self.is_drained = threading.Event()

    def __iter__(self):
        return iter([ANSWERED])

    def read(self, _count):
        self.is_drained.set()
        return b""


class Talk:
    """An example: its commands, and the output of each: calls and warnings, and then a reply or an error."""

    def __init__(self, test, row):
        self.test, self.words = test, row.words
        self.commands = [json.loads(line) for line in row.given.splitlines()]
        self.wanted = [json.loads(line) for line in row.stdout.splitlines()]
        self.told = []

    def session(self, server, name):
        """A session whose calls and warnings are noted as the lines that they are."""

        def note_call(call):
            line = {"args": call.args, "call": call.method, "object": call.object, "sender": call.sender}
            self.told.append({**line, "session": name})

        def note_warning(warned):
            self.test.assertEqual(warned.object, warned.line.get("object"), "the object of a warning")
            self.test.assertEqual(warned.code, warned.line["warning"], "the code of a warning")
            self.test.assertEqual(warned.property_name, warned.line.get("property"), "the property of a warning")
            self.told.append(warned.line)

        return server.session(name, note_call, note_warning)

    def answer(self, name, call):
        """Notes the result of a call."""
        try:
            self.told.append({"reply": call(), "session": name})
        except metad.Refused as refused:
            self.told.append({"error": refused.code, "session": name})

    def by_methods(self, server, methods):
        """Each command by its method; one that is no command of the protocol by its word."""
        for command in self.commands:
            session, name, do = self.session(server, command["session"]), command["session"], command["do"]
            if do in methods:
                method = getattr(session, method_of(do))
                self.answer(name, lambda: method(**keys_of(command)))
            else:
                self.answer(name, lambda: session.command(do, **keys_of(command)))

    def at_once(self, server, _methods):
        """All commands before the first answer is asked for."""
        sent = []
        for command in self.commands:
            session = self.session(server, command["session"])
            sent.append((session.name, session.send(command["do"], **keys_of(command))))
        for name, pending in sent:
            self.answer(name, pending.result)


def is_talk(row):
    """Whether a client can give each of the lines: the names are names, and there is nothing but commands."""
    try:
        lines = [json.loads(line) for line in row.given.splitlines()]
    except ValueError:
        return False
    return all(isinstance(line, dict) and "session" in line for line in lines)


def connected(session, slot):
    """Two objects. The `ping()` of the first one calls a slot of the second one."""
    sender, receiver = session.new("Probe"), session.new("Probe")
    session.connect(sender, "ping()", receiver, slot)
    return sender, receiver


class Examples(ClientCases):
    """The protocol's examples by the client, each on a server of its own."""

    def check_examples(self, way):
        methods = {do for do, *_ in protocol.commands()}
        lacking = sorted(do for do in methods if not hasattr(metad.Session, method_of(do)))
        self.assertEqual(lacking, [], "commands without a method")
        tried = set()
        talks = list(filter(is_talk, examples_of(protocol.PROTOCOL, self.room)))
        for row in talks:
            with self.subTest(case=row.name):
                talk = Talk(self, row)
                with metad.start(self.program, *talk.words) as server:
                    way(talk, server, methods)
                self.assertEqual(talk.told, talk.wanted, f"the output of {row.given.decode()}")
                tried |= {command["do"] for command in talk.commands}
        self.assertEqual(sorted(methods - tried), [], "commands without an example")
        self.tell(f"cases: {len(talks)}")

    def test_examples_by_methods(self):
        """Each command by the method of its name."""
        self.check_examples(Talk.by_methods)

    def test_examples_at_once(self):
        """All commands before the first answer is asked for."""
        self.check_examples(Talk.at_once)


class Client(ClientCases):
    """What the client does for its users, and how a server can end."""

    def test_keys_given(self):
        """Each key of the protocol's table is a word of the method, and written; one that is not given is not."""
        with metad.start(sys.executable, "-uc", MIRROR) as server:
            session = server.session("a")
            for do, required, optional, _ in protocol.commands():
                for keys in map(sorted, (required, required | optional)):
                    command = {key: [1, "one"] if key in ("args", "types") else f"the {key}" for key in keys}
                    written = getattr(session, method_of(do))(**keys_of(command))
                    line = {**command, "do": do, "session": "a"}
                    self.assertEqual(written, line, f"the line of {do} with {keys}")

    def test_codes(self):
        """Each code has the meaning that the protocol gives it, and the advice."""
        self.assertEqual(metad.MEANINGS, protocol.codes(), "the codes")
        self.assertEqual(sorted(metad.ADVICE), sorted(protocol.codes()), "the codes about which something can be done")
        self.assertEqual(protocol.advice(), metad.ADVICE)

    def test_refusals(self):
        """What a refusal tells; and lines that only the server can judge."""
        with metad.start(self.program) as server:
            session, strange = server.session("a"), server.session("a b")
            refused = self.raised("no object", metad.Refused, session.get, 7, "objectName")
            self.assertEqual((refused.code, refused.meaning), NO_OBJECT, "its code and meaning")
            self.assertEqual((refused.do, refused.keys), ("get", {"object": 7, "property": "objectName"}), "its word and keys")
            self.assertEqual(str(refused), REFUSED, "its text")
            session.new("QObject")
            for what, call, code in (
                ("an invalid name", strange.status, "E02"),
                ("an unknown word", lambda: session.command("jump"), "E02"),
                ("a key that is missing", lambda: session.command("get", object=1), "E02"),
                ("both forms of disconnect", lambda: session.disconnect(1, sender=1), "E02"),
                ("a line that is too long", lambda: session.set(1, "objectName", LINE_MOST * "x"), "E01"),
                ("half a character", lambda: session.set(1, "objectName", "\ud800"), "E01"),
                ("a text that is too long", lambda: session.set(1, "objectName", "x" * (TEXT_MOST + 1)), "E14"),
            ):
                self.assertEqual(self.raised(what, metad.Refused, call).code, code, what)
            text = "\n\t\"\\ \u00e4\U0001f600"
            session.set(1, "objectName", text)
            self.assertEqual(session.get(1, "objectName"), text, "a text with all sorts of characters")
            self.assertEqual(session.status()["objects"], 1, "the object is still the only one")

    def test_callbacks(self):
        """They are called before the call returns. They may give commands, may raise, and may be absent."""
        heard = []
        with metad.start(self.program) as server:
            session = server.session("a")
            sender, receiver = connected(session, "kill()")
            session.on_call = heard.append
            session.on_warning = lambda warned: heard.append((warned, session.children()))
            self.assertIs(session.invoke(sender, "ping()"), True, "a signal")
            called, (warned, children) = heard
            self.assertEqual(called, metad.Call(receiver, "kill()", [], sender), "what was called")
            self.assertEqual((warned.code, warned.meaning, warned.object), (*NO_OBJECT, receiver), "what was warned of")
            self.assertEqual(children, [receiver], "what a callback asked for")

            session.bind(receiver, "objectName", {"prop": "objectName"})
            warned = heard[-1][0]
            self.assertEqual((warned.code, warned.object, warned.property_name), ("BindingLoop", receiver, "objectName"), "an error")
            self.assertEqual(warned.meaning, metad.BINDING_ERRORS["BindingLoop"], "what it means")
            self.assertEqual(session.binding_error(receiver, "objectName"), "BindingLoop", "the error of the property")

            def fail(_call):
                raise KeyError("a fault of the callback")

            session.on_call = fail
            pending = session.send("invoke", object=receiver, method="note()", args=[])
            self.raised("a callback that raises", KeyError, pending.result)
            self.assertIs(pending.result(), True, "the answer after it")
            session.on_call = None
            self.assertIs(session.invoke(receiver, "note()"), True, "a call without a callback")

    def test_side_by_side(self):
        """Each session receives its own lines, whoever waits."""
        heard = {"a": [], "b": []}
        with metad.start(self.program) as server:
            one, other = (server.session(name, on_call=heard[name].append) for name in heard)
            self.assertIs(server.session("a"), one, "the session of a name")
            self.assertIsNone(one.known_as, "what it is known as before its first answer")
            for session in (one, other):
                self.assertEqual(session.new("Probe"), 1, "its first object")
                self.assertEqual(session.known_as, session.name, "what it is known as")
            first = one.send("invoke", object=1, method="note()", args=[])
            second = other.send("invoke", object=1, method="late()", args=[])
            self.assertEqual(heard, {"a": [], "b": []}, "what is delivered before anybody waits")
            self.assertIs(second.result(), True, "the later answer")
            self.assertEqual((first.done(), second.done()), (True, True), "what has come until then")
            self.assertEqual(heard["a"], [metad.Call(1, "note()", [], 0)], "what one received")
            self.assertEqual(heard["b"], [metad.Call(1, "late()", [], 0)], "what the other received")
            self.assertIs(first.result(), True, "the earlier answer")

    def test_pipelining(self):
        """Many commands before the first answer is asked for: more than fits into pipes, in both directions."""
        text = "n" * TEXT_MOST
        with metad.start(self.program) as server:
            session = server.session("a")
            made = [session.send("new", class_="QObject") for _ in range(PIPELINED)]
            named = [session.send("set", object=at, property="objectName", value=text) for at in range(1, PIPELINED + 1)]
            read = [session.send("get", object=at, property="objectName") for at in range(1, PIPELINED + 1)]
            self.assertEqual([it.result() for it in read], [text] * PIPELINED, "the names")
            self.assertEqual([it.result() for it in made], list(range(1, PIPELINED + 1)), "the numbers")
            self.assertEqual([it.result() for it in named], [True] * PIPELINED, "the writes")

    def test_told_in_threads(self):
        """Threads that wait at once: calls are delivered one at a time, each once, and before the method returns."""
        heard, at_once, faults = [], [], []

        def tell(call):
            at_once.append(call)
            time.sleep(0.0005)
            heard.append(call.args[0])
            faults.extend(["another call is delivered meanwhile"] * (len(at_once) > 1))
            at_once.pop()

        def live(session, numbers):
            for number in numbers:
                session.invoke(1, "seen(int)", [number])
                faults.extend([f"{number} is not told before"] * (number not in heard))

        with metad.start(self.program) as server:
            session = server.session("a", on_call=tell)
            session.new("Cell")
            lives = [threading.Thread(target=live, args=(session, range(at, 200, 4))) for at in range(4)]
            for life in lives:
                life.start()
            for life in lives:
                life.join()
        self.assertEqual((sorted(heard), faults), (list(range(200)), []), "what was delivered")

    def test_threads(self):
        """Sessions of several threads on one server."""
        answers = {}

        def live(session):
            answers[session.name] = [session.new("QObject") for _ in range(200)] + [session.status()["objects"]]

        with metad.start(self.program) as server:
            lives = [threading.Thread(target=live, args=(server.session(f"s{number}"),)) for number in range(4)]
            for life in lives:
                life.start()
            for life in lives:
                life.join()
        self.assertEqual(answers, {f"s{number}": [*range(1, 201), 200] for number in range(4)}, "what each thread received")

    def test_killed(self):
        """The server is killed while commands are under way: it was held up before they were sent."""
        note = Path(self.room, "pid")
        with metad.start("sh", "-c", f'echo $$ > "{note}"; exec "{self.program}"') as server:
            session = server.session("a")
            made = [session.send("new", class_="QObject") for _ in range(3)]
            self.assertEqual(made[2].result(), 3, "an object")
            number = int(note.read_text())
            os.kill(number, signal.SIGSTOP)
            under_way = [session.send("status") for _ in range(3)]
            self.assertEqual([it.done() for it in under_way], [False] * 3, "what has come while it is held up")
            self.raised("an answer that does not come in time", metad.NotAnswered, under_way[0].result, timeout=0.05)
            os.kill(number, signal.SIGKILL)
            for pending in under_way:
                gone = self.raised("a command under way", metad.ServerGone, pending.result)
                self.assertEqual((gone.status, gone.stderr, str(gone)), (-9, "", "the server was ended by signal 9"), "how it ended")
            self.assertEqual([it.result() for it in made], [1, 2, 3], "what was answered before")
            self.assertEqual(self.raised("a later one", metad.ServerGone, session.status).status, -9, "a later command")
            self.assertEqual(server.close(), -9, "its status")

    def test_killed_at_once(self):
        """Commands that are given while a server ends, before and after that is known."""
        note = Path(self.room, "pid")
        with metad.start("sh", "-c", f'echo $$ > "{note}"; exec "{self.program}"') as server:
            session = server.session("a")
            os.kill(int(note.read_text()), signal.SIGKILL)
            under_way = [session.send("status") for _ in range(PIPELINED)]
            for pending in under_way:
                gone = self.raised("a command", metad.ServerGone, pending.result)
                self.assertEqual((type(gone), gone.status), (metad.ServerGone, -9), "how it ended")

    def test_ends(self):
        """A server that ends on its own, is closed, or cannot be started."""
        server = metad.start(self.program)
        pending = server.session("a").send("new", class_="QObject")
        self.assertEqual((server.close(), server.close()), (0, 0), "the status at the end of the input")
        self.assertEqual(pending.result(), 1, "an answer that had come")
        self.assertEqual(self.raised("a late one", metad.ServerGone, server.session("a").spin).status, 0, "after the end")
        self.raised("a program that is not there", OSError, metad.start, Path(self.room, "nothing"))
        self.raised("a socket that is not there", OSError, metad.connect, Path(self.room, "nothing"))

    def test_streams(self):
        """A server that somebody else has started, and lines that no server writes."""
        pipe = subprocess.PIPE
        with subprocess.Popen([self.program], stdin=pipe, stdout=pipe) as process:
            with metad.Server(process.stdout, process.stdin) as server:
                session = server.session("a")
                self.assertEqual(session.new("QObject"), 1, "an object")
                process.kill()
                gone = self.raised("a server that has gone", metad.ConnectionClosed, session.status)
                self.assertEqual((gone.status, gone.stderr), (None, ""), "what is known of its end")

    def test_streams_closed(self):
        """What was given to streams before they were closed is answered, and nothing is given to them later."""
        pipe = subprocess.PIPE
        with subprocess.Popen([self.program], stdin=pipe, stdout=pipe) as process:
            server = metad.Server(process.stdout, process.stdin)
            session = server.session("a")
            self.assertEqual(session.new("QObject"), 1, "an object")
            process.send_signal(signal.SIGSTOP)
            try:
                under_way = session.send("new", class_="QObject")
                self.assertIsNone(server.close(), "what is known of its end")
                self.raised("a later command", metad.ConnectionClosed, session.status)
                self.assertFalse(under_way.done(), "whether the earlier one was answered")
            finally:
                process.send_signal(signal.SIGCONT)
            self.assertEqual(under_way.result(), 2, "the answer")

    def test_strange_lines(self):
        """Lines that no server writes end all commands under way, and those to come."""
        call = '{"call":"note()","session":"a"}'
        for line in ("nonsense", "[1]", "{}", "[" * 100_000, '{"reply":1,"session":7}', call):
            with metad.start(sys.executable, "-uc", STRANGE, line) as server:
                session = server.session("a")
                under_way = [session.send("status") for _ in range(2)]
                for pending in under_way:
                    strange = self.raised(f"the line {line[:40]}", metad.StrangeLine, pending.result)
                    self.assertEqual(strange.line, f"{line}\n".encode(), "the strange line")
                self.raised("a later command", metad.StrangeLine, session.status)

    def test_unasked(self):
        """So does an answer to a line that nobody has given."""
        reader = Unasked()
        with metad.Server(reader, io.BytesIO()) as server:
            self.assertTrue(reader.is_drained.wait(SECONDS), "whether it was read")
            strange = self.raised("a command", metad.StrangeLine, server.session("a").status)
            self.assertEqual(strange.line, ANSWERED, "the strange line")


class Page(ClientCases):
    """The page of the client."""

    def test_page(self):
        """The programs of the page print what it says."""
        lay_out(self.room, {"bin/metad": self.program})
        self.assertEqual(check_page(self, PYTHON / "README.md", self.room), 7, "programs of the page")
