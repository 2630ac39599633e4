"""The front (front/): many clients at once, each compared with a server of its own, and clients that write rubbish,
write without end, do not read or go away.

The lines that a client has to receive are taken from docs/PROTOCOL.md.
"""

import json
import os
import re
import select
import subprocess
import time
from concurrent.futures import ThreadPoolExecutor
from pathlib import Path

import metad

from tests.generators.sessions import CLASSES, life_of
from tests.support.lines import text_of
from tests.support.documents import FRONT_PAGE, WORKERS_PAGE
from tests.support.pages import check_page
from tests.support.program import lay_out

from .fronts import FRONT, NEW, PATIENCE, STATUS, Client, FrontCases, classes_in, error, front_of, reply

QUIET = 0.4
CLIENTS = 50
LINE_MOST = 65_536
LONG_LINE = 1024 * 1024
MEMORY_MOST = 64 * 1024 * 1024
UNREAD_MOST = 16 * 1024 * 1024
TEXT_MOST = 4_096
NO_JSON, NO_COMMAND = (text_of({"error": code, "session": "-"}) for code in ("E01", "E02"))
HEAR = {"sig": "hear(QString)", "body": []}
EAR = {"name": "Ear", "super": "QObject", "signals": ["told(QString)"], "slots": [HEAR]}


def live(path, commands):
    """The name of a client that writes all its commands and then reads, and all that it receives."""
    with Client(path) as client:
        name = json.loads(client.ask(STATUS))["session"]
        client.say(*map(text_of, commands))
        return name, client.rest()


def alone(words, name, commands):
    """What a session of this name receives from a server of its own."""
    given = "".join(text_of({**command, "session": name}) + "\n" for command in commands)
    return subprocess.run(words, input=given, capture_output=True, check=True, text=True).stdout.splitlines()


RUBBISH = (
    ("nonsense", NO_JSON),
    ("[1]", NO_COMMAND),
    ("5", NO_COMMAND),
    ("null", NO_COMMAND),
    ("{", NO_JSON),
    ("}", NO_JSON),
    ("{}}", NO_JSON),
    ("{,}", NO_JSON),
    ('{"do":"status",}', NO_JSON),
    ('{"do":"status"', NO_JSON),
    ('{"do":"status"} ' + STATUS, NO_JSON),
    ('{"do":"status","session":"c1"}{}', NO_JSON),
    ('{"a":"}', NO_JSON),
    ('{"a":"\\}', NO_JSON),
    ('{"a":{}', NO_JSON),
    ('{"a":[}', NO_JSON),
    ("\ufeff" + STATUS, NO_JSON),
    ("5".ljust(LINE_MOST), NO_COMMAND),
    ("5".ljust(LINE_MOST + 1), NO_JSON),
    (" " * (LINE_MOST + 1), NO_JSON),
    ("x" * LONG_LINE, NO_JSON),
    (STATUS[:-1] + LONG_LINE * " " + "}", NO_JSON),
)


def ask_long(path):
    """Whether a client receives the right answers if its lines and the answers are long."""
    text, count = "n" * TEXT_MOST, 10
    get = text_of({"do": "get", "object": 1, "property": "objectName"})[:-1].ljust(LINE_MOST - 100) + "}"
    with Client(path) as client:
        name = json.loads(client.ask(NEW))["session"]
        told = client.ask(text_of({"do": "set", "object": 1, "property": "objectName", "value": text}))
        client.say(*[get] * count)
        return [told, *(client.hear() for _ in range(count))] == [reply(True, name)] + [reply(text, name)] * count


def write_until_full(link, text):
    """Writes until nothing was taken for a while; how much was."""
    taken, until = 0, time.monotonic() + 0.5
    while taken < len(text) and time.monotonic() < until:
        try:
            taken += link.send(text[taken:])
            until = time.monotonic() + 0.5
        except BlockingIOError:
            time.sleep(0.01)
    return taken


def processor_seconds(process):
    """What a process has taken of the processor."""
    fields = Path(f"/proc/{process.pid}/stat").read_text().rsplit(")", 1)[1].split()
    return (int(fields[11]) + int(fields[12])) / os.sysconf("SC_CLK_TCK")


class Page(FrontCases):
    """The page of the front, and that of its workers."""

    def test_page(self):
        """The programs of the pages print what they say, where fronts were started as they say."""
        monitor, control, desks = (Path(self.room, name) for name in ("metad.monitor", "metad.control", "desks.sock"))
        workers = ["--quiet", "--workers", "2", "--record", Path(self.room, "records"), "--control", control, desks, self.program]
        with self.front(options=("--quiet", "--share", "team", "--monitor", monitor)) as (path, _):
            lay_out(self.room, {"metad.sock": path, "bin/metad": self.program, "bin/metad-front": FRONT})
            with front_of(*workers) as process:
                try:
                    self.assertIn("listening", next(line for line in process.stderr if "control" not in line), "what it says")
                    self.assertEqual(check_page(self, FRONT_PAGE, self.room), 3, "programs of the page")
                    self.assertEqual(check_page(self, WORKERS_PAGE, self.room), 1, "programs of the page of workers")
                finally:
                    process.terminate()

    def test_words(self):
        """The page describes every option, and its line of usage is that of the help."""
        page = FRONT_PAGE.read_text()
        shown = subprocess.run([FRONT, "--help"], capture_output=True, text=True, timeout=PATIENCE).stdout
        options = re.findall(r"^  (?:-h, )?(--\S+(?: [A-Z]+)?)  ", shown, re.MULTILINE)
        listed = re.findall(r"`(--.*?)`", "\n".join(re.findall(r"^- (`--.*?):", page, re.MULTILINE)))
        self.assertEqual(sorted(listed), sorted(options), "the options")
        self.assertIn(shown.splitlines()[0].replace("usage: metad-front", "bin/metad-front"), page.splitlines(), "the usage")


class Lines(FrontCases):
    """What clients of a front receive for lines, well-formed or not."""

    def test_rubbish(self):
        """Each line is answered in order, blank ones not at all, and the next one is read as usual."""
        with self.front() as (path, _), Client(path) as client, Client(path) as other:
            name = json.loads(client.ask(STATUS))["session"]
            for number, (line, wanted) in enumerate(RUBBISH, 1):
                client.say("", " \t\r", " " * LINE_MOST, line, NEW)
                self.assertEqual(client.hear(), wanted, f"the answer to {line[:40]!r}")
                self.assertEqual(client.hear(), reply(number, name), f"the line after {line[:40]!r}")
                self.assertEqual(json.loads(other.ask(NEW))["reply"], number, "another client")
            client.link.sendall(b'{"do":"\xff"}\n')
            self.assertEqual(client.hear(), NO_JSON, "a line that is no UTF-8")
            for line in ("{}", " { } ", '{"do":"jump"}', '{"session":5}', '{"do":"status","more":1}'):
                self.assertEqual(client.ask(line), error("E02", name), f"the answer to {line}")

    def test_longest(self):
        """What the front puts into a line counts: the longest line, and one that is longer by a byte."""
        with self.front() as (path, _), Client(path) as client:
            name = json.loads(client.ask(STATUS))["session"]
            room_left = LINE_MOST - len(f',"session":"{name}"')
            line = NEW[:-1].ljust(room_left - 1) + "}"
            self.assertEqual(client.ask(line), reply(1, name), "the longest line")
            self.assertEqual(client.ask(" " + line), reply(2, name), "a line that is longer")
            self.assertEqual(client.ask(line[:-1] + " }"), NO_JSON, "a line that is one byte too long")

    def test_both_ways(self):
        """Long lines and long answers at once: more than the pipes of the server hold, in both directions."""
        with self.front() as (path, _), ThreadPoolExecutor(CLIENTS) as pool:
            self.assertEqual(list(pool.map(ask_long, [path] * CLIENTS)), [True] * CLIENTS, "whether all receive the right answers")

    def test_memory(self):
        """A line without an end takes no memory of the front."""
        with self.front() as (path, process), Client(path) as client:
            for _ in range(128):
                client.link.sendall(LONG_LINE * b"x")
            client.say("", STATUS)
            self.assertEqual(client.hear(), NO_JSON, "the answer to 128 MiB")
            used = re.search(r"VmHWM:\s+(\d+) kB", Path(f"/proc/{process.pid}/status").read_text())
            self.assertLess(int(used[1]) * 1024, MEMORY_MOST, "the memory of the front")


class Clients(FrontCases):
    """Clients side by side, each with a session of its own."""

    def test_many(self):
        """Many clients at once, which receive the same as they would alone. They name any sessions, even each other's."""
        classes = classes_in(self.room, CLASSES)
        lives = [list(life_of(number)) for number in range(CLIENTS)]
        said = [[{**command, "session": f"c{at % 7}"} for at, command in enumerate(life)] for life in lives]
        with self.front(classes) as (path, _), ThreadPoolExecutor(CLIENTS) as pool:
            told = list(pool.map(live, [path] * CLIENTS, said))
        self.assertEqual(len({name for name, _ in told}), CLIENTS, "how many names")
        for (name, lines), commands in zip(told, lives):
            self.assertEqual(lines, alone([self.program, classes], name, commands), f"what {name} receives")

    def test_names(self):
        """Nobody reaches the session of another client, and a name is never given again."""
        ways = ({"session": "mine"}, {"session": "c2"}, {"session": 5}, {"session": None})
        with self.front() as (path, _):
            with Client(path) as one, Client(path) as other:
                self.assertEqual([json.loads(one.ask(NEW)) for _ in range(2)][1]["reply"], 2, "the objects of one")
                name = json.loads(one.ask(STATUS))["session"]
                for way in ({"session": name}, *ways):
                    told = json.loads(other.ask(text_of({"do": "status", **way})))
                    self.assertEqual((told["session"] != name, told["reply"]["objects"]), (True, 0), f"who asked as {way}")
                for key in ('"session"', '"\\u0073ession"'):
                    line = f'{{"do":"children",{key}:"{name}",{key}:"{name}"}}'
                    told = json.loads(other.ask(line))
                    self.assertEqual((told["session"] != name, told["reply"]), (True, []), f"what answers {line}")
                both = {name, told["session"]}
            with Client(path) as later:
                told = json.loads(later.ask(STATUS))
                self.assertEqual((told["session"] in both, told["reply"]["objects"]), (False, 0), "a later client")

    def test_same_name(self):
        """Two clients that ask for the same session name have a session each."""
        line = '{"class":"Probe","do":"new","session":"mine"}'
        with self.front() as (path, _), Client(path) as one, Client(path) as other:
            told = [json.loads(client.ask(line)) for client in (one, other, one)]
            self.assertEqual([it["reply"] for it in told], [1, 1, 2], "their objects")
            self.assertEqual([it["session"] == told[0]["session"] for it in told], [True, False, True], "whose they are")

    def test_listening(self):
        """Clients join each other by the names that the front gave them, and by no other ones."""
        cell, publish = {"do": "new", "class": "Cell"}, {"do": "publish", "object": 1, "signal": "xChanged(int)", "name": "level"}
        to_it = {"name": "level", "object": 1, "method": "seen(int)"}
        with self.front() as (path, _), Client(path) as one, Client(path) as other:
            names = [json.loads(client.ask(text_of({**cell, "session": "mine"})))["session"] for client in (one, other)]
            joins = [{"do": "join", "from": name, "types": ["int"], **to_it} for name in (*names, "mine")]
            self.assertEqual(one.ask(text_of({**joins[0], "session": names[1]})), error("E16", names[0]), "a join of its own session")
            for join in (joins[0], joins[2]):
                self.assertEqual(other.ask(text_of({**join, "session": names[0]})), reply(True, names[1]), "a join")
            self.assertEqual(one.ask(text_of({**publish, "session": names[1]})), reply(True, names[0]), "a publication")
            self.assertEqual(other.ask(text_of(publish)), reply(True, names[1]), "a publication of the same name")
            for value in (7, 8):
                told = one.ask(text_of({"do": "set", "object": 1, "property": "x", "value": value, "session": "mine"}))
                self.assertEqual(told, reply(True, names[0]), "what is posted")
                leave = {"do": "leave", "from": names[0], **to_it}
                self.assertEqual(other.ask(text_of(leave)), reply(value == 7, names[1]), "whether there was a join")
            call = {"args": [7], "call": "seen(int)", "object": 1, "sender": 0, "session": names[1]}
            self.assertEqual(other.ask(text_of({"do": "spin"})), text_of(call), "what is heard")
            self.assertEqual(json.loads(other.hear())["reply"], {"events": 1, "left": 0, "lost": 0, "mismatched": 0}, "and no more")
            self.assertEqual(json.loads(one.ask(text_of({"do": "spin"})))["reply"]["events"], 0, "what the publisher hears")

    def test_by_client(self):
        """The Python client over a front: its session receives calls and warnings, though the front names another one."""
        heard = []
        with self.front() as (path, _), metad.connect(path) as one, metad.connect(path) as other:
            for server in (other, one):
                session = server.session("c1", heard.append, heard.append)
                self.assertEqual([session.new("Probe") for _ in range(2)], [1, 2], "its objects")
                session.connect(1, "ping()", 2, "kill()")
                self.assertIs(session.invoke(1, "ping()"), True, "a signal")
                self.assertEqual(heard[0], metad.Call(2, "kill()", [], 1), "what is called")
                self.assertEqual([(it.code, it.object) for it in heard[1:]], [("E04", 2)], "what is warned of")
                heard.clear()
            self.assertNotEqual(*(server.session("c1").known_as for server in (one, other)), "what they are known as")
            refused = self.raised("a line that is too long", metad.Refused, session.command, "x" * LINE_MOST)
            self.assertEqual(refused.code, "E01", "its code")
            self.assertEqual([it.result() for it in [session.send("children") for _ in range(1_000)]], [[2]] * 1_000, "many at once")

    def test_half_lines(self):
        """Clients that end within a line, with or without waiting for an answer, and clients that go away."""
        with self.front() as (path, _), Client(path) as other:
            name = json.loads(other.ask(NEW))["session"]
            for number in range(2, 22):
                for text in (NEW[:9], NEW + "\n" + NEW[:9], 50 * (NEW + "\n")):
                    with Client(path) as gone:
                        gone.link.sendall(text.encode())
                self.assertEqual(other.ask(NEW), reply(number, name), "an answer while others leave")
            with Client(path) as client:
                client.link.sendall(f"{NEW}\n{NEW[:9]}".encode())
                first, second = client.rest()
                self.assertEqual((json.loads(first)["reply"], second), (1, NO_JSON), "half a line at the end")
            with Client(path) as client:
                client.link.sendall(f"{NEW}\n{NEW}".encode())
                self.assertEqual([json.loads(line)["reply"] for line in client.rest()], [1, 2], "a line without its end")

    def test_slow(self):
        """The commands of a client that does not read wait, and nobody else does; read later, all is there."""
        fill = text_of({"do": "set", "object": 1, "property": "objectName", "value": "n" * TEXT_MOST})
        get = text_of({"do": "get", "object": 1, "property": "objectName"})
        with self.front() as (path, _), Client(path) as client, Client(path) as other:
            client.say(NEW, fill)
            told = [client.hear(), client.hear()]
            name = json.loads(told[0])["session"]
            self.assertEqual(told, [reply(1, name), reply(True, name)], "a long text")
            client.link.setblocking(False)
            given = (get + "\n").encode() * 20_000
            taken = write_until_full(client.link, given)
            self.assertLess(taken, len(given), "how much the front takes")
            self.assertEqual([json.loads(other.ask(NEW))["reply"] for _ in range(200)], list(range(1, 201)), "another client")
            client.link.settimeout(PATIENCE)
            whole = taken // (len(get) + 1)
            self.assertEqual([client.hear() for _ in range(whole)], [reply("n" * TEXT_MOST, name)] * whole, "what was kept")

    def test_unread(self):
        """A client that leaves too much unread is closed, and nobody else is."""
        connect = {"do": "connect", "sender": 1, "signal": "told(QString)", "receiver": 1, "method": "hear(QString)"}
        count = 2 * UNREAD_MOST // TEXT_MOST
        with self.front(classes_in(self.room, [EAR])) as (path, _), Client(path) as client, Client(path) as other:
            self.assertEqual(json.loads(client.ask(text_of({"do": "new", "class": "Ear"})))["reply"], 1, "its object")
            made = [json.loads(client.ask(text_of(connect)))["reply"] for _ in range(count)]
            self.assertEqual(made, list(range(1, count + 1)), "its connections")
            client.say(text_of({"do": "invoke", "object": 1, "method": "told(QString)", "args": ["n" * TEXT_MOST]}))
            select.select([client.link], [], [], PATIENCE)  # so that the server is at it, and the other one waits for its end
            self.assertEqual(json.loads(other.ask(text_of({"do": "new", "class": "Ear"})))["reply"], 1, "another client")
            self.assertNotIn(b'"reply"', client.until_closed(), "what it receives")
            self.assertEqual(json.loads(other.ask(STATUS))["reply"]["objects"], 1, "the other client later")

    def test_full(self):
        """A front that can have no more files takes no more clients until others go, and is quiet meanwhile."""
        path = Path(self.room, "socket")
        words = ["sh", "-c", 'ulimit -n 32; exec "$@"', "sh", FRONT, "--quiet", path, self.program]
        with subprocess.Popen(words, stderr=subprocess.PIPE, text=True) as process:
            try:
                self.wait_for(path, process)
                clients = [Client(path) for _ in range(40)]
                for client in clients:
                    client.say(NEW)
                select.select([client.link for client in clients], [], [], PATIENCE)  # until the first one is answered
                time.sleep(QUIET)
                before = processor_seconds(process)
                time.sleep(QUIET)
                self.assertLess(processor_seconds(process) - before, QUIET / 2, "what it takes of the processor")
                answered = select.select([client.link for client in clients], [], [], 0)[0]
                self.assertTrue(0 < len(answered) < len(clients), "some are answered, and not all")
                for client in sorted(clients, key=lambda client: client.link not in answered):
                    self.assertEqual(json.loads(client.hear())["reply"], 1, "an object")
                    client.leave()
            finally:
                process.terminate()
            said = f"metad-front: listening at {path}\n"
            self.assertEqual((process.wait(PATIENCE), process.stderr.read()), (0, said), "the front's end")
