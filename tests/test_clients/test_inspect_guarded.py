"""What the page cannot do: with forged requests, and with a process of the page that writes anything to the front."""

import json
import os
import re
import signal
import socket
import subprocess
from contextlib import ExitStack, contextmanager
from pathlib import Path

from explaining.held import LEVELS
from inspecting.allowed import LINE_MOST, READING, WRITING, is_allowed, is_session, text_of, value_of

from tests.support.closing import end_writing, give, rest_of
from tests.support.seeds import SEED

from .fronts import PATIENCE, Client, reply
from .hostile import SET, Hostile
from .inspectors import InspectCases
from .stand_ins import WRITES, StandInCases, given_in, refused_in

REQUESTS = 1_000
STRINGS = 1_000
CELL = '{"do":"new","class":"Cell"}'
STATUSES = (b"200", b"400", b"403", b"404")
HELD = (
    '{"do":"children"}', '{"do":"status"}', '{"do":"dynamicNames","object":1}', '{"do":"bindingError","object":1,"property":"y"}',
    *('{"do":"get","object":%d,"property":"%s"}' % (at, name) for at in (1, 2) for name in ("objectName", "x", "y", "z", "flag", "big", "tag")),
)  # fmt: skip
MADE = (
    CELL, CELL, '{"do":"set","object":1,"property":"x","value":4}', '{"do":"set","object":1,"property":"tag","value":"old"}',
    '{"do":"bind","object":1,"property":"y","to":{"prop":"x"}}', '{"do":"publish","object":1,"signal":"xChanged(int)","name":"n"}',
    '{"do":"connect","sender":2,"signal":"xChanged(int)","receiver":2,"method":"seen(int)","type":"queued"}',
)  # fmt: skip


class Forged(InspectCases):
    """A page with leave to ask, and none to write."""

    def held(self, client):
        """What a session holds, as far as its client can ask."""
        return [client.ask(line) for line in HELD]

    def sent(self, asker, request):
        """What is answered to a request as it is; nothing where the connection is closed without an answer."""
        with socket.create_connection((asker.host, asker.port), PATIENCE) as link:
            give(link, request)
            end_writing(link)
            return rest_of(link.makefile("rb"))

    def words_of(self, record):
        """The words of the commands that the server was given."""
        return {json.loads(line)["do"] for line in record.read_bytes().splitlines()}

    def test_names(self):
        """An invalid name of a session is answered by 400, and nothing of it reaches the server or the front."""
        record = Path(self.room, "record")
        with self.shown(options=("--inspect-ask", "--record", str(record))) as (path, process, asker), Client(path) as client:
            client.ask(CELL)
            for name in (f"c1 {SET}\n7 c1", "x\nboom", "c1 ", "c1\n", "", "-", "a b", "ä", "x" * 65, 5, None, ["c1"], {"c1": 1}):
                self.assertEqual(asker.ask(name, do="status"), 400, name)
                self.assertEqual(asker.post("ask_tree", {"session": name}), 400, name)
            self.assertEqual(client.ask('{"do":"get","object":1,"property":"x"}'), reply(0, "c1"))
            self.assertIsNone(process.poll())
            self.assertEqual(asker.ask("c1", do="get", object=1, property="x")["answer"], reply(0, "c1"))
            self.assertEqual(self.words_of(record), {"new", "get"})

    def test_bodies(self):
        """A body that is no JSON, nested too deep, too long or of a wrong type is answered by 400."""
        with self.shown(options=("--inspect-write",)) as (path, _, asker), Client(path) as client:
            client.ask(CELL)
            deep = {"session": "c1", "command": {"do": "set", "object": 1, "property": "x", "value": json.loads("[" * 200 + "]" * 200)}}
            surrogate = {"session": "c1", "command": {"do": "set", "object": 1, "property": "tag", "value": "\ud800"}}
            in_text = [{"session": "c1", "command": {"do": "set", "object": 1, "property": "x", "value": {"json": it}}} for it in ("[" * 30_000, "NaN", "1e999", 5)]
            bodies = [b"[" * 30_000, b'{"a":' * 12_000, b"\xff", b'"\xed\xa0\x80"', b'{"session":"c1","command":{"do":"set","value":NaN}}']
            bodies += [json.dumps(it).encode() for it in (deep, surrogate, *in_text, {"session": "c1", "command": 5}, {"session": "c1", "command": None})]
            for body in bodies:
                self.assertEqual(asker.answer("POST", asker.path + "ask", body, **{"Content-Type": "application/json"})[0], 400, body[:60])
            long = {"do": "set", "object": 1, "property": "tag", "value": "\u2028" * 4_000}
            self.assertEqual(json.loads(asker.ask("c1", **long)["answer"])["error"], "E14", "a text of 12,000 bytes comes as it is")
            self.assertEqual(client.ask(CELL), reply(2, "c1"))

    def test_random(self):
        """No request of 1,000 random ones changes anything, reaches the server as a command that could, or ends the front."""
        made, record = Hostile(SEED), Path(self.room, "record")
        with self.shown(options=("--inspect-ask", "--share", "team", "--record", str(record))) as (path, process, asker):
            with Client(path) as client, Client(path) as other:
                for line in MADE:
                    client.ask(line)
                other.ask(CELL)
                begun, before = record.stat().st_size, self.held(client)
                for number in range(REQUESTS):
                    request, is_right = made.request(asker.path)
                    request = request.replace(b"Host: 127.0.0.1\r\n", f"Host: {asker.own}\r\n".encode())
                    told = self.sent(asker, request)
                    is_fine = told[9:12] in STATUSES if is_right else told[9:12] != b"200"
                    self.assertTrue(is_fine, (number, request[:200], told[:100]))
                    self.assertIsNone(process.poll(), request[:200])
                self.assertEqual(self.held(client), before)
                self.assertIsNotNone(asker.get("about"), "the page is still there")
                with record.open("rb") as file:
                    file.seek(begun)
                    given = [json.loads(line) for line in file]
                self.assertLessEqual({it["do"] for it in given}, READING.keys())
                self.assertLessEqual({it["session"] for it in given}, {"c1", "c2", "team"})
                self.assertGreater(len(given), 2 * len(HELD), "some of the requests were allowed")


NUMBERED = re.compile(rb"([1-9][0-9]{0,14})(?: .*)?", re.DOTALL)
DROPPED = "metad-front: the inspector was dropped, since it sent a line that is no request, and nothing more is shown"
NOT_ALLOWED = "metad-front: the inspector asked for a command that is not allowed, which is refused"
EACH_OF = 8  # of so many random strings that are no requests one is written as it is
GET_X = '{"do":"get","object":1,"property":"x"}'


def requests_in(data):
    """The lines that the front reads from some bytes: it skips blank ones. None has about as many levels as JSON may have."""
    return [line for line in data.split(b"\n") if line.strip(b" \t\r") and abs(line.count(b"[") - LEVELS) > 2]


def is_request(line):
    """Whether a line begins by a number, and is no longer than lines may be."""
    return len(line) <= LINE_MOST and NUMBERED.fullmatch(line) is not None


def asked_in(line, may_write):
    """The number of a request, and the command with its session, or None where it is to be refused."""
    number, name, text = (line.split(b" ", 2) + [b"", b""])[:3]
    try:
        command = value_of(text) if is_session(name.decode()) and name in (b"c1", b"c2", b"team") else None
        is_right = is_allowed(command, True, may_write) and text_of(command)
    except ValueError:
        is_right = False
    return int(number), {**command, "session": name.decode()} if is_right else None


class Fed(StandInCases):
    """The front's behaviour whatever the page's process asks for."""

    @contextmanager
    def begun(self, *options):
        """A front with two clients and a shared session, each with an object: its page, its log, one client, and its
        record."""
        record = Path(self.room, "record")
        with ExitStack() as stack:
            path, _, log, page = stack.enter_context(self.handed("--share", "team", "--record", str(record), *options))
            clients = [stack.enter_context(Client(path)) for _ in range(3)]
            clients[2].ask('{"front":"share","session":"team"}')
            self.assertEqual([it.ask(CELL) for it in clients], [reply(1, name) for name in ("c1", "c2", "team")])
            yield page, log, clients[0], record

    def check_record(self, record, words):
        """Besides the clients' commands, the server was given only commands of these words, for sessions that are there."""
        given = [json.loads(line) for line in record.read_bytes().splitlines()]
        ends = {"reset"} if given[-1]["do"] == "reset" else set()  # of clients that have disconnected
        self.assertLessEqual({it["do"] for it in given[3:]}, {*words, *ends})
        self.assertLessEqual({it["session"] for it in given}, {"c1", "c2", "team"})

    def check_heard(self, page, lines, may_write):
        """Requests that are allowed are done, and the others are refused."""
        asked = [asked_in(line, may_write) for line in lines]
        page.say(b"\n".join(lines))
        told = page.until_answered("c1", "c2", "team")
        self.assertEqual(refused_in(told), [number for number, command in asked if command is None], lines)
        given = given_in(told)
        self.assertCountEqual(given, [it for it in asked if it[1] is not None], lines)
        return len(given)

    def feed(self, made, strings, may_write):
        """Writes random strings to one front, up to one that it is dropped for; answers how many requests were done, and
        whether it was dropped."""
        count = 0
        words = {*READING, *WRITING} if may_write else {*READING}
        with self.begun("--inspect-write" if may_write else "--inspect-ask") as (page, log, client, record):
            for lines in strings:
                if all(map(is_request, lines)):
                    count += self.check_heard(page, lines, may_write)
                    continue
                if made.randrange(EACH_OF):
                    count += self.check_heard(page, [it for it in lines if is_request(it)], may_write)
                    continue
                page.say(b"\n".join(lines) + b"\n")
                list(page.told())
                log.wait_for(self, DROPPED)
                self.assertTrue(page.has_ended(), "the process is ended")
                self.assertIn('"session":"c1"', client.ask(GET_X))
                self.check_record(record, {*words, "get"})
                return count, True
            self.check_record(record, words)
            return count, False

    def test_random(self):
        """Of 1,000 random strings none ends the front, or has it give the server more than it may."""
        made, dropped, count = Hostile(SEED), 0, 0
        strings = (requests_in(b"\n".join(made.line() for _ in range(made.randint(1, 3)))) for _ in range(STRINGS))
        for may_write in (False, True):
            half = (next(strings) for _ in range(STRINGS // 2))
            is_dropped = True
            while is_dropped:
                more, is_dropped = self.feed(made, half, may_write)
                count, dropped = count + more, dropped + is_dropped
        self.assertGreater(dropped, 25)
        self.assertGreater(count, 25)

    def test_refused(self):
        """What may not be asked for is refused by its number, and what is allowed next to it is done."""
        asked = (
            SET, '{"do":"reset"}', '{"do":"get","session":"c2","object":1}', '{"do":["get"]}', '{"do":"set","value":NaN}',
            '{"do":"get","object":%s}' % ("[" * 200 + "]" * 200), '{"do":"get","property":"\\ud800"}', '{"do":"get","do":"new","class":"Cell"}',
        )  # fmt: skip
        lines = "".join(f"{at} c1 {it}\n" for at, it in enumerate(asked, 1)) + f"9 c1 {GET_X}\n"
        for option, numbers, words in (("--inspect-ask", [1, 2, 3, 4, 5, 6, 7, 8], ["get"]), ("--inspect-write", [2, 3, 4, 5, 6, 7, 8], ["set", "get"])):
            with self.begun(option) as (page, log, client, _):
                page.say(lines.encode())
                told = page.until_answered("c1")
                self.assertEqual([it["do"] for _, it in given_in(told)], words)
                self.assertEqual(refused_in(told), numbers)
                self.assertEqual(log.lines().count(NOT_ALLOWED), 1)
                self.assertEqual(client.ask(GET_X), reply(77 if "set" in words else 0, "c1"))

    def test_not_begun(self):
        """A session that was given no command is not asked, so that it is not begun; nor is one that is not there."""
        record = Path(self.room, "record")
        with self.handed("--inspect-write", "--record", str(record)) as (path, _, _, page), Client(path) as client, Client(path):
            client.ask(CELL)
            page.say(b'1 c2 {"do":"status"}\n2 c3 {"do":"status"}\n')
            told = page.until_answered("c1")
            self.assertEqual((refused_in(told), given_in(told)), ([1, 2], []))
            self.assertEqual({json.loads(line)["session"] for line in record.read_bytes().splitlines()}, {"c1"})

    def test_no_leave(self):
        """Without leave nothing is done."""
        with self.begun() as (page, _, client, record):
            page.say(b'1 c1 {"do":"status"}\n2 c1 ' + SET.encode() + b"\n")
            told = page.until_refused()
            self.assertEqual((refused_in(told), given_in(told)), ([1, 2, 999_999_999_999_999], []))
            self.assertEqual(client.ask(GET_X), reply(0, "c1"))
            self.check_record(record, {"get"})

    def test_dropped(self):
        """A process that writes lines without a number is dropped with its requests, and ended, and the log says why."""
        for line in (b"boom", b"-1 c1 {}", b"0 c1 {}", b"\xff\xfe", b"1" * 40 + b" c1 {}", b"x" * 200_000):
            with self.subTest(line=line[:20]), self.begun("--inspect-write") as (page, log, client, record):
                page.say(b"1 c1 " + SET.encode() + b"\n" + line + b"\n")
                self.assertNotIn(b"boom", b"".join(page.told()))
                log.wait_for(self, DROPPED)
                self.assertTrue(page.has_ended())
                self.assertIn('"session":"c1"', client.ask(GET_X))
                self.check_record(record, {"set", "get"})

    def server_of(self, process):
        """The number of the process of a front's server."""
        found = subprocess.run(["ps", "-o", "pid=,args=", "--ppid", str(process.pid)], capture_output=True, text=True).stdout
        return next(int(line.split()[0]) for line in found.splitlines() if line.split()[1] == str(self.program))

    def asked_much(self, page, session, texts):
        """How many of some commands are not refused."""
        for number, text in enumerate(texts, 1):
            page.say(f"{number} {session} {text}\n".encode())
        told = page.until_refused()
        return len(texts) + 1 - len(refused_in(told)), told

    def test_much(self):
        """A process that asks for more than may wait is refused the rest, and may ask again when some of it is done."""
        text = '{"do":"set","object":1,"property":"tag","value":"%s"}' % ("x" * 4_000)
        least, most = 900_000 // len(text), (1 << 20) // len(text) + 32  # 32 may be under way
        with self.handed("--inspect-write") as (path, process, _, page), Client(path) as other, Client(path) as third:
            server = self.server_of(process)
            client = Client(path)
            for it in (client, other, third):
                it.ask(CELL)
            os.kill(server, signal.SIGSTOP)
            try:
                waiting, told = self.asked_much(page, "c3", [text] * 1_000)
                self.assertTrue(least < waiting <= most, waiting)
                client.leave()
                told += page.told(lambda line: line == b'!{"gone":"c3"}')
                self.assertEqual(len(given_in(told)) + len(refused_in(told)), 1_001, "what has waited is refused")
                waiting, _ = self.asked_much(page, "c1", [text] * 1_000)
                self.assertTrue(least < waiting <= most, f"once more: {waiting}")
            finally:
                os.kill(server, signal.SIGCONT)
            page.until_answered("c1")
            os.kill(server, signal.SIGSTOP)
            try:
                waiting, _ = self.asked_much(page, "c2", ['{"do":"status"}'] * 1_100)
                self.assertTrue(1_024 <= waiting <= 1_024 + 32, f"small ones: {waiting}")
            finally:
                os.kill(server, signal.SIGCONT)


class StandIn(StandInCases):
    """A front whose page's process is another program, which writes what it likes."""

    def check(self, sent, option, said, value):
        """After something was sent this is said, and the client is served as before, with this value of x."""
        Path(self.room, "sent").write_bytes(sent)
        with self.front_with(WRITES, option, own={"SENT": str(Path(self.room, "sent"))}) as (path, process, log), Client(path) as client:
            self.assertEqual(client.ask(CELL), reply(1, "c1"))
            log.wait_for(self, f"metad-front: the inspector {said}", process)
            self.assertEqual(client.ask(GET_X), reply(value, "c1"))

    def test_garbage(self):
        """A process that writes what is no request is dropped and ended, and the front goes on."""
        self.check(b"boom\n", "--inspect-ask", "was dropped, since it sent a line that is no request, and nothing more is shown", 0)

    def test_forged(self):
        """One that asks for commands that are not allowed is refused, and nothing changes."""
        sent = "".join(f"{at} c1 {line}\n" for at, line in enumerate((SET, '{"do":"reset"}', '{"do":"spin"}'), 1)).encode()
        self.check(sent, "--inspect-ask", "asked for a command that is not allowed, which is refused", 0)

    def test_written(self):
        """With leave to write it may set, and not reset."""
        sent = f'1 c1 {SET}\n2 c1 {{"do":"reset"}}\n'.encode()
        self.check(sent, "--inspect-write", "asked for a command that is not allowed, which is refused", 77)
