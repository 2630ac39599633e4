"""The relay for web pages, `clients/web`: what comes over a WebSocket is what comes over the front's socket, and what a page
may not do closes its connection, with the codes of RFC 6455."""

import json
import os
import random
import re
import signal
import socket
import subprocess
import sys
import time
import unittest
from concurrent.futures import ThreadPoolExecutor
from pathlib import Path

from tests.generators.sessions import CLASSES, life_of
from tests.support.closing import give, rest_of
from tests.support.documents import WEB_PAGE
from tests.support.lines import text_of
from tests.support.program import ROOT
from tests.support.seeds import seed_of

from .certificates import HAS_OPENSSL, Authority
from .fronts import NEW, PATIENCE, STATUS, Client, classes_in, error, reply
from .networked import context_of
from .stand_servers import wait_until_true
from .test_front import alone
from .test_front_rubbish import FORGERIES, hard_lines
from .web_sockets import BINARY, CLOSE, PING, PONG, TEXT, WEB, WebCases, WebSocket, frame, python_with_web_sockets

LINE_MOST = 65_536
CROWD = 64
STREAMS, LINES = 2, 400
LIVES = 6  # that are different
GOING, NOT_TEXT, NO_LINE, TOO_LONG, LATER = 1001, 1003, 1007, 1009, 1013
GONE = (GOING, "the front has closed the connection")
OVER = (GOING, "the relay has ended")
UNREAD_MOST = 16 * 1024 * 1024  # bytes that the front keeps for a client
MEMORY_MOST = 96 * 1024 * 1024  # bytes of a relay
SECONDS_OF_FILE = 60  # for which a relay would wait for a page that does not read, if it did not end


class Lines(WebCases):
    """What is written and read."""

    def stream(self, chance, commands):
        """Random lines, among them blank ones, the longest, and those that ask for a session of others."""
        for _ in range(LINES):
            kind = chance.random()
            if kind < 0.5:
                yield text_of(chance.choice(commands))
            elif kind < 0.8:
                yield "".join(chance.choices(hard_lines.PIECES, k=chance.randint(0, 12))).replace("\n", " ")
            elif kind < 0.99:
                yield chance.choice(FORGERIES).replace('"reset"', '"status"')
            else:
                yield "x" * chance.choice((65_535, 65_536))

    def told_in(self, lines):
        """What the first client of a front receives over its socket."""
        with self.front(classes_in(self.room, CLASSES)) as (path, _), Client(path) as client, ThreadPoolExecutor(1) as pool:
            writing = pool.submit(client.say, *lines)
            found = [client.hear() for line in lines if line.strip()]
            writing.result()
            return found + client.rest()

    def told_by_web(self, lines, number):
        """So many lines that the first client receives over a WebSocket. No more come after them."""
        with self.fronted(words=[classes_in(self.room, CLASSES)]) as (port, _, _, _), self.opened(port) as client:
            with ThreadPoolExecutor(1) as pool:
                writing = pool.submit(client.say, *lines)
                found = [client.hear() for _ in range(number)]
                writing.result()
            self.assertIn('"objects"', client.ask(STATUS), "what comes next")
            return found

    def test_streams(self):
        """Random lines are answered byte for byte as over the front's socket."""
        seed = seed_of(self)
        commands = [command for number in range(LIVES) for command in life_of(number)]
        for number in range(STREAMS):
            lines = [STATUS, *self.stream(random.Random(f"{seed} {number}"), commands)]  # a bad greeting would end it at once
            local = self.told_in(lines)
            self.assertGreater(len(local), LINES / 2, "lines that are answered")
            self.assertEqual(self.told_by_web(lines, len(local)), local, f"SEED={seed}")

    def test_frames(self):
        """A line in fragments with pings between them, one byte by byte, and the longest one."""
        with self.fronted() as (port, _, _, _), self.opened(port) as client:
            line = NEW.encode()
            client.link.sendall(frame(TEXT, line[:5], False) + frame(PING, b"here") + frame(0, line[5:9], False) + frame(0, line[9:]))
            self.assertEqual(client.read(), (PONG, b"here"), "the answer to a ping")
            self.assertEqual(client.hear(), reply(1, "c1"), "a line in fragments")
            for byte in frame(TEXT, line):
                client.link.sendall(bytes([byte]))
            self.assertEqual(client.hear(), reply(2, "c1"), "a line byte by byte")
            longest = NEW[:-1].ljust(LINE_MOST - len(',"session":"c1"') - 1) + "}"
            self.assertEqual(client.ask(longest), reply(3, "c1"), "the longest line that the front answers")
            self.assertEqual(client.ask("x" * LINE_MOST), error("E01", "-"), "the longest message")
            client.say('{"do":"set","object":1,"property":"objectName","value":"\u00e4\U0001f600"}', '{"do":"get","object":1,"property":"objectName"}')
            self.assertEqual([client.hear(), client.hear()], [reply(True, "c1"), reply("\u00e4\U0001f600", "c1")], "letters of other scripts")

    def test_front_lines(self):
        """A live session gets events unasked, a share is one session, and a refused first line arrives before the end."""
        with self.fronted() as (port, path, _, _), self.opened(port) as live, Client(path) as other:
            own = json.loads(live.ask('{"front":"hello","live":true}'))["session"]
            live.ask('{"class":"Cell","do":"new"}')
            for line in ('{"class":"Cell","do":"new"}', '{"do":"publish","name":"level","object":1,"signal":"xChanged(int)"}'):
                name = json.loads(other.ask(line))["session"]
            live.ask('{"do":"join","from":"%s","method":"seen(int)","name":"level","object":1,"types":["int"]}' % name)
            other.ask('{"do":"set","object":1,"property":"x","value":7}')
            self.assertEqual(json.loads(live.hear()), {"args": [7], "call": "seen(int)", "object": 1, "sender": 0, "session": own})
            with self.opened(port) as one, self.opened(port) as two:
                made = []
                for client in (one, two):
                    client.ask('{"front":"share","session":"team"}')
                    made.append(client.ask(NEW))
                self.assertEqual(made, [reply(1, "team"), reply(2, "team")])
            for _ in range(10):
                with self.opened(port) as refused:
                    refused.say('{"front":"share","session":"nobody"}', *[STATUS] * 1_000)
                    self.assertEqual([refused.hear(), refused.hear()], [error("F02", "-"), GONE])

    def test_many(self):
        """64 WebSockets at once receive what each of them receives alone."""
        classes = classes_in(self.room, CLASSES)
        lives = [list(life_of(number)) for number in range(LIVES)]
        wanted = [alone([self.program, classes], "NAME", life) for life in lives]

        def lived(at):
            with self.opened(port) as client:
                name = json.loads(client.ask(STATUS))["session"]
                client.say(*map(text_of, lives[at % LIVES]))
                return name, [client.hear() for _ in wanted[at % LIVES]]

        with self.fronted(words=[classes]) as (port, _, _, _), ThreadPoolExecutor(CROWD) as pool:
            told = list(pool.map(lived, range(CROWD)))
        self.assertEqual(len({name for name, _ in told}), CROWD, "how many names")
        for at, (name, lines) in enumerate(told):
            self.assertEqual(lines, [line.replace('"NAME"', f'"{name}"') for line in wanted[at % LIVES]], f"what {name} receives")

    def test_left(self):
        """What a page has sent before it left is done, and its session is reset."""
        with self.fronted() as (port, path, _, _), Client(path) as other:
            other.say('{"front":"share","session":"team"}')
            other.hear()
            with self.opened(port) as client:
                client.ask('{"front":"share","session":"team"}')
                client.say(*[NEW] * 200)
                client.link.sendall(frame(CLOSE, b"\x03\xe8"))
                while isinstance(client.hear(), str):
                    pass
            wait_until_true(self, lambda: json.loads(other.ask(STATUS))["reply"]["objects"] == 200, "200 objects are made")


class Refused(WebCases):
    """What closes a connection, or opens none."""

    def closed_by(self, port, data):
        """The code and the reason by which a connection is closed for some bytes."""
        with self.opened(port) as client:
            self.assertIn("reply", client.ask(STATUS))
            client.link.sendall(data)
            return client.hear()

    def test_messages(self):
        """Binary messages, line feeds, what is not UTF-8, what is too long and malformed frames, by their codes."""
        much = frame(TEXT, b"x" * (LINE_MOST + 1))
        parts = frame(TEXT, b"x" * LINE_MOST, False) + frame(0, b"x")
        cases = {
            frame(BINARY, NEW.encode()): (NOT_TEXT, "a message has to be text"),
            frame(TEXT, f"{NEW}\n{NEW}".encode()): (NO_LINE, "a message is one line, without a line feed"),
            frame(TEXT, f"{NEW}\n".encode()): (NO_LINE, "a message is one line, without a line feed"),
            frame(TEXT, b"\xff"): (NO_LINE, "a message has to be UTF-8"),
            much: (TOO_LONG, "a message has at most 65536 bytes"),
            parts: (TOO_LONG, "a message has at most 65536 bytes"),
            b"\x81\x02{}": (1002, "a frame is not as RFC 6455 has it"),  # without a mask
            frame(3, b""): (1002, "a frame is not as RFC 6455 has it"),  # of a kind that there is not
        }
        with self.fronted() as (port, path, _, _):
            for data, wanted in cases.items():
                with self.subTest(begins=data[:20]):
                    self.assertEqual(self.closed_by(port, data), wanted)
            with Client(path) as client:
                self.assertEqual(json.loads(client.ask(STATUS))["reply"]["objects"], 0)

    def test_half(self):
        """Half a message, half a request and bytes of something else keep nobody waiting, and nothing of them is done."""
        with self.fronted() as (port, path, _, _), Client(path) as other:
            other.ask('{"front":"share","session":"team"}')
            with self.opened(port) as client:
                client.ask('{"front":"share","session":"team"}')
                client.link.sendall(frame(TEXT, NEW.encode())[:-3])
                with self.opened(port) as second:
                    self.assertEqual(second.ask(NEW)[:10], '{"reply":1')
            held = [socket.create_connection(("127.0.0.1", port)) for _ in range(8)]
            for link in held:
                link.sendall(b"GET / HT")
            with socket.create_connection(("127.0.0.1", port), PATIENCE) as link:
                link.sendall(b"\x16\x03\x01\x02\x00\r\n\r\n")
                self.assertRegex(link.makefile("rb").readline(), rb"^HTTP/1\.1 400 ")
            with self.opened(port) as second:
                self.assertEqual(second.ask(NEW)[:10], '{"reply":1')
            self.assertEqual(json.loads(other.ask(STATUS))["reply"]["objects"], 0, "what half a message has made")
            for link in held:
                link.close()

    def test_origins(self):
        """A page of another host gets 403, and so does one that had its own name pointed here."""
        with self.fronted() as (port, _, _, _):
            own = f"127.0.0.1:{port}"
            cases = [
                (own, None, 101), (own, f"http://{own}", 101), (f"localhost:{port}", f"http://localhost:{port}", 101),
                (own, "http://evil.example", 403), (own, f"http://evil.example:{port}", 403), (own, "http://127.0.0.1", 403),
                (own, "null", 403), (own, "file://", 403), (own, f"http://evil.example@{own}", 403), (own, f"http://{own}.evil.example", 403),
                (f"evil.example:{port}", f"http://evil.example:{port}", 403), (f"evil.example:{port}", None, 403), (None, f"http://{own}", 403),
            ]  # fmt: skip
            for host, origin, wanted in cases:
                with self.subTest(host=host, origin=origin), WebSocket(port, Host=host, Origin=origin) as client:
                    self.assertEqual(client.status, wanted)
        with self.fronted("--origin", "https://Desk.example", "--origin", "http://desk.example:8080") as (port, _, _, _):
            own = f"127.0.0.1:{port}"
            cases = [
                (own, "https://desk.example", 101), (own, "https://desk.example:443", 101), ("desk.example", "http://desk.example:8080", 101),
                (own, "http://desk.example", 403), (own, f"http://{own}", 403), ("evil.example", "https://desk.example", 403),
            ]  # fmt: skip
            for host, origin, wanted in cases:
                with self.subTest(host=host, origin=origin), WebSocket(port, Host=host, Origin=origin) as client:
                    self.assertEqual(client.status, wanted)

    def test_subprotocol(self):
        """The subprotocol `metad` is chosen where it is offered; a client with others, or without, is let in too."""
        with self.fronted() as (port, _, _, _):
            for offered, wanted in ((None, None), ("metad", "metad"), ("other, metad", "metad"), ("other", None)):
                with self.opened(port, Sec_WebSocket_Protocol=offered) as client:
                    self.assertEqual(client.headers.get("sec-websocket-protocol"), wanted, offered)

    def test_crowd(self):
        """With --clients 2, a third connection gets 503 until another one has gone."""
        with self.fronted("--clients", "2") as (port, _, _, _), self.opened(port) as one, self.opened(port) as two:
            with WebSocket(port) as third:
                self.assertEqual(third.status, 503)
            self.assertIn("reply", one.ask(STATUS))
            two.leave()

            def is_let_in():
                with WebSocket(port) as again:
                    return again.status == 101

            wait_until_true(self, is_let_in, "another one is let in")


class Ends(WebCases):
    """How connections end."""

    def test_front_dies(self):
        """When the front is killed, all connections close with 1001; later ones with 1013 until there is a front again."""
        with self.front() as (path, front), self.relay(path) as (port, _):
            clients = [self.opened(port) for _ in range(8)]
            for client in clients:
                client.ask(STATUS)
            front.send_signal(signal.SIGTERM)
            self.assertEqual([client.hear() for client in clients], [GONE] * len(clients))
            for client in clients:
                client.leave()
            front.wait(PATIENCE)
            with self.opened(port) as late:
                self.assertEqual(late.hear(), (LATER, "the front cannot be reached: No such file or directory"))
            words = [front.args[0], "--quiet", path, self.program]
            with subprocess.Popen(words, stderr=subprocess.DEVNULL) as again:
                self.wait_for(path, again)
                with self.opened(port) as client:
                    self.assertIn("reply", client.ask(STATUS))
                again.terminate()

    def test_relay_ends(self):
        """SIGTERM closes all connections with 1001, also where a page does not read, and ends the relay in a short time."""
        with self.fronted() as (port, _, process, _), self.opened(port) as client, self.opened(port) as other, self.opened(port) as deaf:
            client.ask(STATUS)
            deaf.say(STATUS)
            begun = time.monotonic()
            process.send_signal(signal.SIGTERM)
            for it in (client, other):
                self.assertEqual(it.hear(), OVER)
                give(it.link, frame(CLOSE, b"\x03\xe9"))  # where the relay has ended, it takes no answer
                self.assertIsNone(it.read(), "the end of the connection")
            self.assertEqual(process.wait(PATIENCE), 0)
            self.assertLess(time.monotonic() - begun, SECONDS_OF_FILE - 15, "seconds until the end")

    def memory_of(self, process):
        """The bytes of memory that a process has had at most."""
        return int(re.search(r"VmHWM:\s+(\d+) kB", Path(f"/proc/{process.pid}/status").read_text())[1]) * 1024

    def test_unread(self):
        """For a page that does not read, little is kept in memory, and others are served."""
        with self.fronted() as (port, path, process, _), self.opened(port, receive=4_096) as deaf:
            deaf.ask(NEW)
            self.assertEqual(deaf.ask('{"do":"set","object":1,"property":"objectName","value":"%s"}' % ("n" * 4_000)), reply(True, "c1"))
            before = self.memory_of(process)
            deaf.link.settimeout(1)
            line = frame(TEXT, b'{"do":"get","object":1,"property":"objectName"}')
            try:
                for _ in range(10_000):
                    deaf.link.sendall(line * 100)
            except OSError:
                pass  # the relay reads no more
            else:
                self.fail("the relay reads on")
            with self.opened(port) as other, Client(path) as local:
                self.assertEqual((json.loads(other.ask(NEW))["reply"], json.loads(local.ask(NEW))["reply"]), (1, 1), "other clients")
            self.assertLess(self.memory_of(process) - before, 16 * 1024 * 1024, "bytes of memory")
            self.assertLess(self.memory_of(process), MEMORY_MOST)

    def test_unread_calls(self):
        """The front closes a page that does not read calls at its limit; the relay then closes it too, and half a request."""
        limits, classes = Path(self.room, "limits.toml"), [{"name": "Ear", "super": "QObject", "slots": [{"sig": "hear(QString)", "body": []}]}]
        limits.write_text(f"[client]\nunread_bytes = {UNREAD_MOST // 16}\n")
        options = ("--quiet", "--share", "team", "--limits", str(limits))
        share = '{"front":"share","session":"team"}'
        with self.front(classes_in(self.room, classes), options=options) as (path, _), self.relay(path) as (port, process), Client(path) as other:
            files = Path(f"/proc/{process.pid}/fd")
            before = len(list(files.iterdir()))
            with self.opened(port, receive=4_096) as deaf:
                for client in (deaf, other):
                    self.assertIn("reply", client.ask(share))
                other.ask('{"class":"Ear","do":"new"}')
                other.ask('{"do":"connect","method":"hear(QString)","receiver":1,"sender":1,"signal":"objectNameChanged(QString)"}')
                half = self.enterContext(socket.create_connection(("127.0.0.1", port), PATIENCE))
                half.sendall(b"GET / HT")
                wait_until_true(self, lambda: len(list(files.iterdir())) == before + 3, "the relay has files for one page and half a request")
                for at in range(4_000):
                    other.say('{"do":"set","object":1,"property":"objectName","value":"%d%s"}' % (at, "n" * 4_000))
                    self.assertIn('"hear(QString)"', other.hear())
                    self.assertEqual(other.hear(), reply(True, "team"))
                wait_until_true(self, lambda: len(list(files.iterdir())) == before, "the relay has closed both")
                self.assertEqual(half.recv(100), b"", "the end of half a request")
            self.assertLess(self.memory_of(process), MEMORY_MOST)


class Files(WebCases):
    """What is served to browsers besides WebSockets."""

    def got(self, port, path, **headers):
        """The status, the content type and the body of a plain request."""
        with WebSocket(port, path=path, Upgrade=None, Connection=None, **headers) as client:
            return client.status, client.headers.get("content-type"), client.body

    def test_files(self):
        """Files of the folder by their types, and nothing else: no listing, nothing outside, nothing hidden."""
        top, text = Path(self.room, "page"), "text/plain; charset=utf-8"
        (top / "sub").mkdir(parents=True)
        files = {
            "index.html": "text/html; charset=utf-8", "form.mjs": "text/javascript; charset=utf-8", "sub/a b.css": "text/css; charset=utf-8",
            "picture.png": "image/png", "data.json": "application/json; charset=utf-8", "some.bin": "application/octet-stream",
        }  # fmt: skip
        for name in (*files, ".hidden", "sub/.git"):
            (top / name).write_bytes(b"of " + name.encode())
        Path(self.room, "secret").write_bytes(b"secret")
        (top / "out").symlink_to(Path(self.room, "secret"))
        (top / "away").symlink_to(self.room)
        (top / "in").symlink_to(top / "index.html")
        os.mkfifo(top / "pipe")
        missing = (404, text, b"there is no such file\n")
        with self.fronted("--files", str(top)) as (port, _, process, _):
            self.assertIn(f"web: files at http://127.0.0.1:{port}/", process.log.lines())
            for name, kind in files.items():
                self.assertEqual(self.got(port, "/" + name.replace(" ", "%20") + "?x=/../y"), (200, kind, b"of " + name.encode()))
            self.assertEqual(self.got(port, "/")[2], b"of index.html")
            self.assertEqual(self.got(port, "/in")[2], b"of index.html", "a link within the folder")
            client = (ROOT / "clients" / "js" / "index.mjs").read_bytes()
            self.assertEqual(self.got(port, "/metad/index.mjs"), (200, "text/javascript; charset=utf-8", client), "the client")
            for path in (
                "/sub", "/sub/", "/none", "/.hidden", "/sub/.git", "/out", "/away/secret", "/pipe", "/../secret", "/%2e%2e/secret", "/sub/../../secret",
                "/sub%2f..%2f..%2fsecret", "//index.html", "/./index.html", f"/{self.room}/secret", "/%00", "/%ff", "/metad/../web", "index.html", "/" + "a" * 300,
            ):  # fmt: skip
                with self.subTest(path=path[:40]):
                    self.assertEqual(self.got(port, path), missing)
            self.assertEqual(self.got(port, "/", Host="evil.example")[0], 403, "a page that had its own name pointed here")

    def test_no_files(self):
        """Without --files a plain request is answered by 426, and other methods by 400."""
        with self.fronted() as (port, _, _, _):
            self.assertEqual(self.got(port, "/")[0], 426)
            self.assertEqual(self.got(port, "/metad/index.mjs")[0], 426)
            with socket.create_connection(("127.0.0.1", port), PATIENCE) as link:
                link.sendall(b"POST / HTTP/1.1\r\nHost: 127.0.0.1\r\nContent-Length: 2\r\n\r\n{}")
                self.assertRegex(link.makefile("rb").readline(), rb"^HTTP/1\.1 400 ")

    @unittest.skipUnless(HAS_OPENSSL, "openssl makes the certificates")
    def test_tls(self):
        """With a certificate the relay speaks wss:// and https://; a page of the same host may connect, bytes without TLS not."""
        authority = Authority(self.room)
        certificate, key = authority.server()
        with self.fronted("--cert", certificate, "--key", key, "--files", str(ROOT / "clients")) as (port, _, process, _):
            self.assertIn(f"web: listening at wss://127.0.0.1:{port}/", process.log.lines())
            own = f"https://127.0.0.1:{port}"
            for origin, wanted in ((own, 101), (own.replace("https", "http"), 403), ("https://evil.example", 403)):
                with WebSocket(port, context_of(authority), Origin=origin) as client:
                    self.assertEqual(client.status, wanted, origin)
                    if wanted == 101:
                        self.assertEqual(client.ask(NEW), reply(1, "c1"))
            with socket.create_connection(("127.0.0.1", port), PATIENCE) as link:
                give(link, b"GET / HTTP/1.1\r\nHost: x\r\n\r\n")
                self.assertNotIn(b"HTTP/1.1 200", rest_of(link.makefile("rb")))


class Words(WebCases):
    """The relay's words."""

    def ran(self, *words):
        given = [python_with_web_sockets(), WEB, *map(str, words)]
        ran = subprocess.run(given, capture_output=True, text=True, timeout=PATIENCE, stdin=subprocess.DEVNULL)
        return ran.returncode, ran.stdout, ran.stderr

    def test_words(self):
        """Help is shown where it is asked for; wrong words are refused with status 2, and what cannot be used with 1."""
        status, said, fault = self.ran("--help")
        self.assertEqual((status, fault), (0, ""))
        wrong = (
            [], ["a", "b"], ["--else", "a"], ["--listen", "127.0.0.1", "a"], ["--listen", "example.org:80", "a"], ["--listen", "::1:80", "a"],
            ["--listen", "127.0.0.1:65536", "a"], ["--listen", ":80", "a"], ["--clients", "0", "a"], ["--clients", "x", "a"], ["--origin", "null", "a"],
            ["--origin", "example.org", "a"], ["--origin", "https://example.org/", "a"], ["--cli", "3", "a"], ["--files"],
        )  # fmt: skip
        for words in wrong:
            status, said, fault = self.ran(*words)
            self.assertEqual((status, said, fault.partition(" ")[0]), (2, "", "usage:"), words)
        for words in (["--cert", "x", "a"], ["--key", "x", "a"]):
            self.assertEqual(self.ran(*words), (2, "", "web: --cert and --key are given together, or neither\n"))

    def test_page(self):
        """The page of the network has each option of the help, and each code by which a connection is closed."""
        page = WEB_PAGE.read_text().partition("## Web pages")[2]
        listed = re.findall(r"--[a-z]+", "\n".join(re.findall(r"^- (`--.*?):", page, re.MULTILINE)))
        options = re.findall(r"^  (--[a-z]+)", self.ran("--help")[1], re.MULTILINE)
        self.assertEqual((listed, len(options)), (options, 6))
        codes = list(map(int, re.findall(r"^\| (\d{4}) \|", page, re.MULTILINE)))
        self.assertLessEqual({GOING, NOT_TEXT, NO_LINE, TOO_LONG, LATER}, set(codes))
        self.assertEqual(codes, sorted(codes))

    def test_open_addresses(self):
        """Without TLS, addresses that other machines reach are refused in a line that says why."""
        for place in ("0.0.0.0:0", "[::]:0", "192.0.2.7:80"):
            status, said, fault = self.ran("--listen", place, "a")
            self.assertEqual((status, said, fault.count("\n")), (2, "", 1), fault)
            self.assertIn(f"--listen {place} needs --cert and --key: without TLS, anyone on the way could read", fault)

    def test_unusable(self):
        """What is not there, or is something else, is said in one line."""
        plain = Path(self.room, "plain")
        plain.write_text("nonsense")
        missing, place = Path(self.room, "missing"), Path(self.room, "place")
        with socket.socket(socket.AF_UNIX) as link, socket.create_server(("127.0.0.1", 0)) as taken:
            link.bind(str(place))
            link.listen()
            port = taken.getsockname()[1]
            cases = {
                (missing,): f"{missing} cannot be reached: No such file or directory",
                (plain,): f"{plain} is no socket",
                ("--files", missing, place): f"{missing} is no folder",
                ("--cert", plain, "--key", plain, place): f"{plain} and {plain} cannot be used: they are no certificate with its private key in PEM form",
                ("--cert", missing, "--key", plain, place): f"{missing} and {plain} cannot be used: No such file or directory",
                ("--listen", f"127.0.0.1:{port}", place): f"127.0.0.1:{port} cannot be bound: Address already in use",
            }
            for words, why in cases.items():
                self.assertEqual(self.ran(*words), (1, "", f"web: {why}\n"))

    def test_without_library(self):
        """Where the library is not there, the relay says which package to install."""
        words = [sys.executable, "-S", WEB, Path(self.room, "x")]
        with socket.socket(socket.AF_UNIX) as link:
            link.bind(str(words[-1]))
            ran = subprocess.run(words, capture_output=True, text=True, timeout=PATIENCE)
        self.assertEqual((ran.returncode, ran.stdout), (1, ""))
        self.assertRegex(ran.stderr, r"^web: it needs websockets for .*: apt-get install python3-websockets\n$")
