"""The inspector behind a front (clients/inspecting, front/src/inspector.rs): who may look, what is known by lines, what
may be asked and written with permission, and that it never blocks anything."""

import http.client
import json
import os
import re
import signal
import socket
import subprocess
import sys
import time
from pathlib import Path

from inspecting.feed import Asking, Feed
from inspecting.serving import HEADERS

from tests.support.lines import text_of

from . import CLIENTS
from .fronts import NEW, PATIENCE, Client, front_of, reply
from .inspected import world_of
from .inspectors import Asker, InspectCases, address_in
from .stand_ins import is_running

LONG_TEXT = "x" * 4_096
MARKUP = "<img src=x onerror=alert(1)>"
CELL = '{"do":"new","class":"Cell"}'
SPIN = '{"do":"spin"}'


def setting(value, number=1, name="x"):
    return text_of({"do": "set", "object": number, "property": name, "value": value})


def properties(found):
    return {it["name"]: it for it in found["properties"]}


class Refusals(InspectCases):
    """Who may look at a front that is shown."""

    def test_refused(self):
        """A request without the token, with another host or from another page is refused, and learns nothing."""
        with self.shown() as (_, _, asker):
            right, json_type = {"Host": asker.own}, {"Content-Type": "application/json"}
            cases = [
                ("GET", "/", {}), ("GET", "/sessions", {}), ("GET", "/index.html", {}), ("GET", "//sessions", {}),
                ("GET", asker.path[:-2] + "/", {}), ("GET", f"/x{asker.path[1:]}", {}), ("GET", "/%C3%A4/", {}),
                ("GET", asker.path, {"Host": "example.org"}), ("GET", asker.path, {"Host": f"example.org:{asker.port}"}),
                ("GET", asker.path, {"Host": "127.0.0.1"}), ("GET", asker.path, {**right, "Origin": "http://example.org"}),
                ("POST", "/x/ask", json_type), ("POST", f"{asker.path}ask", {**json_type, "Origin": "null"}),
            ]  # fmt: skip
            for method, path, headers in cases:
                with self.subTest(method=method, path=path, headers=headers):
                    status, _, body = asker.answer(method, path, "{}" if method == "POST" else None, **headers)
                    self.assertEqual((status, body), (403, b"refused\n"))
            for host in (asker.own, f"localhost:{asker.port}"):
                self.assertEqual(asker.answer("GET", asker.path, Host=host)[0], 200)

    def test_not_there(self):
        """A name that there is not is 404, what is asked wrongly 400, and what is not known null; other methods are refused, and no file but those of the page
        is read."""
        with self.shown() as (_, _, asker):
            for path, status in (
                ("nothing", 404), ("../program.py", 404), ("..%2fprogram.py", 404), ("object", 400), ("tree", 400), ("graph?kind=x", 400),
            ):  # fmt: skip
                with self.subTest(path=path):
                    self.assertEqual(asker.answer("GET", asker.path + path)[0], status)
            for path in ("object?session=none&number=1", "entry?number=9", "entry?number=x", "chain?number=1&call=0", "tree?session="):
                self.assertEqual(asker.answer("GET", asker.path + path)[::2], (200, b"null"), path)
            self.assertEqual(asker.answer("PUT", asker.path)[0], 501)
            self.assertEqual(asker.answer("POST", asker.path + "ask", "{}")[0], 400)
            for body in ("", "{", "[]", "5", '{"session":5}', "x" * 70_000):
                self.assertEqual(asker.answer("POST", asker.path + "ask", body, **{"Content-Type": "application/json"})[0], 400, body[:20])

    def test_headers(self):
        """Each answer has a policy by which nothing but the page's own script and style runs, and is kept nowhere."""
        with self.shown() as (_, _, asker):
            for path in ("", "app.js", "style.css", "about", "none"):
                _, headers, _ = asker.answer("GET", asker.path + path)
                self.assertEqual({name: headers.get(name) for name in HEADERS}, HEADERS, path)
            policy = HEADERS["Content-Security-Policy"]
            self.assertTrue(policy.startswith("default-src 'none'; "))
            self.assertNotIn("unsafe", policy)

    def test_page_is_whole(self):
        """The files of the page lead only to each other, are small, and put no text into the page but as text."""
        files = {it.name: it.read_text() for it in (CLIENTS / "inspecting" / "page").iterdir()}
        for name, text in files.items():
            self.assertLess(text.count("\n"), 500, name)
            for word in ("innerHTML", "outerHTML", "insertAdjacentHTML", "document.write", "eval(", "Function(", "https://"):
                self.assertNotIn(word, text, name)
            named = re.findall(r'(?:from|src=|href=) ?"\.?/?([\w.]+)"', text)
            self.assertLessEqual(set(named), files.keys(), name)

    def test_loopback(self):
        """It listens at this machine's own address alone, at the port that is asked for; one that is taken is said."""
        with socket.socket() as taken:
            taken.bind(("127.0.0.1", 0))
            taken.listen()
            port = str(taken.getsockname()[1])
            with front_of("--inspect", port, Path(self.room, "other"), self.program) as process:
                _, said = process.communicate(timeout=PATIENCE)
            self.assertEqual((process.returncode, said), (1, f"metad-front: port {port} cannot be bound: Address already in use\n"))
        with self.shown() as (_, _, asker):
            for host in {it[4][0] for it in socket.getaddrinfo(socket.gethostname(), None, socket.AF_INET)} - {"127.0.0.1"}:
                with socket.socket() as link:
                    self.assertNotEqual(link.connect_ex((host, asker.port)), 0, host)

    def test_help(self):
        """The usage for a record is that of its page, which describes each option of the front for the inspector."""
        page = (CLIENTS / "inspecting" / "README.md").read_text()
        shown = subprocess.run([sys.executable, CLIENTS / "inspect", "--help"], capture_output=True, text=True, timeout=PATIENCE).stdout
        self.assertIn(shown.splitlines()[0].replace("usage: inspect", "clients/inspect"), page.splitlines())
        for option in ("--inspect PORT", "--inspect-ask", "--inspect-write"):
            self.assertIn(f"| `{option}` |", page)

    def test_record_faults(self):
        """A record or a program that is not there, and a port that is taken, are status 1; wrong words are status 2."""
        words = [sys.executable, CLIENTS / "inspect"]
        here = Path(self.room, "record")
        here.write_text(CELL + "\n")
        for more, status, said in (
            (["none", self.program], 1, "inspect: none cannot be opened: No such file or directory\n"),
            ([here, "no-such-program"], 1, "inspect: no-such-program cannot be started: No such file or directory\n"),
            ([here, "/bin/false"], 1, "inspect: /bin/false has ended with status 1\n"),
            ([here], 2, None), (["--port", "x", here, self.program], 2, None), ([], 2, None),
        ):  # fmt: skip
            ran = subprocess.run([*words, *more], capture_output=True, text=True, timeout=PATIENCE)
            self.assertEqual((ran.returncode, ran.stdout), (status, ""), more)
            self.assertTrue(said in (None, ran.stderr) and "Traceback" not in ran.stderr, ran.stderr)

    def test_words(self):
        """Leave is only for a front that is shown, and a port is one."""
        for words, said in ((["--inspect-ask"], "need --inspect"), (["--inspect-write"], "need --inspect"), (["--inspect", "65536"], "no number of a port")):
            with front_of(*words, Path(self.room, "other"), self.program) as process:
                self.assertIn(said, process.communicate(timeout=PATIENCE)[1])
            self.assertEqual(process.returncode, 2)


class Looking(InspectCases):
    """What is known by the lines that pass the front."""

    def test_sessions(self):
        """Sessions come and go with their clients, and their counts follow."""
        with self.shown(options=("--share", "team")) as (path, _, asker):
            with Client(path) as one, Client(path) as other:
                other.ask('{"front":"share","session":"team"}')
                for line in (CELL, CELL, '{"do":"connect","sender":1,"signal":"xChanged(int)","receiver":2,"method":"seen(int)","type":"queued"}'):
                    one.ask(line)
                one.ask(setting(4))
                other.ask(NEW)
                found = asker.until(self, lambda it: it["total"] == 2, "sessions")
                rows = {it["name"]: it for it in found["rows"]}
                self.assertEqual(rows.keys(), {"c1", "team"})
                self.assertEqual((rows["c1"]["objects"], rows["c1"]["connections"]), ([2, True], [1, True]))
                self.assertEqual(rows["c1"]["queued"], [1, False], "an event that is posted by a signal is not known for certain")
                one.ask(SPIN)
                one.hear()
                asker.until(self, lambda it: it["rows"][0]["queued"] == [0, True], "sessions")
            asker.until(self, lambda it: [row["name"] for row in it["rows"]] == ["team"], "sessions")

    def test_object(self):
        """An object is shown with what its class declares, with markup in its name as text, and with long texts."""
        with self.shown() as (path, _, asker), Client(path) as client:
            client.ask(CELL)
            client.ask(setting(MARKUP, name="objectName"))
            client.ask(setting(LONG_TEXT, name="note"))
            client.ask('{"do":"bind","object":1,"property":"x","to":{"+":[{"prop":"y"},{"const":1}]}}')
            client.ask(setting(2**63, name="big"))
            found = asker.until(self, lambda it: "note" in properties(it) and properties(it)["big"]["entry"], "object", session="c1", number=1)
            rows = properties(found)
            self.assertEqual((found["name"], rows["objectName"]["value"]), (MARKUP, MARKUP))
            self.assertEqual((rows["note"]["value"], rows["note"]["dynamic"]), (LONG_TEXT, True))
            self.assertEqual((rows["x"]["type"], rows["x"]["notify"], rows["x"]["binding"]), ("int", "xChanged(int)", "y + 1"))
            self.assertEqual((rows["x"]["value"], rows["y"]["value"], rows["y"]["sure"]), (None, 0, True))
            self.assertEqual((rows["big"]["value"], rows["y"]["readers"]), ({"large": str(2**63)}, [[1, "x"]]))
            self.assertEqual([it["text"] for it in found["methods"] if it["of"] == "Cell"], ["xChanged(int)", "seen(int)", "setX(int)"])

    def test_record(self):
        """A server whose class file is not known is shown as far as its lines tell."""
        server = Path(self.room, "server")
        server.write_text(f"#!/bin/sh\nexec {self.program}\n")
        server.chmod(0o755)
        with self.shown("no-such-file.json", server=[str(server)]) as (path, _, asker), Client(path) as client:
            client.ask(CELL)
            client.ask(setting(4))
            found = asker.until(self, lambda it: properties(it).get("x", {}).get("value") == 4, "object", session="c1", number=1)
            self.assertEqual((found["class"], found["class_known"], properties(found)["x"]["type"], found["methods"]), ("Cell", False, None, []))
            self.assertIsNone(asker.get("about")["classes"])

    def test_news(self):
        """Two browsers are notified of each change, and one that does not read blocks nothing."""
        with self.shown() as (path, _, asker), Client(path) as client:
            links = []
            for _ in range(2):
                link = http.client.HTTPConnection(asker.host, asker.port, timeout=PATIENCE)
                self.addCleanup(link.close)
                link.request("GET", asker.path + "news")
                links.append(link.getresponse())
            client.ask(NEW)
            for answer in links:
                told = {"commands": 0, "waiting": 0}
                while told["commands"] == 0 or told["waiting"]:
                    line = answer.readline()
                    told = json.loads(line[6:]) if line.startswith(b"data: ") else told
                self.assertEqual((told["commands"], told["sessions"]), (1, 1))
            self.assertEqual(asker.get("about")["commands"], 1)


class Speaking(InspectCases):
    """What the page asks of sessions, and gives them, with leave."""

    def test_without_leave(self):
        """Without leave nothing is asked nor given."""
        with self.shown() as (path, _, asker), Client(path) as client:
            client.ask(NEW)
            for word in ("status", "children", "set", "reset"):
                self.assertEqual(asker.ask("c1", do=word), 403, word)
            self.assertEqual(asker.post("ask_tree", {"session": "c1"}), 403)
            self.assertEqual(asker.get("about")["ask"], False)

    def test_ask(self):
        """With permission to ask, a session can be asked. Its client receives nothing of that, and nothing can be written."""
        with self.shown(options=("--inspect-ask",)) as (path, _, asker), Client(path) as client:
            client.ask(CELL)
            said = asker.ask("c1", do="get", object=1, property="x")
            self.assertEqual((json.loads(said["answer"]), said["by_inspector"]), ({"reply": 0, "session": "c1"}, True))
            for word, more in (("set", {"object": 1, "property": "x", "value": 1}), ("invoke", {}), ("reset", {}), ("spin", {}), ("get", {"more": 1})):
                self.assertEqual(asker.ask("c1", do=word, **more), 403, word)
            self.assertEqual(client.ask(CELL), reply(2, "c1"), "the next line that the client receives")
            self.assertEqual(asker.post("ask_tree", {"session": "c1"})["asked"], 3)

    def test_ask_nobody(self):
        """A session that is not there is not asked, so that none is made by asking."""
        with self.shown(options=("--inspect-write",)) as (path, _, asker):
            for name in ("c1", "team", "x" * 64):
                self.assertEqual(asker.ask(name, do="status"), {"answer": None}, name)
            with Client(path) as client:
                client.ask(NEW)
            asker.until(self, lambda it: (it["commands"], it["waiting"], it["sessions"]) == (2, 0, 0), "about")  # `new` and `reset`
            self.assertEqual(asker.ask("c1", do="status"), {"answer": None})
            self.assertEqual(asker.get("sessions")["total"], 0)

    def test_write(self):
        """With permission to write, properties can be set and slots invoked. The client receives the calls, but not the reply."""
        with self.shown(options=("--inspect-write",)) as (path, _, asker), Client(path) as client:
            client.ask(CELL)
            client.ask('{"do":"connect","sender":1,"signal":"xChanged(int)","receiver":1,"method":"seen(int)"}')
            self.assertEqual(json.loads(asker.ask("c1", do="set", object=1, property="x", value={"json": "7"})["answer"])["reply"], True)
            self.assertEqual(json.loads(client.hear()), {"args": [7], "call": "seen(int)", "object": 1, "sender": 1, "session": "c1"})
            big = asker.ask("c1", do="set", object=1, property="big", value={"json": str(2**64 - 1)})
            self.assertEqual(json.loads(big["answer"])["reply"], True)
            asker.ask("c1", do="invoke", object=1, method="seen(int)", args={"json": "[3]"})
            self.assertEqual(json.loads(client.hear())["args"], [3])
            self.assertEqual(client.ask('{"do":"get","object":1,"property":"big"}'), reply(2**64 - 1, "c1"))
            self.assertEqual(json.loads(asker.ask("c1", do="set", object=9, property="x", value=1)["answer"])["error"], "E04")
            self.assertEqual(asker.ask("c1", do="set", object=1, property="x", value={"json": "x"}), 400)


class Nobody(InspectCases):
    """The inspector never blocks anything."""

    def test_stopped(self):
        """An inspector that reads nothing holds nobody up. When it goes on, it says how much was left out, and which sessions
        are no longer known for certain."""
        with self.shown() as (path, process, asker), Client(path) as client:
            client.ask(CELL)
            asker.until(self, lambda it: it["total"] == 1, "sessions")
            number = self.inspector_of(process)
            os.kill(number, signal.SIGSTOP)
            text = setting(LONG_TEXT, name="note")
            for _ in range(60):
                client.say(*[text] * 100)
                self.assertEqual({client.hear() for _ in range(100)}, {reply(False, "c1")})
            os.kill(number, signal.SIGCONT)
            asker.until(self, lambda it: it["left_out"] > 0, "about")
            client.ask(setting(3))
            found = asker.until(self, lambda it: it["rows"][0]["objects"][1] is False, "sessions")
            self.assertEqual(found["rows"][0]["objects"], [0, False])
            self.assertEqual(client.ask(CELL), reply(2, "c1"))
            asker.until(self, lambda it: it["commands"] > 3 and it["waiting"] == 0, "about")

    def test_killed(self):
        """One that is killed is done without."""
        with self.shown() as (path, process, _), Client(path) as client:
            client.ask(CELL)
            os.kill(self.inspector_of(process), signal.SIGKILL)
            process.log.wait_for(self, "metad-front: the inspector has ended, and nothing more is shown")
            self.assertEqual(client.ask(CELL), reply(2, "c1"))

    def test_front_killed(self):
        """It ends with a front that is killed."""
        with front_of("--inspect", "0", Path(self.room, "socket"), self.program) as process:
            lines = [process.stderr.readline() for _ in range(2)]
            number, asker = self.inspector_of(process), Asker(address_in(lines))
            self.assertEqual(asker.get("about")["commands"], 0)
            process.kill()
        until = time.monotonic() + PATIENCE
        while is_running(number):
            self.assertLess(time.monotonic(), until, "it is still there")
            time.sleep(0.02)


class Feeds(InspectCases):
    """What the front tells the inspector, byte by byte."""

    def test_pieces(self):
        """Lines are read however they are cut. Commands that are under way at a gap are begun again."""
        told = b'@5\n>{"do":"new","class":"Cell","session":"a"}\n@9\n{"reply":1,"session":"a"}\n?3 {"do":"status","session":"a"}\n'
        told += b'!{"left":7,"sessions":["a"],"under_way":[["a",true],["b",false]]}\n{"reply":1,"session":"a"}\n{"reply":1,"session":"b"}\n'
        told += b'>too long\n{"error":"E01","session":"-"}\n!{"gone":"b"}\n>{"do":"reset","session":"b"}\n{"reply":true,"session":"b"}\n'
        for size in (1, 7, len(told)):
            world = world_of([])
            feed = Feed(world, Asking(None))
            for at in range(0, len(told), size):
                feed.take(told[at : at + size])
            self.assertEqual((world.left_out, sorted(world.sessions), world.entries.count), (7, ["a"], 6))
            self.assertEqual((world.sessions["a"].is_known, len(world.under_way), world.entries.get(1).taken), (False, 0, 4))
