"""Monitors of the client in Python: how they end, how they report lost lines, and for which fronts there are any."""

import json
import os
import stat
import sys
import tempfile
import threading
from pathlib import Path

import metad

from tests.support.lines import text_of

from .fronts import PATIENCE, Client, ClientCases, error, monitored, reply
from .grouped import wait_until

UNREAD_MOST = 16 * 1024 * 1024
CALL = {"args": ["x" * 4_000], "call": "f(QString)", "object": 1, "sender": 0}
SIZE = len(json.dumps({**CALL, "session": "c1"}, separators=(",", ":"))) + 1
TALKS = """
import json, sys
for line in sys.stdin.buffer:
    asked = json.loads(line)
    call = {"args": ["x" * 4_000], "call": "f(QString)", "object": 1, "sender": 0, "session": asked["session"]}
    text = json.dumps(call, separators=(",", ":")) + "\\n"
    for _ in range(asked.get("count", 0)):
        sys.stdout.write(text)
    print('{"reply":true,"session":"%s"}' % asked["session"], flush=True)
"""  # a server that tells as many calls as it is asked for
WHOLE, HALF = reply(1, "c1"), '{"reply":2,"sess'


class Monitors(ClientCases):
    """Monitors, and the fronts that they belong to."""

    def setUp(self):
        super().setUp()
        before, tempfile.tempdir = tempfile.tempdir, self.room
        self.addCleanup(setattr, tempfile, "tempdir", before)

    def talking(self):
        """A front whose server tells as many calls as it is asked for."""
        return metad.start_front(sys.executable, "-c", TALKS, monitor=True, timeout=PATIENCE)

    def in_thread(self, work):
        """Work that is under way in a thread of its own."""
        thread = threading.Thread(target=work, daemon=True)
        thread.start()
        return thread

    def written(self, *texts):
        return monitored(self.room, *texts)

    def test_closed_by_another_thread(self):
        """A monitor that is closed while another thread waits for its next line ends the iteration there."""
        with metad.start_front(self.program, monitor=True, timeout=PATIENCE) as front, front.connect() as server:
            monitor, heard, ended = front.monitor(), [], threading.Event()
            first = threading.Event()

            def read():
                for line in monitor:
                    heard.append(line)
                    first.set()
                ended.set()

            reading = self.in_thread(read)
            server.session("a").new("Probe")
            self.assertTrue(first.wait(PATIENCE), "whether a line comes")
            closing = self.in_thread(monitor.close)
            closing.join(PATIENCE / 3)
            self.assertFalse(closing.is_alive(), "whether closing waits")
            reading.join(PATIENCE / 3)
            self.assertTrue(ended.is_set(), "whether the iteration has ended as usual")
            self.assertEqual(heard, [{"reply": 1, "session": "c1"}], "what was received before")
            self.assertEqual(list(monitor), [], "what is received after it was closed")

    def test_front_ends(self):
        """Lines that a monitor has not read when the front ends are delivered before its end."""
        count = UNREAD_MOST * 3 // 4 // SIZE
        with self.talking() as front, front.monitor() as monitor:
            with front.connect() as server:
                self.assertIs(server.session("a").command("talk", count=count), True, "the answer")
                ending = self.in_thread(front.close)
                told = list(monitor)
                ending.join(PATIENCE)
        self.assertEqual(told[:count], count * [{**CALL, "session": "c1"}], "the calls")
        self.assertEqual(told[count], {"reply": True, "session": "c1"}, "the answer after them")

    def test_lines_lost(self):
        """A monitor that was closed because it left too much unread says so, after all lines that have arrived."""
        each, times = 500, 2 * UNREAD_MOST // SIZE // 500
        count = each * times
        with self.talking() as front, front.monitor() as monitor, front.monitor() as other, Client(front.monitor_path) as other_raw:
            others = []
            reading = self.in_thread(lambda: [others.append(line) for line in other])
            with front.connect() as server:
                for at in range(1, times + 1):
                    self.assertIs(server.session("a").command("talk", count=each), True, "the answer")
                    wait_until(self, lambda told=at * (each + 1): len(others) >= told, "a monitor that reads has kept up")
            raw = other_raw.told()
            told = []
            lost = self.raised("the end", metad.LinesLost, told.extend, monitor)
            self.raised("once more", metad.LinesLost, next, monitor)
            front.close()
            reading.join(PATIENCE)
        self.assertEqual(raw[-1], error("F10", "-"), "the last line as it is")
        self.assertLessEqual(set(raw[:-1]), {text_of({**CALL, "session": "c1"}), reply(True, "c1")}, "the lines before it")
        self.assertIn("lines were lost", str(lost), "what it says")
        self.assertIsInstance(lost, metad.ConnectionClosed, "its kind")
        self.assertTrue(0 < len(told) < count, f"how many lines have arrived: {len(told)}")
        strange = [it for it in told if it not in ({**CALL, "session": "c1"}, {"reply": True, "session": "c1"})]
        self.assertEqual(strange, [], "which have arrived")
        self.assertEqual(others.count({**CALL, "session": "c1"}), count, "what a monitor that reads receives")

    def test_half_a_line(self):
        """A front that is gone in the middle of a line has not told all."""
        with self.written(f"{WHOLE}\n{HALF}") as path, metad.monitor(path) as monitor:
            self.assertEqual(next(monitor), {"reply": 1, "session": "c1"}, "what has arrived")
            self.raised("the end", metad.LinesLost, next, monitor)

    def test_chosen(self):
        """A monitor of one session drops what came before its answer, an error too; and says where there is no answer."""
        asked = '{"front":"monitor","session":"c1"}'
        before = '{"error":"E04","session":"c2"}'
        with self.written(f"{before}\n{asked}\n{WHOLE}\n") as path, metad.monitor(path, "c1") as monitor:
            self.assertEqual(list(monitor), [{"reply": 1, "session": "c1"}], "what it receives")
        with self.written(f"{before}\n") as path:
            self.raised("no answer", metad.ConnectionClosed, metad.monitor, path, "c1")

    def test_on_request(self):
        """A front has a socket for monitors only where that is asked for."""
        with metad.start_front(self.program, timeout=PATIENCE) as front:
            self.assertEqual(os.listdir(Path(front.path).parent), ["metad.sock"], "the sockets")
            for what, call in (("a monitor", front.monitor), ("its path", lambda: front.monitor_path)):
                refused = self.raised(what, metad.NoMonitors, call)
                self.assertIn("monitor=True", str(refused), "what to do")
        path = Path(self.room, "own")
        for how in ({"monitor": path}, {"options": ["--monitor", str(path)]}, {"options": [f"--monitor={path}"]}):
            with self.subTest(how=how), metad.start_front(self.program, timeout=PATIENCE, **how) as front:
                self.assertEqual(front.monitor_path, str(path), "where monitors connect")
                with metad.monitor(path) as monitor, front.monitor() as other, front.connect() as server:
                    server.session("a").new("Probe")
                    self.assertEqual([next(it)["reply"] for it in (monitor, other)], [1, 1], "what they receive")

    def test_rights(self):
        """The socket of monitors has the rights of the clients' socket, unless the options say others."""
        for options, wanted in (
            (["--mode", "600"], (0o600, 0o600)),
            (["--mode=640"], (0o640, 0o640)),
            (["--mode", "600", "--monitor-mode", "660"], (0o600, 0o660)),
        ):
            with self.subTest(options=options):
                with metad.start_front(self.program, options=options, monitor=True, timeout=PATIENCE) as front:
                    paths = (front.path, front.monitor_path)
                    self.assertEqual(tuple(stat.S_IMODE(os.stat(it).st_mode) for it in paths), wanted, "the rights")
