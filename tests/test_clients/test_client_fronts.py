"""Fronts that the client in Python starts, and its monitors."""

import os
import signal
import subprocess
import sys
import tempfile
import time
from collections.abc import Sequence
from operator import index
from pathlib import Path
from unittest import mock

import metad
from metad import fronts

from tests.support.program import ROOT, SECONDS

from . import PYTHON
from .fronts import PATIENCE, FrontCases, listens
from .grouped import servers_of

LAMP = {"classes": [{"name": "Lamp", "super": "QObject", "slots": [{"sig": "press()", "body": []}]}]}
WRONG = {"classes": [{"name": "Lamp", "super": "Light"}]}


class StartedFronts(FrontCases):
    """Fronts that are started from Python."""

    def setUp(self):
        super().setUp()
        before, tempfile.tempdir = tempfile.tempdir, self.room  # where all that is made by the way has to go again
        self.addCleanup(setattr, tempfile, "tempdir", before)

    def test_clients(self):
        """Each client has a session of its own, and at the end nothing is left."""
        with metad.start_front(self.program, timeout=PATIENCE) as front:
            with front.connect() as one, front.connect() as other:
                made = [it.session("a").new("Probe") for it in (one, other, one)]
                names = {it.session("a").known_as for it in (one, other)}
        self.assertEqual((made, names), ([1, 1, 2], {"c1", "c2"}), "the objects, and the names of the sessions")
        self.assertEqual((front.close(), os.listdir(self.room)), (0, []), "the status, and what is left")

    def test_monitors(self):
        """A monitor receives all lines, or those of one session, up to the front's end."""
        started = metad.start_front(self.program, classes=LAMP, timeout=PATIENCE, monitor=True)
        with started as front, front.monitor() as all_lines:
            with front.connect(live=False) as one, front.connect(live=False) as other:
                sessions = [it.session("a") for it in (one, other)]
                made = [it.new("Lamp") for it in sessions]
                with front.monitor(sessions[1].known_as) as lines_of_one:
                    for session, number in zip(sessions, made):
                        session.invoke(number, "press()")
                    told = [next(lines_of_one) for _ in range(2)]
            front.close()
            heard = list(all_lines)
        call, reply = {"args": [], "call": "press()", "object": 1, "sender": 0}, {"reply": True}
        self.assertEqual(told, [{**it, "session": "c2"} for it in (call, reply)], "what the one receives")
        wanted = [{"reply": 1, "session": "c1"}, {"reply": 1, "session": "c2"}]
        wanted += [{**it, "session": name} for name in ("c1", "c2") for it in (call, reply)]
        self.assertEqual(heard[:6], wanted, "what the other receives")
        self.assertLessEqual({it["session"] for it in heard[6:]}, {"c1", "c2"}, "the rest, which are resets")
        self.assertEqual([it["reply"] for it in heard[6:]], [True] * len(heard[6:]), "the rest")

    def test_no_session(self):
        """A monitor of what is no name is refused, and one where nobody listens is not there."""
        with metad.start_front(self.program, timeout=PATIENCE, monitor=True) as front:
            refused = self.raised("no name", metad.Refused, front.monitor, "a b")
            self.assertEqual(refused.code, "F01", "the code")
            path = front.monitor_path
        self.raised("a front that has ended", OSError, metad.monitor, path)

    def test_options(self):
        """Options are the front's. Words after the program are the server's."""
        record = Path(self.room, "record")
        with metad.start_front(self.program, "--turns", "1", options=("--record", record), timeout=PATIENCE) as front:
            with front.connect() as server:
                warned = []
                session = server.session("a", on_warning=lambda it: warned.append(it.code))
                probe = session.new("Probe")
                session.connect(probe, "ping()", probe, "note()")
                session.connect(probe, "ping()", probe, "late()")
                session.invoke(probe, "ping()")
        self.assertEqual(warned, ["E23"], "the warnings of a command with one turn")
        self.assertEqual(record.read_text().splitlines()[0], '{"class":"Probe","do":"new","session":"a","session":"c1"}')

    def test_shared(self):
        """Clients of one shared session have its objects, and receive the calls that the others cause there."""
        with metad.start_front(self.program, options=["--share", "team"], timeout=PATIENCE) as front:
            with front.connect(share="team") as one, metad.connect(front.path, share="team") as other:
                told = []
                probe = one.session("mine", on_call=told.append).new("Probe")
                other.session("mine").invoke(probe, "note()")
                self.assertEqual(told, [], "what it receives before a wait")
                self.assertEqual(one.session("mine").children(), [probe], "the objects")
                self.assertEqual(told, [metad.Call(probe, "note()", [], 0)], "what it receives")
                self.assertEqual({it.session("mine").known_as for it in (one, other)}, {"team"}, "its name")
            refused = self.raised("another name", metad.Refused, front.connect, share="crew")
            self.assertEqual((refused.do, refused.code, refused.keys), ("share", "F02", {"session": "crew"}), "the refusal")

    def test_groups(self):
        """Clients of one group can join each other. They are notified when their objects are lost."""
        with metad.start_front(self.program, options=["--workers", "2"], timeout=PATIENCE) as front:
            with front.connect(group="desk") as one, metad.connect(front.path, group="desk") as other:
                told = []
                host, guest = one.session("host"), other.session("guest", on_call=told.append)
                host.publish(host.new("Cell"), "xChanged(int)", "level")
                guest.join(host.known_as, "level", ["int"], guest.new("Cell"), "seen(int)")
                host.set(1, "x", 7)
                guest.spin()
                self.assertEqual(told, [metad.Call(1, "seen(int)", [7], 0)], "what is heard")
                self.assertEqual({it.known_as for it in (host, guest)}, {"desk__c1", "desk__c2"}, "their names")
                for server in servers_of(front._process):
                    os.kill(server, signal.SIGKILL)
                for session in (host, guest):
                    lost = self.raised("a later command", metad.SessionLost, self.give_until_lost, session)
                    self.assertEqual(str(lost), "what the session held is lost, and the connection was closed", "what it says")
            refused = self.raised("no group", metad.Refused, front.connect, group="a__b")
            self.assertEqual((refused.do, refused.code, refused.keys), ("hello", "F03", {"group": "a__b"}), "the refusal")
            self.raised("both", ValueError, front.connect, share="team", group="desk")

    def give_until_lost(self, session):
        """Gives commands until one is not answered."""
        until = time.monotonic() + PATIENCE
        while time.monotonic() < until:
            session.status()

    def test_tied(self):
        """The front and its server end with whoever has started them, though that is killed."""
        code = f"import metad, time; front = metad.start_front({self.program!r}); print(front.path, flush=True); time.sleep({SECONDS})"
        words, own = [sys.executable, "-c", code], {**os.environ, "PYTHONPATH": str(PYTHON), "TMPDIR": self.room}
        with subprocess.Popen(words, stdout=subprocess.PIPE, text=True, env=own) as process:
            path = process.stdout.readline().strip()
            self.assertTrue(listens(path), "whether it listens")
            process.kill()
        until = time.monotonic() + PATIENCE
        while listens(path):
            self.assertLess(time.monotonic(), until, "whether it still listens")
            time.sleep(0.02)

    def test_oldest_paths(self):
        """The front next to the package is found in Python 3.8 too, where the parents of a path cannot be sliced."""

        class Parents(Sequence):
            def __len__(self):
                return len(fronts_path.parents)

            def __getitem__(self, at):
                return fronts_path.parents[index(at)]  # which a slice is not

        fronts_path, path = Path(fronts.__file__).resolve(), mock.Mock()
        path.resolve.return_value.parents = Parents()
        with mock.patch.object(fronts, "Path", return_value=path):
            self.assertEqual(fronts.front_words(), [str(ROOT / "bin" / "metad-front")], "where it is")

    def test_not_started(self):
        """A failed start is reported, and leaves nothing."""
        nothing = Path(self.room, "nothing")
        self.raised("no program", FileNotFoundError, metad.start_front, nothing)
        refused = self.raised("classes that are refused", metad.ClassFileRefused, metad.start_front, self.program, classes=WRONG)
        self.assertIn("C04 at class 1", refused.stderr, "what the server says of its classes")
        wrong = self.raised("words that mean nothing", metad.NotStarted, metad.start_front, self.program, "--turns")
        self.assertEqual(wrong.status, 2, "the status")
        option = self.raised("no option", metad.NotStarted, metad.start_front, self.program, options=["--nothing"])
        self.assertEqual(option.status, 2, "the front's status")
        self.raised("one that goes on", metad.NotAnswered, metad.start_front, "sleep", str(PATIENCE), timeout=0.1)
        self.assertEqual(os.listdir(self.room), [], "what is left")
