"""The client in Python with a server of its own process, by bin/libmetad.so."""

import asyncio
import gc
import os
import signal
import subprocess
import sys
import threading
import time
import unittest
import warnings
from pathlib import Path
from unittest import mock

import metad
from metad import aio
from metad.library import Inside, library_at

from tests.support import protocol
from tests.support.documents import examples_of, version
from tests.support.program import ROOT

from . import PYTHON
from .fronts import PATIENCE, ClientCases
from .test_client import Talk, connected, is_talk
from .test_client_batches import WANTED, given_to

SHARED = ROOT / "bin" / "libmetad.so"
MANY = 3_000
OUT_OF_MEMORY = 5


class InsideCases(ClientCases):
    """Tests of bin/libmetad.so."""

    @classmethod
    def setUpClass(cls):
        super().setUpClass()
        if not SHARED.exists():
            raise unittest.SkipTest("bin/libmetad.so is not there: make library builds it")


class Uses(InsideCases):
    """What a server inside does, which is what one that is started does."""

    def test_examples(self):
        """The protocol's examples, by methods and all at once, need no process and no thread."""
        methods, talks = {do for do, *_ in protocol.commands()}, list(filter(is_talk, examples_of(protocol.PROTOCOL, self.room)))
        for way in (Talk.by_methods, Talk.at_once):
            for row in (it for it in talks if not it.words):
                with self.subTest(case=row.name, way=way.__name__):
                    talk, threads = Talk(self, row), threading.active_count()
                    with metad.inside() as server:
                        way(talk, server, methods)
                        self.assertEqual(threading.active_count(), threads)
                    self.assertEqual(talk.told, talk.wanted)
        self.tell(f"cases: {len(talks)}")

    def test_batches(self):
        """Commands of a batch are answered each for itself, also where they are more than a pipe holds."""
        with metad.inside() as server:
            session = server.session("a")
            with session.batch() as batch:
                promised = given_to(batch)
            errors = [it.error() for it in promised]
            self.assertEqual([it.result() if error is None else error.code for it, error in zip(promised, errors)][:-1], WANTED)
            with session.batch() as batch:
                many = [batch.set(1, "tag", f"{at}" + "t" * 3_000) for at in range(MANY)]
            self.assertEqual({it.result() for it in many}, {False})  # of a dynamic property
            self.assertEqual(session.get(1, "tag"), f"{MANY - 1}" + "t" * 3_000)

    def test_sent_ahead(self):
        """Commands that are sent ahead are answered in their order, and callbacks may give commands."""
        with metad.inside() as server:
            session, told = server.session("a"), []
            sender, receiver = connected(session, "note()")
            session.on(receiver, "note()", lambda call: told.append(session.get(call.object, "objectName")))
            pending = [session.send("invoke", object=sender, method="ping()", args=[]) for _ in range(10)]
            self.assertEqual(({it.result() for it in pending}, told), ({True}, [""] * 10))

    def test_events(self):
        """Events wait for `spin`, which `wait_for` gives."""
        with metad.inside() as server:
            one, other, heard = server.session("a"), server.session("b"), []
            one.new("Cell"), other.new("Cell")
            one.publish(1, "xChanged(int)", "level")
            other.join("a", "level", ["int"], 1, "seen(int)")
            other.on(1, "seen(int)", lambda call: heard.append(call.args))
            one.set(1, "x", 7)
            self.assertEqual((server.is_live, heard), (False, []))
            self.assertEqual(other.wait_for(lambda: heard, timeout=PATIENCE), [[7]])
            self.raised("what never comes", metad.NotAnswered, other.wait_for, lambda: False, timeout=0.3)

    def test_awaited(self):
        """The same sessions with asyncio."""

        async def run():
            async with await aio.inside() as server:
                sessions = [server.session(name) for name in ("a", "b", "c")]
                made = await asyncio.gather(*(it.new("Cell") for it in sessions))
                cell = await sessions[0].create("Cell")
                async with aio.SignalSpy(cell.xChanged, via=cell.seen) as spy:
                    await cell.setX(5, type="queued")
                    return made, await spy.wait(), threading.active_count()

        self.assertEqual(asyncio.run(run()), ([1, 1, 1], True, threading.active_count()))

    def test_servers_share_nothing(self):
        """Servers in several threads have objects of their own, and one server may be used by all."""
        made, faults = [], []

        def run(server):
            try:
                made.extend(server.session("a").new("Probe") for _ in range(100))
            except Exception as error:
                faults.append(error)

        with metad.inside() as one, metad.inside() as other:
            threads = [threading.Thread(target=run, args=(it,)) for it in (one, one, other)]
            for it in threads:
                it.start()
            for it in threads:
                it.join(PATIENCE)
        self.assertEqual((faults, sorted(made)), ([], sorted([*range(1, 201), *range(1, 101)])))

    def test_interrupts(self):
        """An exception of a signal handler, at any moment, takes no answer from anybody."""

        class Stop(Exception):
            pass

        def stop(_number, _frame):
            raise Stop

        before = signal.signal(signal.SIGVTALRM, stop)
        try:
            with metad.inside() as server:
                session, done, stopped = server.session("a"), 0, 0
                session.new("Probe")
                until = time.monotonic() + 2
                while time.monotonic() < until or stopped <= 10:
                    try:
                        signal.setitimer(signal.ITIMER_VIRTUAL, 0.0003)
                        while True:
                            self.assertEqual(session.get(1, "objectName"), "")
                            done += 1
                    except Stop:
                        stopped += 1
                signal.setitimer(signal.ITIMER_VIRTUAL, 0)
                self.assertEqual(session.new("Probe"), 2)
        finally:
            signal.setitimer(signal.ITIMER_VIRTUAL, 0)
            signal.signal(signal.SIGVTALRM, before)
        self.assertGreater(stopped, 10)
        self.tell(f"commands: {done:,}, stopped: {stopped:,}")


class Ends(InsideCases):
    """How a server inside ends, and why it may not begin."""

    def test_close(self):
        """What was answered can be asked for after the end, and nothing else."""
        with metad.inside() as server:
            session = server.session("a")
            pending = session.send("new", class_="Probe")
            self.assertIsNone(server.close())
            self.assertIsNone(server.close())
            self.assertEqual(pending.result(), 1)
            self.raised("after the end", metad.ConnectionClosed, session.new, "Probe")

    def test_not_closed(self):
        """A server that nobody holds any more warns of that, and is freed."""
        with warnings.catch_warnings(record=True) as told, mock.patch.object(Inside, "end", autospec=True, side_effect=Inside.end) as end:
            warnings.simplefilter("always")
            metad.inside().session("a").new("Probe")
            gc.collect()
        self.assertEqual([it.category for it in told], [ResourceWarning])
        self.assertEqual(end.call_count, 1)

    def test_out_of_memory(self):
        """A status of the library ends the connection: the command, and later ones, say why."""
        server = metad.inside()
        with mock.patch.object(server.connection._inside, "_library", mock.Mock(wraps=server.connection._inside._library)) as library:
            library.metad_lines = lambda *_: OUT_OF_MEMORY
            for _ in range(2):
                gone = self.raised("no memory", metad.ServerGone, server.session("a").new, "Probe")
                self.assertEqual((gone.status, gone.stderr), (OUT_OF_MEMORY, "out of memory"))
        server.close()

    def test_refused_classes(self):
        """Classes are refused as by `start`, and where the fault is, too."""
        classes = {"classes": [{"name": "A", "super": "Nobody"}]}
        by_inside = self.raised("inside", metad.ClassFileRefused, metad.inside, classes=classes)
        by_start = self.raised("started", metad.ClassFileRefused, metad.start, self.program, classes=classes)
        self.assertEqual((by_inside.status, by_inside.fault), (by_start.status, by_start.fault))
        self.assertTrue(by_inside.fault)
        self.assertIn("C04 in class 1", str(by_inside))
        self.raised("no JSON", metad.NoValue, metad.inside, classes={"classes": [b""]})
        for turns in (-1, 1 << 32):
            self.raised("turns", ValueError, metad.inside, turns=turns)

    def test_turns(self):
        """A command has as many turns as are given."""
        with metad.inside(turns=1) as server:
            session = server.session("a", on_warning=lambda warned: codes.append(warned.code))
            codes = []
            sender, receiver = connected(session, "note()")
            session.connect(sender, "ping()", receiver, "late()")
            session.invoke(sender, "ping()")
            self.assertEqual(codes, ["E23"])

    def test_library_missing(self):
        """A library that is not there, or is another one, is said in one sentence."""
        path = Path(self.room, "libmetad.so.0")
        missing = self.raised("no file", metad.LibraryMissing, metad.inside, path)
        self.assertIsInstance(missing, OSError)
        self.assertRegex(str(missing), rf"\Athere is no library libmetad to open a server with \({path}: .*\): make library builds it\Z")
        self.raised("no library", metad.LibraryMissing, metad.inside, __file__)
        self.raised("another library", metad.LibraryMissing, metad.inside, "libc.so.6")
        with mock.patch("metad.library.places", lambda: ["libmetad-of-nobody.so"]):
            self.raised("found nowhere", metad.LibraryMissing, metad.inside)

    def test_no_ctypes(self):
        """The client needs `ctypes` only for a server inside, and says where it is missing."""
        code = "import sys, metad, metad.aio; assert 'ctypes' not in sys.modules; sys.modules['ctypes'] = None; metad.inside()"
        ran = subprocess.run([sys.executable, "-c", code], capture_output=True, text=True, env={**os.environ, "PYTHONPATH": str(PYTHON)}, timeout=PATIENCE)
        self.assertIn("LibraryMissing: this Python cannot use libraries of C: ", ran.stderr)

    def test_found(self):
        """It is found in the clone, and where it is named; it has the client's version."""
        for library in (None, SHARED, str(SHARED)):
            self.assertEqual(library_at(library).metad_version().decode(), version()[0])
        self.assertEqual(metad.__version__, version()[0])
