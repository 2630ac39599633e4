"""The ends of `check` (clients/check): its statuses, its words, and what it does with devices."""

import json
import os
import pty
import signal
import subprocess
from contextlib import suppress
from pathlib import Path
from tempfile import TemporaryDirectory

from checking.findings import Mistake

from tests.support import protocol
from tests.support.cases import Cases
from tests.support.program import SECONDS

from .test_check import BAD, CHECK, GOOD, KINDS, STRANGE
from .test_explain import End

USAGES = [(), ("--nope", "x"), ("--format", "xml", "x"), ("--format",), ("--str", "x"), ("--strict",)]


def ends(room):
    """Runs of the tool in a folder with class files, and how they have to end."""
    for name, text in (("good", GOOD), ("bad", BAD), ("strange", STRANGE)):
        Path(room, name).write_text(text)
    well = b"good: no fault, no warning; metad takes it\n"
    runs = [
        *((("good",), 0, well), (("good", "good"), 0, 2 * well), (("--strict", "good"), 0, well), (("strange",), 0, None)),
        *((("--strict", "strange"), 1, None), (("bad",), 1, None), (("good", "bad", "strange"), 1, None)),
        *((("--format", "json", "good"), 0, b""), (("--help",), 0, None), (("-h", "nowhere"), 0, None)),
    ]
    for words, status, stdout in runs:
        yield End(f"words {words}", words=words, status=status, stdout=stdout, folder=Path(room))
    for words in USAGES:
        yield End(f"words {words}", words=words, status=2, stdout=b"", said="usage:", folder=Path(room))
    for words in (("nowhere",), ("",), (room,), ("nowhere", "bad"), ("a\x1bb",)):
        yield End(f"unreadable {words}", words=words, status=2, said="cannot be read", folder=Path(room))
    yield End("standard input", GOOD.encode(), b"<standard input>: no fault, no warning; metad takes it\n", words=("-",))
    yield End("standard input at fault", BAD.encode(), words=("-",), status=1)
    yield End("no UTF-8", b"\xff\x1b", words=("-",), status=1)
    yield End("names that cannot be seen", b'{"classes":[{"name":"\\u001b[2J\\ud83d\\ude00\\n"}]}', words=("-",), status=1)
    yield End("deep arrays", 200_000 * b"[", words=("-",), status=1)
    yield End("a long file", 2_000_000 * b" ", words=("-",), status=1)


DEVICES = {
    "good > /dev/full": "check: standard output cannot be written: No space left on device\n",
    "--help > /dev/full": "check: standard output cannot be written: No space left on device\n",
    "good >&-": "check: standard output has to be open\n",
    "- <&-": "check: standard input has to be open\n",
    "nowhere 2>&-": "",
}


def pieces_at(terminal):
    """What was written to a terminal whose other side is closed; the system hands it over in pieces."""
    with suppress(OSError):  # which is the end
        while piece := os.read(terminal, 10_000):
            yield piece


class Ends(Cases):
    """Words, inputs and outputs of the tool, and how it ends."""

    def setUp(self):
        self.room = self.enterContext(TemporaryDirectory(prefix="metad-check-"))

    def test_ends(self):
        """It ends with the status that it has to, and says what it has to."""
        self.check_each([(end.name, end) for end in ends(self.room)], lambda end: end.fault(end.run(CHECK)))

    def test_help(self):
        """The help describes the words of the command line, each warning and the exit statuses."""
        said = subprocess.run([CHECK, "--help"], capture_output=True, text=True, timeout=SECONDS).stdout
        for it in ("--strict", "--declared", "--format", "Exit status: 0", "NO_COLOR", *(it.value[0] for it in Mistake)):
            self.assertIn(it, said)

    def test_codes(self):
        """Each kind of fault that the protocol has is one of those that are tried above."""
        self.assertEqual(KINDS, tuple(protocol.plain(row[0]) for row in protocol.table("Classes", 2) if "`C0" in row[0]))

    def test_lines_of_json(self):
        """Each finding is an object in a line, with its place, its words and whether metad names it."""
        text = '{"classes":[\n{"name":"A","super":"B","slots":[{"sig":"f( )","body":[{"delete":0}]}]}]}'
        ran = subprocess.run([CHECK, "--format", "json", "-"], input=text, capture_output=True, text=True, timeout=SECONDS)
        lines = [json.loads(line) for line in ran.stdout.splitlines()]
        for line in lines:
            self.assertIsInstance(line.pop("message"), str)
        shared = {"file": "<standard input>", "line": 2, "severity": "error", "class": "A"}
        self.assertEqual(lines, [
            {**shared, "column": 21, "path": "classes[0].super", "code": "C04", "slot": None, "action": None, "named": True},
            {
                **shared, "column": 66, "path": "classes[0].slots[0].body[0].delete", "code": "C08", "slot": "f()",
                "action": "1", "named": False,
            },
        ])

    def test_text(self):
        """A finding in words has its place, and the one that metad names is marked."""
        text = '{"classes":[\n{"name":"A","super":"B","slots":[{"sig":"f( )","body":[{"delete":0}]}]}]}'
        ran = subprocess.run([CHECK, "-"], input=text, capture_output=True, text=True, timeout=SECONDS)
        first, second, last = ran.stdout.splitlines()
        self.assertTrue(first.startswith("<standard input>:2:21: error C04 in class A: "), first)
        self.assertTrue(first.endswith(" [classes[0].super] (metad names this fault)"), first)
        self.assertTrue(second.startswith("<standard input>:2:66: error C08 in class A, slot f(), action 1: "), second)
        self.assertEqual(last, "<standard input>: 2 faults, no warning; metad refuses it: C04 at class 1")

    def test_devices(self):
        """Outputs and inputs that are full or not there."""
        Path(self.room, "good").write_text(GOOD)
        for device, wanted in DEVICES.items():
            with self.subTest(device=device):
                words = ["sh", "-c", f"'{CHECK}' {device}"]
                ran = subprocess.run(words, stdin=subprocess.DEVNULL, capture_output=True, timeout=SECONDS, cwd=self.room)
                self.assertEqual((ran.returncode, ran.stderr.decode()), (2, wanted))

    def test_closed_pipe(self):
        """A reader that goes away ends the tool without a word."""
        reader, writer = os.pipe()
        os.close(reader)
        self.addCleanup(os.close, writer)
        ran = subprocess.run([CHECK, "-"], input=b"[]", stdout=writer, stderr=subprocess.PIPE, timeout=SECONDS)
        self.assertEqual((ran.returncode, ran.stderr), (2, b""))

    def test_interrupt(self):
        """An interrupt ends the tool without a word."""
        pipe = Path(self.room, "pipe")
        os.mkfifo(pipe)
        with self.within(SECONDS), subprocess.Popen([CHECK, pipe], stdout=subprocess.PIPE, stderr=subprocess.PIPE) as tool:
            with open(pipe, "wb"):
                tool.send_signal(signal.SIGINT)
                self.assertEqual(tool.communicate(), (b"", b""))
            self.assertEqual(tool.returncode, -signal.SIGINT)

    def test_colour(self):
        """There is colour on a terminal, and none where NO_COLOR is set or the lines are JSON."""
        Path(self.room, "bad").write_text(BAD)
        own = {key: value for key, value in os.environ.items() if key != "NO_COLOR"}
        cases = [((), {}, True), ((), {"NO_COLOR": "1"}, False), ((), {"TERM": "dumb"}, False), (("--format", "json"), {}, False)]
        for words, more, is_coloured in cases:
            with self.subTest(words=words, more=more):
                master, slave = pty.openpty()
                self.addCleanup(os.close, master)
                variables = {**own, "TERM": "xterm", **more}
                subprocess.run([CHECK, *words, "bad"], stdout=slave, timeout=SECONDS, cwd=self.room, env=variables)
                os.close(slave)
                said = b"".join(pieces_at(master))
                self.assertIn(b"C02", said)
                self.assertEqual(b"\x1b[" in said, is_coloured)
