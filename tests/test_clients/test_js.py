"""The client in JavaScript (clients/js): its tests in tests/js, its table of commands, its declarations and its examples."""

import contextlib
import io
import json
import os
import re
import shutil
import subprocess
import sys
import unittest
from pathlib import Path
from tempfile import TemporaryDirectory
from unittest import mock

import metad

from tools import protocol
from tests.support.cases import Cases
from tests.support.documents import version
from tests.support.program import ROOT, SECONDS

from . import test_client_dumps
from .fronts import FRONT, ClientCases

TOOL = ROOT / "tools" / "js_commands.py"
CLIENT = ROOT / "clients" / "js"
TESTS = ROOT / "tests" / "js"
EXAMPLES = ROOT / "examples" / "js"
NODE_LEAST = 18
MOST = 2**64 - 1  # of whole numbers, by docs/PROTOCOL.md
AT_ONCE = 2
STRICT = "--strict --noEmit --target es2022 --module nodenext --moduleResolution nodenext --lib es2022,dom".split()

sys.path.insert(0, str(TOOL.parent))
import js_commands  # noqa: E402

# What each example prints, by the rules of docs/PROTOCOL.md. The host is the first client of its front, and the plug-in
# the second; `Speller` says something of `teh` alone; functions hear signals by `hear` of a relay, and `deleteLater()` was
# posted, as is the deletion that it posts. In the form the written property comes first, then the objects by their numbers:
# the greeting was made before the button. Of the classroom each answer is what its pupil computes of the two numbers.
SAID = {
    "plug_in_host": """the plug-in says teh: the?
c2 check(QString) [ 'teh' ]
c1 hear(QString) [ 'teh: the?' ]
c2 deleteLater() []
c2 hear() []
""",
    "bound_form": """it reads: Who are you?
it reads: Hello, ann
the button is enabled
it is pressed
it reads: Who are you?
the button is disabled
the group ends
it reads: Hello, bob
the button is enabled
enabled: the binding of the property has no value
the button is disabled
the button is in error: EvaluationError
""",
    "classroom": """how much is 6 times 7?
ann says 42
bob says 13
eve says 42
how much is 2 times 2?
ann says 4
bob says 4
""",
}


def node():
    """The path of a node that is new enough; otherwise the test is skipped."""
    found = shutil.which("node")
    if found is None:
        raise unittest.SkipTest("there is no node on the path")
    said = subprocess.run([found, "--version"], capture_output=True, text=True, timeout=SECONDS).stdout
    number = re.match(r"v(\d+)\.", said)
    if number is None or int(number[1]) < NODE_LEAST:
        raise unittest.SkipTest(f"node {NODE_LEAST} or later is needed, and this is {said.strip() or found}")
    return found


class JavaScript(ClientCases):
    """What node runs."""

    seconds = 5 * SECONDS

    def setUp(self):
        self.node = node()
        super().setUp()

    def ran(self, *words):
        own = {key: value for key, value in os.environ.items() if key != "NODE_OPTIONS"}
        own.update(METAD=str(self.program), METAD_FRONT=str(FRONT), TMPDIR=self.room)
        given = [self.node, *words]
        return subprocess.run(given, capture_output=True, text=True, timeout=4 * SECONDS, env=own, stdin=subprocess.DEVNULL)

    def test_tests(self):
        """The tests in JavaScript pass, and leave no files."""
        cases = [(path.name, path) for path in sorted(TESTS.glob("*.test.mjs"))]
        self.check_each(cases, lambda path: self.ran("--test", path), self.fault_of, at_once=AT_ONCE)
        self.assertEqual(os.listdir(self.room), [], "what they leave")

    def fault_of(self, ran):
        """What is wrong with a run of tests, or None; a run without tests is wrong too."""
        passed = re.search(r"^(?:#|ℹ) pass (\d+)$", ran.stdout, re.MULTILINE)
        if ran.returncode == 0 and passed is not None and int(passed[1]):
            return None
        return f"status {ran.returncode}\n{ran.stdout[-8_000:]}{ran.stderr[-2_000:]}"

    def test_examples(self):
        """Each example prints what the protocol has it print, and leaves no files."""
        self.assertEqual({path.stem for path in EXAMPLES.glob("*.mjs")}, set(SAID))
        for name, said in SAID.items():
            with self.subTest(example=name):
                ran = self.ran(EXAMPLES / f"{name}.mjs", self.program)
                self.assertEqual((ran.returncode, ran.stdout, ran.stderr), (0, said, ""))
                self.assertEqual(os.listdir(self.room), [], "what it leaves")

    def test_examples_without_a_server(self):
        """Where there is no server, or one that does not start, an example says so and ends."""
        for name in SAID:
            for program, said in ((Path(self.room, "nothing"), "ENOENT"), ("false", "has ended with status 1")):
                with self.subTest(example=name, program=program):
                    ran = self.ran(EXAMPLES / f"{name}.mjs", program)
                    self.assertEqual((ran.returncode, ran.stdout), (1, ""), ran.stderr)
                    self.assertRegex(ran.stderr, rf"^{name}: .*{said}[^\n]*\n$")

    def test_page(self):
        """The programs of the client's page print what the page says."""
        text = (CLIENT / "README.md").read_text()
        found = re.findall(r"^```js\n((?:(?!```).*\n)*)```\n\n```text\n((?:(?!```).*\n)*)```$", text, re.MULTILINE)
        self.assertGreater(len(found), 1)
        for given, said in found:
            path = Path(self.room, "page.mjs")
            program = given.replace('"metad"', f'"{CLIENT / "index.mjs"}"').replace('"bin/metad"', f'"{self.program}"')
            path.write_text(program)
            ran = self.ran(path)
            self.assertEqual((ran.returncode, ran.stdout, ran.stderr), (0, said, ""), given)


class Dumps(JavaScript):
    """Dumps of sessions by both clients: each replays what the other one has made, and says the same of it."""

    test_tests = test_examples = test_examples_without_a_server = test_page = None

    def replayed(self, dumps, *words):
        """What the client in JavaScript says of sessions that it makes of dumps."""
        path = Path(self.room, "dumps.json")
        path.write_text(json.dumps(dumps))
        ran = self.ran(TESTS / "dumper.mjs", self.program, path, *words)
        self.assertEqual((ran.returncode, ran.stderr), (0, ""), "how it ends")
        return json.loads(ran.stdout)

    def check(self, dumps, texts, *words):
        """Has JavaScript replay dumps of Python, and Python those of JavaScript. All texts are the same."""
        said = self.replayed(dumps, *words)
        self.assertEqual([it["text"] for it in said], texts, "the texts")
        self.assertEqual([it["commands"] for it in said], dumps, "the commands")
        self.assertEqual({it["again"] for it in said}, {"NotFresh"}, "a session that has objects")
        with metad.start(self.program, *words) as server:
            for at, it in enumerate(said):
                session = server.session(f"s{at}")
                session.replay(it["commands"])
                self.assertEqual(session.dump(), texts[at], "what Python makes of the commands")

    def test_worked(self):
        """A session with something of each kind, as it is worked out by hand, also with the largest number."""
        given = [*test_client_dumps.MADE, {"do": "set", "object": 1, "property": "big", "value": MOST}, {"do": "begin"}, {"do": "begin"}]
        text = replace_each(test_client_dumps.TEXT, (" = 0, in error, EvaluationError", ""), (' = "\u00e4\\n"', ""), ("blocked\n", f"blocked\n        .big = {MOST}, dynamic\n"))
        with metad.start(self.program) as server:
            session = server.session("a")
            for command in given:
                session.command(**command)
            dump = session.dump_commands()
        self.check([dump], [f"{text}groups open: 2\n"])

    def test_random(self):
        """Random sessions."""
        for seed in range(1, 4):
            (run, declared), path = test_client_dumps.Random.run_of(self, seed), Path(self.room, "classes.json")
            path.write_text(json.dumps({"classes": declared}))
            words = ("--turns", str(test_client_dumps.TURNS), str(path))
            with metad.start(self.program, *words) as server:
                for command in run.commands():
                    server.session(command["session"]).send(**{key: it for key, it in command.items() if key != "session"})
                sessions = [server.session(name) for name in run.server.sessions]
                made = [(it.dump_commands(), it.dump()) for it in sessions]
            full = [it for it in made if it[0]]
            self.assertTrue(full, "sessions that hold something")
            joined = [dump for dump, _ in full]
            self.check(joined, [text for _, text in full], *words)


def replace_each(text, *pairs):
    """A text with some parts replaced. Each part is there once."""
    for old, new in pairs:
        assert text.count(old) == 1, old
        text = text.replace(old, new)
    return text


class Declarations(Cases):
    """The declarations for TypeScript."""

    @unittest.skipUnless(shutil.which("tsc"), "there is no tsc on the path (Debian: node-typescript)")
    def test_typed(self):
        """A compiler accepts what is right, and refuses each line that is said to be wrong."""
        words = ["tsc", *STRICT, TESTS / "typed.mts"]
        ran = subprocess.run(words, capture_output=True, text=True, timeout=2 * SECONDS, stdin=subprocess.DEVNULL)
        self.assertEqual((ran.returncode, ran.stdout), (0, ""), ran.stderr)

    def test_package(self):
        """The package has the version of the program, and names files that are there."""
        text = (CLIENT / "package.json").read_text()
        self.assertIn(f'"version": "{version()[0]}"', text)
        for name in re.findall(r'"\./([^"*]+)"', text):
            self.assertTrue((CLIENT / name).is_file(), name)


class Table(Cases):
    """The table of commands, which tools/js_commands.py writes."""

    def ran(self, *words):
        given = [sys.executable, TOOL, *words]
        ran = subprocess.run(given, capture_output=True, text=True, timeout=SECONDS, stdin=subprocess.DEVNULL)
        return ran.returncode, ran.stdout, ran.stderr

    def test_written(self):
        """It is as docs/PROTOCOL.md has it, and its first line says where it comes from."""
        self.assertEqual(self.ran("--check"), (0, "", ""))
        self.assertEqual((CLIENT / "commands.mjs").read_text(), js_commands.made())
        first = (CLIENT / "commands.mjs").read_text().splitlines()[0]
        self.assertRegex(first, r"^// Generated by tools/js_commands\.py ")

    def test_changed(self):
        """A command, a code and a limit that the page changes are changed in the table, with the keys in their order."""
        room = Path(self.enterContext(TemporaryDirectory(prefix="metad-js-")))
        page = room / "PROTOCOL.md"
        text = protocol.text()
        row = "| `jump` | `to`; `from`, a name; [`high`], as for `connect`, and [`far`] | jumps | changes | `true` |\n"
        text = text.replace("| `reset` |", f"{row}| `reset` |", 1)
        text = text.replace("| `E23` | the turns", "| `E77` | of no use | any |\n| `E23` | the turns", 1)
        page.write_text(text.replace("| bytes of a line of input | 65,536 |", "| bytes of a line of input | 1,234 |", 1))
        with mock.patch.object(protocol, "PROTOCOL", page):
            made = js_commands.made()
            self.assertIn('  jump: [\n    { keys: ["to", "from"], optional: ["high", "far"] },\n  ],\n', made)
            self.assertIn('  E77: "of no use",\n', made)
            self.assertIn("export const LINE_BYTES = 1234;\n", made)
            said = io.StringIO()
            with contextlib.redirect_stdout(said):
                self.assertEqual(js_commands.main(["--check"]), 1)
            self.assertRegex(said.getvalue(), r"^clients/js/commands\.mjs: it is stale")
            page.write_text("# Nothing\n")
            with self.assertRaises(js_commands.Unwritten):
                js_commands.made()

    def test_words(self):
        """Help is shown where it is asked for, and wrong words are refused with the usage."""
        status, said, fault = self.ran("--help")
        self.assertEqual((status, fault), (0, ""))
        self.assertIn("--check", said)
        status, said, fault = self.ran("--else")
        self.assertEqual((status, said, fault.partition(" ")[0]), (2, "", "usage:"))
