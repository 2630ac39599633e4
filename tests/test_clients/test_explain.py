"""`explain` (clients/explain): on the lines of all tests, on worked transcripts, on random sessions, and on bad words and
inputs."""

import io
import os
import subprocess
import sys
from concurrent.futures import ProcessPoolExecutor
from dataclasses import dataclass
from pathlib import Path
from tempfile import TemporaryDirectory

from explaining import objects
from explaining.commands import FORMS, Command, commands_in
from explaining.drawing import MARKS
from explaining.knowledge import Knowledge as Known
from explaining.slots import Slots
from explaining.telling import Telling
from explaining.words import CODES

from tests.generators.mixed import Chance
from tests.generators.signals import TURNS
from tests.plain.classes import Classes
from tests.plain.world import Server
from tests.support import protocol
from tests.support.cases import CASE, Cases, ProgramCases
from tests.support.differences import shown_input
from tests.support.documents import all_examples
from tests.support.lines import is_blank, lines_of, text_of
from tests.support.program import ROOT, ROWS, SECONDS, Row, rows_in

from . import CLIENTS

EXPLAIN = CLIENTS / "explain"
WORKED = ROOT / "tests" / "explained"
SESSIONS, COMMANDS = 100, 80  # random ones; each command is followed
NAMES = ("a", "b")  # of those that listen to each other
UNKNOWN_CODE = "a code that is not known here"
EMPTY_WORDS = ("not answer", "no answer", "no command left", "no tree", "not known, since")
NOT_EXPLAINED = ("not a line of metad", UNKNOWN_CODE, *EMPTY_WORDS)
ONE = b'{"reply":1,"session":"a"}\n'
NEW = b'{"class":"QObject","do":"new","session":"a"}\n'
UNKNOWN = b"    not a line of metad\n"


def explained(given, lines):
    """What is said with the commands and without, without a process for each."""
    for commands in (None, commands_in(io.BytesIO(given))):
        said = []
        telling = Telling(said.append, commands)
        for line in lines.splitlines(keepends=True):
            telling.tell(line)
        telling.end()
        if commands:
            telling.draw()
        yield said


def is_told(said):
    """Whether it is a line that the program wrote."""
    return isinstance(said, bytes) and not said.startswith(b"> ")


def not_explained(given, lines):
    """What is wrong with what is said to the lines that some commands lead to: lines that are not said as they are, or not
    explained."""
    commands = [line for line in given.split(b"\n") if not is_blank(line)]
    for said, asked in zip(explained(given, lines), ([], commands)):
        raw = [it for it in said if isinstance(it, bytes)]
        if [it for it in raw if it not in (b"> " + line for line in asked)] != lines.splitlines():
            yield "the lines are not shown as they are"
        if asked and [it[2:] for it in raw if it.startswith(b"> ")] != asked:
            yield "the commands are not shown as they are"
        bare = [it for it, after in zip(said, said[1:] + [b""]) if is_told(it) and isinstance(after, bytes)]
        yield from (f"{line[:200]!r} is not explained" for line in bare)
        words = [it for it in said if isinstance(it, str) and any(word in it for word in NOT_EXPLAINED)]
        yield from (f"{it[:200]!r} explains nothing" for it in words)


class LinesOfTests(ProgramCases):
    """The lines that the program writes in the rows and in the documents' examples."""

    def test_lines(self):
        """Each line is shown as it is and explained, with the commands that it answers and without."""
        with TemporaryDirectory(prefix="metad-examples-") as room:

            def fault_of(row):
                faults = list(not_explained(row.given, row.run(self.program).stdout))
                return "\n".join([*faults, shown_input(row.given)]) if faults else None

            self.check_each([(row.name, row) for row in (*rows_in(ROWS), *all_examples(room))], fault_of)


def commands_of_protocol():
    """Each command of the protocol by its word and its keys, with the codes for which it is refused."""
    return {(word, *map(frozenset, keys)): set(codes) for word, *keys, codes in protocol.commands()}


def commands_known():
    """Each command that the tool knows by its word and its keys, with the codes that it explains by the command."""
    forms = ((word, form) for word, forms in FORMS.items() for form in forms)
    return {(word, frozenset(form.keys), frozenset(form.optional)): set(form.refused) for word, form in forms}


class Protocol(Cases):
    """The codes and the commands of docs/PROTOCOL.md."""

    def test_codes(self):
        """The tool knows the codes of the protocol, each with a meaning of its own, and says so of one that it does not know."""
        self.assertEqual(CODES.keys(), protocol.codes().keys())
        lines = [{"error": code, "session": "a"} for code in (*protocol.codes(), "E99")]
        said = Row("codes", lines_of(lines), None).run(EXPLAIN).stdout.decode().splitlines()[1::2]
        unknown = [words for words in said if UNKNOWN_CODE in words]
        self.assertEqual(len(unknown), 1, said)
        self.assertIn("E99", unknown[0])
        self.assertEqual(len(set(said)), len(lines), said)

    def test_commands(self):
        """It knows the commands of the protocol by their keys, and of each none but the codes for which it is refused."""
        wanted, known = commands_of_protocol(), commands_known()
        self.assertEqual(wanted.keys(), known.keys())
        for it, refused in known.items():
            self.assertLessEqual(refused, wanted[it], f"the codes of {it}")


class Transcripts(ProgramCases):
    """The worked transcripts of tests/explained: `commands`, and `explained` by hand, with the tree. Where the program
    cannot be made to write them `lines` has them, and `alone` what is said to them without their commands. Of some there is
    also the class file, `classes.json`, which both tools are given."""

    def rows(self):
        """The runs of the tool."""
        for folder in sorted(WORKED.iterdir()):
            lines, classes = folder / "lines", folder / "classes.json"
            if lines.exists():
                given = lines.read_bytes()
            else:
                files = (str(classes),) if classes.exists() else ()
                given = Row(folder.name, (folder / "commands").read_bytes(), None, words=files).run(self.program).stdout
            words = ("--commands", "commands", "--tree", *(("--classes", "classes.json") if classes.exists() else ()))
            yield Row(folder.name, given, (folder / "explained").read_bytes(), words=words, folder=folder)
            if (folder / "alone").exists():
                yield Row(f"{folder.name} alone", given, (folder / "alone").read_bytes())

    def test_transcripts(self):
        """Each explanation is the one that was written by hand."""
        self.check_each([(row.name, row) for row in self.rows()], lambda row: row.fault(row.run(EXPLAIN)))


def untrue(known, session):
    """What is held for known of the objects of a session and is not so, or None."""
    rows = {row.number: row for row in session.rows}
    if not known.sure <= rows.keys():
        return f"{known.sure - rows.keys()} do not exist"
    if known.gone & rows.keys() or not rows.keys() <= set(known.all()) or known.has_earlier or known.failed:
        return f"{rows.keys() - set(known.all())} exist"
    for number in known.parents.keys() & rows.keys():
        if (rows[number].parent or objects.ROOT) != known.parents[number]:
            return f"{number} is not below {known.parents[number]}"
    for number in known.whole & (rows.keys() | {objects.ROOT}):
        children = [row.number for row in session.children(number or None)]
        if [it for it in known.below.get(number, []) if it in rows] != children:
            return f"below {number} are {children}"
    named = known.names.keys() & rows.keys()
    wrong = [number for number in named if session.read(rows[number], "objectName") != known.names[number]]
    return f"{wrong} have other names" if wrong else None


def command_of(chance, server, name, at):
    """A random command of a session; now and then one that lists children or counts objects."""
    session = server.session(name)
    if at < 3:
        return {"do": "new", "class": "Lamp"}
    if at % 9 == 8:
        below = chance.choice([row.number for row in session.rows] + [None])
        return {"do": "children", **({"object": below} if below else {})}
    return chance.command_among(server, name, [it for it in NAMES if it != name]) if chance.is_so(0.3) else chance.command(session)


@dataclass
class Followed:
    """Sessions that were followed: after how many commands, after how many of them all objects were known, and a fault."""

    states: int = 0
    whole: int = 0
    fault: str | None = None


def knowledge_of(case):
    """Follows random sessions, with or without their class file, up to the first wrong claim about one of them."""
    seed, has_classes = case
    chance, followed = Chance(seed), Followed()
    declared = list(chance.classes())
    server, commands = Server(Classes(declared), chance.choice(TURNS)), []
    slots = Slots(text_of({"classes": declared}).encode()) if has_classes else None
    telling = Telling(lambda line: None, iter(lambda: commands.pop(), None), knowledge=Known(slots))
    for at in range(COMMANDS):
        name = chance.choice(NAMES)
        command = {**command_of(chance, server, name, at), "session": name}
        commands.append(Command(at, b"", command))
        for line in server.step(command):
            telling.tell(text_of(line).encode())
        session, known = server.session(name), telling.knowledge.sessions.get(name, objects.Objects())
        fault = "the commands were left aside" if telling.misfits else untrue(known, session)
        if fault:
            followed.fault = f"after command {at + 1}, {text_of(command)}: {fault}"
            break
        followed.states += 1
        followed.whole += len(known.sure) == len(session.rows) and objects.ROOT in known.whole
    return followed


class Knowledge(Cases):
    """What is claimed about the objects of random sessions, compared with the plain program."""

    def check_knowledge(self, has_classes, share):
        """No claim is ever wrong, and everything is known after at least this share of all commands."""
        cases = [(f"random, {seed}", (seed, has_classes)) for seed in range(SESSIONS)]
        followed = self.check_each(cases, knowledge_of, lambda it: it.fault, ProcessPoolExecutor)
        states, whole = sum(it.states for it in followed), sum(it.whole for it in followed)
        self.assertTrue(CASE or whole >= share * states, f"all objects are known after {whole} of {states} commands alone")
        self.tell(f"commands: {states:,}, after which all is known: {whole:,}")

    def test_knowledge(self):
        """What is held for known is so, and after many commands that is all."""
        self.check_knowledge(False, 0.1)

    def test_knowledge_by_classes(self):
        """It is so where the class file is known too, and after most commands that is all."""
        self.check_knowledge(True, 0.75)


@dataclass
class End(Row):
    """How a run of the tool has to end."""

    given: bytes = b""
    stdout: bytes | None = None
    stderr: bytes | None = None
    said: str = ""  # what standard error has to contain, among the rest; if empty, standard error must be empty too

    def passes(self, ran):
        said = ran.stderr.decode(errors="replace")
        is_said = self.said in said and bool(said) == bool(self.said) and "Traceback" not in said
        return is_said and super().passes(ran)

    def faults(self, ran):
        yield f"on standard error {ran.stderr[-300:]!r}, and wanted is {self.said!r}"
        yield from super().faults(ran)


def not_lines():
    """Lines that the program never writes."""
    yield from (b"", b"nonsense", b"{}", b"[]", b"1", b'{"reply":1}', b'{"session":"a"}', b'{"reply":1,"session":1}')
    yield from (b"\xff\xfe", b"\x00", b"[" * 100_000, b'{"a":' * 100_000, b"1" * 10_000, b'{"error":4,"session":"a"}')
    yield from (b'{"reply":%s1%s,"session":"a"}' % (levels * b"[", levels * b"]") for levels in range(200, 1100, 7))
    yield b'{"args":[],"call":"f()","object":true,"sender":0,"session":"a"}'
    yield b'{"args":{},"call":"f()","object":1,"sender":0,"session":"a"}'
    yield b'{"object":0,"session":"a","warning":"E04"}'
    yield b'{"reply":1,"session":"a","x":1}'


STRANGE = (
    *(b'{"reply":[null,{"a":[]}],"session":"\\ud800"}', b'{"reply":{"events":-1},"session":"a"}'),
    *(b'{"reply":NaN,"session":"a"}', b'{"error":"","session":""}'),
    b'{"args":[[],{},null],"call":"","object":1,"sender":0,"session":"\\u0000\\u009b"}',
)
MISFITS = (
    *(NEW.replace(b'"a"', b'"b"'), b"nonsense\n", b'{"do":"spin","session":"a"}\n', b'{"do":"new","session":"a"}\n'),
    *(b'{"do":{},"session":"a"}\n', b'{"class":[],"do":"new","session":"a"}\n', b"[1]\n"),
    b'{"class":"A","do":"new","parent":"x","session":"a"}\n',
)
STATUS_2 = [
    *(("--tree",), ("--nope",), ("file",), ("--commands",), ("--comm", "/dev/null"), ("--tree", "--commands")),
    *(("--classes", "/dev/null"), ("--classes", "/dev/null", "--commands", "/dev/null"), ("--classes",)),
]


def ends(room):
    """Runs of the tool, and how they have to end."""
    commands = Path(room, "commands")
    commands.write_bytes(NEW)
    pairing = ("--commands", str(commands))
    yield from (End(f"words {words}", words=words, status=2, said="usage:") for words in STATUS_2)
    yield from (End(f"help {word}", words=(word,)) for word in ("--help", "-h"))
    yield End("commands that are not there", words=("--commands", "/nonexistent"), status=1, said="cannot be opened")
    yield End("commands that are a folder", ONE, words=("--commands", "/"), status=1, said="explain: / cannot be ")
    yield End("commands with an empty name", ONE, words=("--commands", ""), status=1, said="cannot be opened")
    tree = (*pairing, "--tree", "--classes")
    yield End("classes that are not there", ONE, words=(*tree, "/nonexistent"), status=1, said="cannot be opened")
    yield End("classes that are a folder", ONE, words=(*tree, "/"), status=1, said="explain: / cannot be ")
    yield End("classes that are refused", ONE, words=(*tree, "/dev/null"), status=1, said="metad takes: C01 at class 0")
    yield End("nothing", stdout=b"")
    lines = [line + b"\n" for line in not_lines()]
    yield End("no lines of metad", given=b"".join(lines), stdout=b"".join(line + UNKNOWN for line in lines))
    yield End("a last line without its end", given=ONE[:-1], stdout=ONE + b"    session a: done, and the reply is 1\n")
    yield End("strange lines", given=b"\n".join(STRANGE))
    yield End("no answer", words=pairing, stdout=b"    line 1 of the commands has no answer\n")
    yield End("an answer too many", ONE + ONE, words=(*pairing, "--tree"), status=1)


FULL = "explain: standard output cannot be written: No space left on device\n"
NOT_OPEN = "explain: standard input and standard output have to be open\n"
DEVICES = {
    **{"> /dev/full": FULL, "--help > /dev/full": FULL, ">&-": NOT_OPEN, "<&-": NOT_OPEN},
    "--commands /nonexistent 2>&-": "",
}


class Ends(Cases):
    """Words, inputs and outputs of the tool, and how it ends."""

    def test_ends(self):
        """It ends with the status that it has to, and says what it has to."""
        with TemporaryDirectory(prefix="metad-explain-") as room:
            self.check_each([(end.name, end) for end in ends(room)], lambda end: end.fault(end.run(EXPLAIN)))

    def test_help(self):
        """The help describes the words of the command line, the marks and the exit statuses."""
        said = subprocess.run([EXPLAIN, "--help"], capture_output=True, text=True, timeout=SECONDS).stdout
        for it in ("--commands", "--tree", "--classes", *MARKS, "Exit status: 0", "1 if", "2 after"):
            self.assertIn(it, said)

    def test_misfits(self):
        """Commands that are not those of the lines are left aside, and no tree is drawn."""
        for commands in MISFITS:
            with self.subTest(commands=commands):
                said = []
                telling = Telling(said.append, commands_in(io.BytesIO(commands)))
                telling.tell(ONE)
                telling.draw()
                self.assertTrue(telling.misfits, said)
                self.assertEqual(said[-1], "no tree: the commands are not those of this transcript")
                self.assertIn("this does not answer line 1 of the commands", "\n".join(map(str, said)))

    def test_devices(self):
        """Outputs and inputs that are full or missing, with Python's default buffers."""
        own = {key: value for key, value in os.environ.items() if key != "PYTHONUNBUFFERED"}
        for device, wanted in DEVICES.items():
            with self.subTest(device=device):
                words = ["sh", "-c", f"'{sys.executable}' '{EXPLAIN}' {device}"]
                ran = subprocess.run(words, input=1000 * ONE, capture_output=True, timeout=SECONDS, env=own)
                self.assertEqual((ran.returncode, ran.stdout, ran.stderr.decode()), (1, b"", wanted))

    def test_closed_pipe(self):
        """A reader that goes away ends the tool without a word."""
        reader, writer = os.pipe()
        os.close(reader)
        self.addCleanup(os.close, writer)
        ran = subprocess.run([EXPLAIN], input=1000 * ONE, stdout=writer, stderr=subprocess.PIPE, timeout=SECONDS)
        self.assertEqual((ran.returncode, ran.stderr), (0, b""))
