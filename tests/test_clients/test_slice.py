"""`slice` (clients/slice): on worked records, on random runs compared with the plain program, with programs that slice wrongly,
and on bad words, files and outputs."""

import os
import subprocess
import sys
from collections import Counter
from concurrent.futures import ProcessPoolExecutor
from dataclasses import replace
from functools import partial
from pathlib import Path
from tempfile import TemporaryDirectory

from slicing.comparing import difference, told_by_record, told_to
from slicing.record import answers_in, entries_of, mark
from slicing.running import Program

from tests.generators import mixed, signals
from tests.generators.slices import CLASS_FILE, INPUTS, join, line, new, set_x, with_class, with_deletion
from tests.plain.classes import Classes
from tests.plain.lines import server_of
from tests.plain.slicing import kept, notes_of
from tests.plain.world import Server
from tests.support.by_chance import row_with_classes
from tests.support.cases import CASE, ProgramCases
from tests.support.lines import text_of
from tests.support.program import SECONDS, Row, lay_out
from tests.test_random import Tried, all_shown
from tests.test_slice import with_faults

from . import CLIENTS
from .test_explain import End

SLICE = CLIENTS / "slice"
MARKS = {True: b"+ ", False: b"- ", None: b"? "}  # of a command that is kept, of one that is left out, and of other lines
FRONTED = b"""\
{"class":"Cell","do":"new","session":"a","session":"c1"}
{"class":"Cell","do":"new","session":"a","session":"c2"}
{"do":"spin","session":"c1"
{"do":"reset","session":"c1"}
{"do":"reset","session":"c2"}
"""
REPEATED = [
    ("a", new("a")),
    ("a b", new("b")),
    ("a", join("a", "b")),
    ("a b", new("b")),
    ("a", line("a", "reset")),
    ("b", new("b")),
]


# Worked records.


def text_in(lines):
    return b"".join(it + b"\n" for it in lines)


def shown(lines, session, behind):
    """What the tool has to write for a worked input: its lines with their marks, and then the given lines. A line that is in
    nobody's slice is no command, or blank."""
    marks = [(MARKS[session in keepers.split() if keepers else None], text) for keepers, text in lines]
    return text_in(mark + text for mark, text in marks if text.strip(b" \t\r")) + text_in(it.encode() for it in behind)


def worked(name, lines, session, *behind, words=()):
    """A worked input as a record, for one of its sessions."""
    given = text_in(text for _, text in lines)
    return Row(f"{name}: {session}", given, shown(lines, session, behind), words=(*words, session))


def own_row(session, *behind):
    return worked("the own row", INPUTS["the own row"], session, *behind)


def fronted():
    """A record as a front writes it, for its second client."""
    marks = (False, True, None, False, True)
    marked = [MARKS[it] + text for it, text in zip(marks, FRONTED.splitlines())]
    behind = (
        "session c1: 2 commands, none kept",
        "session c2: 2 commands, all kept",
        "all sessions: 4 commands, 2 kept",
        "1 line is no command, and left out",
        "the slice tells c2 the same: 2 lines",
    )
    return Row("a record of a front", FRONTED, text_in(marked) + text_in(it.encode() for it in behind), words=("c2",))


# records, and what has to be shown of them
WORKED = [
    own_row(
        "a",
        "session a: 4 commands, all kept",
        "session b: 5 commands, 4 kept",
        "session c: 1 command, none kept",
        "all sessions: 10 commands, 8 kept",
        "the slice tells a the same: 5 lines",
    ),
    own_row(
        "c",
        "session a: 4 commands, none kept",
        "session b: 5 commands, none kept",
        "session c: 1 command, all kept",
        "all sessions: 10 commands, 1 kept",
        "the slice tells c the same: 1 line",
    ),
    worked(
        "faulty lines",
        INPUTS["faulty lines"],
        "a",
        "session a: 3 commands, all kept",
        "session b: 1 command, all kept",
        "all sessions: 4 commands, all kept",
        "13 lines are no command, and left out",
        "the slice tells a the same: 3 lines",
    ),
    worked("one line", INPUTS["a single line"], "a", "session a: 1 command, all kept", "the slice tells a the same: 1 line"),
    worked(
        "the same commands again and again",
        REPEATED,
        "a",
        "session a: 3 commands, all kept",
        "session b: 3 commands, 2 kept",
        "all sessions: 6 commands, 5 kept",
        "the slice tells a the same: 3 lines",
    ),
    worked(
        "a class of a file",
        with_class("a b"),
        "a",
        "session a: 2 commands, all kept",
        "session b: 1 command, all kept",
        "all sessions: 3 commands, all kept",
        "the slice tells a the same: 2 lines",
        words=("--classes", "classes.json"),
    ),
    worked(
        "a deletion without a turn",
        with_deletion("a b"),
        "a",
        "session a: 5 commands, all kept",
        "session b: 1 command, all kept",
        "all sessions: 6 commands, all kept",
        "the slice tells a the same: 7 lines",
        words=("--turns", "1"),
    ),
    fronted(),
]


def tool_fault(room, program, row):
    """What is wrong with what the tool writes for a record, or None."""
    path = Path(room, row.name)
    path.write_bytes(row.given)
    *options, session = row.words
    tried = replace(row, words=("--metad", program, *options, str(path), session), folder=room)
    return tried.fault(tried.run(SLICE))


def only_fault(room, program, row):
    """What is wrong with what the tool writes for a record where the slice alone is wanted, or None: that is what it shows as
    kept."""
    lines = [it[len(MARKS[True]) :] for it in row.stdout.splitlines() if it.startswith(MARKS[True])]
    return tool_fault(room, program, replace(row, stdout=text_in(lines), words=("--only", *row.words)))


class Worked(ProgramCases):
    """Records, and what is shown of them, by hand."""

    def setUp(self):
        self.room = self.enterContext(TemporaryDirectory(prefix="metad-slice-"))
        Path(self.room, "classes.json").write_text(CLASS_FILE)

    def check_tool(self, fault_of):
        self.check_each(((row.name, row) for row in WORKED), partial(fault_of, self.room, self.program))

    def test_shown(self):
        """Each line of a record is marked, the commands are counted, and the session receives the same."""
        self.check_tool(tool_fault)

    def test_only(self):
        """With `--only`, the lines of the slice are written exactly as in the record."""
        self.check_tool(only_fault)

    def test_without_last_end(self):
        """A last line without its end is shown, and written, as any other."""
        for fault_of in (tool_fault, only_fault):
            rows = ((row.name, replace(row, given=row.given.removesuffix(b"\n"))) for row in WORKED)
            self.check_each(rows, partial(fault_of, self.room, self.program))

    def test_program_beside(self):
        """Where no program is named, that of the folder `bin` above it is taken, or else that on the path."""
        record, wanted = Path(self.room, "record"), b"%s\n" % new("a")
        record.write_bytes(wanted)
        tools = {f"clients/{it}": CLIENTS / it for it in ("common", "explaining", "checking")}
        for name, path in (("bin/metad", f"{self.room}/nowhere"), ("other/metad", f"{self.room}/path/other")):
            top = Path(self.room, "beside" if "bin" in name else "path")
            copied = top / "clients" / "slicing"
            copied.mkdir(parents=True)
            for it in (CLIENTS / "slicing").glob("*.py"):
                (copied / it.name).write_bytes(it.read_bytes())
            (top / "clients/slice").write_bytes(SLICE.read_bytes())
            lay_out(top, {name: self.program, **tools})
            own = {**os.environ, "PATH": os.pathsep.join((path, os.environ["PATH"])), "PYTHONDONTWRITEBYTECODE": "1"}
            words = [sys.executable, top / "clients/slice", "--only", record, "a"]
            ran = subprocess.run(words, capture_output=True, env=own, timeout=SECONDS)
            self.assertEqual((ran.returncode, ran.stdout, ran.stderr), (0, wanted, b""), name)


# Random runs.

RUNS, RUNS_AT_ONCE = 40, 4


def marks_fault(row, program, name, places):
    """What is wrong with what is marked for a session, or with what the slice tells it, or None."""
    lines = row.given.splitlines(keepends=True)
    path, _, turns = row.words
    made = Program(program, path, turns)
    entries = entries_of(row.given, made.told(row.given))
    given = [place for place, text in enumerate(lines) if text.strip()]
    part = made.slice(row.given, name)
    mark(entries, part)
    marked = [place for place, it in zip(given, entries) if it.is_kept]
    if marked != places:
        return f"{name}: the lines {marked} are marked, and not {places}"
    found = difference(told_by_record(name, entries), told_to(name, answers_in(made.told(part))))
    return found and f"{name}: {found}"


def try_marks(program, seed):
    """Tries what is marked of some runs of sessions that listen to each other."""
    made = mixed.Chance(seed)
    declared, turns = list(made.classes()), made.choice(signals.TURNS)
    run = mixed.run_of(made, Server(Classes(declared), turns), RUNS_AT_ONCE)
    lines = list(with_faults(made, run))
    with TemporaryDirectory(prefix="metad-slice-") as room:
        row = replace(row_with_classes("random", [], [], declared, room, turns), given=text_in(lines), folder=Path(room))
        notes = notes_of(server_of(row), lines)
        places = {name: [it.place for it in kept(notes, name)] for name in run.server.sessions}
        fault = next(filter(None, (marks_fault(row, program, name, its) for name, its in places.items())), None)
    repeated, marked = len(lines) - len(set(lines)), sum(map(len, places.values()))
    return Tried(fault, Counter({"lines": len(lines), "repeated lines": repeated, "marked lines": marked}))


class ByChance(ProgramCases):
    """Random runs."""

    def test_marks(self):
        """The lines that the plain program keeps are marked, even among identical ones. Each session receives the same from
        its slice."""
        cases = ((f"random, {seed}", seed) for seed in range(1, RUNS // RUNS_AT_ONCE + 1))
        tried = self.check_each(cases, partial(try_marks, self.program), lambda it: it.fault, ProcessPoolExecutor)
        counts = all_shown(tried)
        self.tell(", ".join(f"{what}: {number:,}" for what, number in counts.items()))
        self.assertEqual([] if CASE else [what for what, number in counts.items() if not number], [], "no run shows this")


# Programs that do not do what they have to.

OWN = text_in(text for _, text in INPUTS["the own row"])
LEAVES_OUT = """\
by the record: {"args":[2],"call":"seen(int)","object":1,"sender":0,"session":"a"}
by the slice:  {"reply":{"events":0,"left":0,"lost":0,"mismatched":0},"session":"a"}
"""
ENDS_EARLY = """\
by the record: {"args":[2],"call":"seen(int)","object":1,"sender":0,"session":"a"}
by the slice:  (nothing more)
"""
SLICING = 'case "$1" in --slice=*) %s ;; *) exec "$METAD" "$@" ;; esac'
SET_2 = set_x("b", 2).decode()
WRONG = {  # what is done in place of slicing, with what is shown then, or said on standard error
    f"\"$METAD\" \"$@\" | grep -vxF '{SET_2}'": (LEAVES_OUT, ""),
    '"$METAD" "$@" | sed \'$d\'': (ENDS_EARLY, ""),
    "echo nonsense": ("", "the program keeps what is no command of the record"),
    '"$METAD" "$@" | sed p': ("", "the program keeps what is no command of the record"),
    '"$METAD" "$@" | sort -r': ("", "the program keeps what is no command of the record"),
    "exit 5": ("", "has ended with status 5"),
    "kill -9 $$": ("", "was ended by signal 9"),
}
TELLING = 'case "$1" in --slice=*) exec "$METAD" "$@" ;; *) %s ;; esac'
TELLS_WRONG = {
    "echo nonsense": ("", "the program writes what is no line of metad"),
    "exit 0": ("", "the program does not answer each line of the record once"),
    '"$METAD" "$@" | sed p': ("", "the program does not answer each line of the record once"),
    '"$METAD" "$@" | grep -v "events\\|:.c"': ("", "the program has not ended its last answer"),
    "exit 3": ("", "has ended with status 3"),
}


def wrong_programs():
    for form, wrong in ((SLICING, WRONG), (TELLING, TELLS_WRONG)):
        yield from ((words, (form % words, *wanted)) for words, wanted in wrong.items())


def wrong_fault(room, program, case):
    """What is wrong with what the tool says of such a program, or None."""
    script, is_shown, said = case
    with TemporaryDirectory(dir=room) as folder:
        path, record = Path(folder, "metad"), Path(folder, "record")
        path.write_text(f"#!/bin/sh\n{script}\n")
        path.chmod(0o755)
        record.write_bytes(OWN)
        own = {**os.environ, "METAD": program}
        words = [SLICE, "--metad", path, record, "a"]
        ran = subprocess.run(words, capture_output=True, text=True, env=own, timeout=SECONDS)
    pairs = ((is_shown, ran.stdout), (said, ran.stderr))
    is_right = all(wanted in came and bool(wanted) == bool(came) for wanted, came in pairs)
    return None if is_right and ran.returncode == 1 else f"status {ran.returncode}: {ran.stdout}{ran.stderr}"


class Wrong(ProgramCases):
    """Programs that do not do what they have to."""

    def test_wrong(self):
        """The tool shows what a session receives that differs, or says what is wrong, and ends with status 1."""
        room = self.enterContext(TemporaryDirectory(prefix="metad-slice-"))
        self.check_each(wrong_programs(), partial(wrong_fault, room, self.program))


# Sessions and classes that the program does not know.

LAMPS = text_in([new("b"), *(b'{"class":"%s","do":"new","session":"a"}' % it for it in (b"Lamp", b"Cell", b"Lamp", b"Light"))])
NO_SESSION = "{record} has no command of {name}; its sessions are a and b"
NO_CLASSES = (
    "slice: without a class file metad knows no class Lamp or Light, which the record names (E03), so that the output cannot"
    " be compared: give the class file of the recorded run by --classes FILE\n"
)
MANY = text_in(new(f"c{number}") for number in range(1, 31))


class Unknown(ProgramCases):
    """Sessions that give no command, classes that are in a class file, and records that come by standard input."""

    def setUp(self):
        self.room = self.enterContext(TemporaryDirectory(prefix="metad-slice-"))
        self.record = Path(self.room, "record")

    def ran(self, given, *words):
        """A run of the tool over a record, which is given by standard input where the words name none."""
        self.record.write_bytes(given)
        words = [SLICE, "--metad", self.program, *words]
        return subprocess.run(words, input=given, capture_output=True, timeout=SECONDS, cwd=self.room)

    def test_no_session(self):
        """A session that the record never names is a mistake in the words: it is said which there are, and which is nearest."""
        given = text_in([new("a"), new("b"), b"nonsense", b'{"do":"jump","session":"misspelt"}'])
        for options in ([], ["--only"]):
            for name, wanted in (
                ("misspelt", NO_SESSION),
                ("z", NO_SESSION),
                ("aa", f"{NO_SESSION}; did you mean a?"),
            ):
                with self.subTest(options=options, name=name):
                    ran = self.ran(given, *options, "record", name)
                    self.assertEqual((ran.returncode, ran.stdout), (2, b""), ran)
                    self.assertEqual(ran.stderr.decode(), f"slice: {wanted.format(record='record', name=name)}\n")
        ran = self.ran(b"", "record", "a")
        self.assertEqual((ran.returncode, ran.stderr), (2, b"slice: record has no command of a, nor of any other session\n"))
        said = self.ran(MANY, "record", "c31").stderr.decode()
        self.assertIn("c1, c2, ", said)
        self.assertIn("c20 and 10 more; did you mean ", said)

    def test_no_classes(self):
        """Where classes are missing nothing is compared, and the option is asked for; a record that makes none needs no file."""
        for options in ([], ["--only"]):
            ran = self.ran(LAMPS, *options, "record", "a")
            self.assertEqual((ran.returncode, ran.stderr.decode()), (1, NO_CLASSES), options)
            self.assertNotIn(b"the same", ran.stdout, options)
        ran = self.ran(LAMPS, "record", "b")
        self.assertEqual((ran.returncode, ran.stderr), (0, b""), "a session that makes no lamp")
        classes = [{"name": it, "super": "QObject"} for it in ("Lamp", "Light", "Cell")]
        Path(self.room, "classes.json").write_text(text_of({"classes": classes}))
        ran = self.ran(LAMPS, "--classes", "classes.json", "record", "a")
        self.assertEqual((ran.returncode, ran.stderr, ran.stdout.splitlines()[-1]), (0, b"", b"the slice tells a the same: 4 lines"))
        ran = self.ran(text_in([new("a"), b'{"class":"Nope","do":"meta","session":"a"}']), "record", "a")
        self.assertEqual((ran.returncode, ran.stderr), (0, b""), "a class that is only asked about")

    def test_standard_input(self):
        """A record comes by standard input where its word is `-`."""
        for options in ([], ["--only"]):
            by_input, by_file = (self.ran(OWN, *options, it, "a") for it in ("-", "record"))
            self.assertEqual((by_input.returncode, by_input.stderr, by_input.stdout), (0, b"", by_file.stdout), options)
        ran = self.ran(OWN, "-", "nobody")
        self.assertEqual(ran.returncode, 2, ran)
        self.assertTrue(ran.stderr.startswith(b"slice: standard input has no command of nobody; "), ran)
        words = f"'{sys.executable}' '{SLICE}' --metad '{self.program}' - a <&-"
        ran = subprocess.run(["sh", "-c", words], capture_output=True, timeout=SECONDS)
        self.assertEqual((ran.returncode, ran.stdout, ran.stderr), (1, b"", b"slice: standard input has to be open\n"))


# Words, files and outputs.

STATUS_2 = [
    *((), ("record",), ("record", "a", "b"), ("--nope", "record", "a"), ("--onl", "record", "a")),
    *(("record", it) for it in ("a b", "", "-", "n" * 65, "1a", "a\n", "ä")),
    *(("--metad",), ("record", "a", "--classes")),
    *(("--turns", it, "record", "a") for it in ("0", "-1", "ten", "1000001", "", "1.0", " 1")),
]
TURNS = ("1", "+007", "1000000", "0001000000")
HELP = (("--help",), ("-h",), ("--help", "record", "a b"))


def ends_of_words(record, program):
    """Runs of the tool that words decide about."""
    yield from (End(f"words {words}", words=words, status=2, said="usage:") for words in STATUS_2)
    yield from (End(f"help {words}", words=words) for words in HELP)
    yield from (End(f"turns {it}", words=("--metad", program, "--turns", it, record, "a")) for it in TURNS)
    yield End("options after the session", words=(record, "a", "--only", "--metad", program))


def unable(name, said, *words, folder=None):
    """A run of the tool in which something cannot be done."""
    return End(name, words=words, status=1, said=said, folder=folder)


def ends_of_files(room, record, program):
    """Runs of the tool that files decide about, among them one whose name is like an option's."""
    Path(room, "-x").write_bytes(OWN)
    own = ("--metad", program)
    yield End("a strange name of a record", words=(*own, "--only", "--", "-x", "a"), folder=room)
    yield unable("a strange name of a class file", "C01 at class 0", *own, "--classes=-x", record, "a", folder=room)
    yield unable("no record", "slice: /nonexistent cannot be opened: No such file", "/nonexistent", "a")
    yield unable("a record that is a folder", "slice: / cannot be ", "/", "a")
    yield unable("a record with an empty name", "cannot be opened", "", "a")
    yield unable("no program", "slice: /nonexistent cannot be started: No such", "--metad", "/nonexistent", record, "a")
    yield unable("a file that is no program", "cannot be started: Permission denied", "--metad", record, record, "a")
    yield unable("a program with an empty name", "cannot be started", "--metad", "", record, "a")
    no_classes = "metad: class file refused: unreadable\nslice: "
    yield unable("no class file", no_classes, *own, "--classes", "/nonexistent", record, "a")


FULL = "slice: standard output cannot be written: No space left on device\n"
NOT_OPEN = "slice: standard output has to be open\n"
DEVICES = {
    **dict.fromkeys(("{record} a > /dev/full", "--only {record} a > /dev/full", "--help > /dev/full"), FULL),
    **{"{record} a >&-": NOT_OPEN, "/nonexistent a 2>&-": ""},
}
OF_HELP = ("RECORD NAME", "--only", "--metad", "--classes", "--turns", "  +  kept", "  -  left out", "  ?  no", "status: 0", "1 if", "2 after")


class Ends(ProgramCases):
    """Words, files and outputs of the tool, and how it ends."""

    def setUp(self):
        self.room = self.enterContext(TemporaryDirectory(prefix="metad-slice-"))

    def record(self, text):
        path = Path(self.room, "record")
        path.write_bytes(text)
        return str(path)

    def test_ends(self):
        """It ends with the status that it has to, and says what it has to."""
        record = self.record(OWN)
        ends = (*ends_of_words(record, self.program), *ends_of_files(self.room, record, self.program))
        self.check_each([(end.name, end) for end in ends], lambda end: end.fault(end.run(SLICE)))

    def test_help(self):
        """The help describes the words of the command line, the marks and the exit statuses."""
        said = subprocess.run([SLICE, "--help"], capture_output=True, text=True, timeout=SECONDS).stdout
        for it in OF_HELP:
            self.assertIn(it, said)

    def test_devices(self):
        """Outputs that are full or missing, with Python's default buffers."""
        own = {key: value for key, value in os.environ.items() if key != "PYTHONUNBUFFERED"}
        record = self.record(100 * OWN)
        for device, wanted in DEVICES.items():
            with self.subTest(device=device):
                words = f"'{sys.executable}' '{SLICE}' --metad '{self.program}' {device.format(record=record)}"
                ran = subprocess.run(["sh", "-c", words], capture_output=True, timeout=SECONDS, env=own)
                self.assertEqual((ran.returncode, ran.stdout, ran.stderr.decode()), (1, b"", wanted))

    def test_closed_pipe(self):
        """A reader that goes away ends the tool without a word."""
        record = self.record(100 * OWN)
        for options in ([], ["--only"]):
            reader, writer = os.pipe()
            os.close(reader)
            self.addCleanup(os.close, writer)
            words = [SLICE, "--metad", self.program, *options, record, "a"]
            ran = subprocess.run(words, stdout=writer, stderr=subprocess.PIPE, timeout=SECONDS)
            self.assertEqual((ran.returncode, ran.stderr), (0, b""), options)
