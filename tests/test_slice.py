"""`metad --slice NAME`: the lines of an input that a session's output depends on, of worked inputs, of random runs,
and of a long one; and the names that it is given."""

import time
from collections import Counter
from concurrent.futures import ProcessPoolExecutor
from dataclasses import dataclass, replace
from functools import partial
from pathlib import Path
from tempfile import TemporaryDirectory

from .generators import mixed, signals
from .generators.slices import CLASS_FILE, INPUTS, LONG, line, long_lines, new, with_class, with_deletion
from .plain.classes import Classes
from .plain.lines import server_of
from .plain.slicing import notes_of, slice_of
from .plain.world import Server
from .support.by_chance import row_with_classes
from .support.cases import CASE, ProgramCases
from .support.differences import difference, shown_input
from .support.growths import COMPLAINT, ENDED, MOST, NOT_SEEN, OUT_OF_MEMORY, Trial
from .support.lines import lines_of, text_of
from .support.program import Row, library
from .support.seeds import SEED
from .test_program import READ_FAULT, WRITE_FAULT, End
from .test_random import Tried, all_shown, lines_by_session

NOBODY = "z"  # a session that no worked input has


# Worked inputs.


def rows_of(name, lines, words=(), folder=None):
    """The slices of an input for each of its sessions, and for one that it has not."""
    given = b"".join(text + b"\n" for _, text in lines)
    sessions = {it for keepers, _ in lines for it in keepers.split()} | {NOBODY}
    for session in sorted(sessions):
        wanted = b"".join(text + b"\n" for keepers, text in lines if session in keepers.split())
        yield Row(f"{name}: {session}", given, wanted, words=("--slice", session, *words), folder=folder)


def worked_rows(room):
    """The slices of all worked inputs, some without a last LF, and of those that classes and turns decide about."""
    yield from (row for name, lines in INPUTS.items() for row in rows_of(name, lines))
    for name in ("the own row", "lines with CR LF", "a single line"):
        rows = rows_of(f"{name}, without a last LF", INPUTS[name])
        yield from (replace(row, given=row.given.removesuffix(b"\n")) for row in rows)
    Path(room, "classes.json").write_text(CLASS_FILE)
    yield from rows_of("a class of a file", with_class("a b"), ("classes.json",), Path(room))
    yield from rows_of("a class that is not there", with_class("b"))
    yield from rows_of("an object that has gone", with_deletion("b"))
    yield from rows_of("an object whose deletion has no turn", with_deletion("a b"), ("--turns", "1"))


class Worked(ProgramCases):
    """Slices of worked inputs, which are worked out by hand, on the built program and on the plain one."""

    def setUp(self):
        self.room = self.enterContext(TemporaryDirectory(prefix="metad-slices-"))

    def test_worked(self):
        """The program keeps the lines that it has to, byte for byte."""
        self.check_rows(worked_rows(self.room))

    def test_again(self):
        """A slice's slice is the slice itself."""
        self.check_rows(replace(row, given=row.stdout) for row in worked_rows(self.room))

    def test_plain(self):
        """The plain program keeps them too."""
        self.check_each(((row.name, row) for row in worked_rows(self.room)), plain_fault)


def plain_fault(row):
    """What is wrong with what the plain program keeps, or None."""
    session, *words = row.words[1:]
    lines = row.given.split(b"\n")
    notes = notes_of(server_of(replace(row, words=tuple(words))), lines)
    return difference(row.stdout, slice_of(lines, notes, session))


# Names, and ends of the program.

BAD_NAME = b"metad: bad session name\n"
UNREADABLE = b"metad: class file refused: unreadable\n"
REFUSED_FILE = b"metad: class file refused: C01 at class 0\n"
LONGEST = "n" * 64


def kept_whole(name, words, session="a"):
    """A run that keeps the one line that it is given."""
    text = new(session) + b"\n"
    return End(name, words=words, given=text, stdout=text)


def bad(name, *words):
    """A run that the name of a session ends."""
    return End(name, words=words, given=new("a") + b"\n", status=2, stderr=BAD_NAME)


def refused(name, words, part=""):
    """A run that the words of the command line end."""
    return End(name, words=words, given=new("a") + b"\n", status=2, stderr=None, part=part)


TWICE = "the argument '--slice <NAME>' cannot be used multiple times"
ENDS = [
    kept_whole("a name of 64 bytes", ("--slice", LONGEST), LONGEST),
    kept_whole("a name of one byte", ("--slice", "_"), "_"),
    kept_whole("a name after an equals sign", ("--slice=a",)),
    kept_whole("turns before it", ("--turns", "3", "--slice", "a")),
    kept_whole("turns after it", ("--slice=a", "--turns=1000000")),
    kept_whole("no options after it", ("--slice", "a", "--")),
    bad("a name of 65 bytes", "--slice", LONGEST + "n"),
    bad("an empty name", "--slice", ""),
    bad("an empty name after an equals sign", "--slice="),
    bad("a name of a hyphen", "--slice", "-"),
    bad("a name with a space", "--slice", "a b"),
    bad("a name with a space before it", "--slice", " a"),
    bad("a name with a line feed", "--slice", "a\n"),
    bad("a name with a digit before it", "--slice", "1a"),
    bad("a name that is not ASCII", "--slice", "ä"),
    bad("a name with an equals sign", "--slice", "a=b"),
    bad("a bad name before a class file", "--slice", "a b", "/nonexistent"),
    bad("a bad name after a class file", "/nonexistent", "--slice", "a b"),
    bad("a bad name and turns", "--slice=a b", "--turns", "3"),
    refused("a name twice", ("--slice", "a", "--slice=a"), TWICE),
    refused("a bad name twice", ("--slice", "a b", "--slice", "a b"), TWICE),
    refused("no name", ("--slice",), "--slice <NAME>"),
    refused("a bad name and bad turns", ("--slice", "a b", "--turns", "0"), "0 is not in 1..=1000000"),
    refused("a name of bytes that are no text", ("--slice", b"\xff")),
    End("help", words=("--slice", "a", "--help"), stdout=None, part="--slice <NAME>"),
    End("a class file that cannot be read", words=("--slice", "a", "/nonexistent"), status=1, stderr=UNREADABLE),
    End("a class file that is refused", words=("--slice", "a", "/dev/null"), status=1, stderr=REFUSED_FILE),
    End("an input that is a folder", words=("--slice", "a"), source="/", status=3, stderr=READ_FAULT),
    End("an output that is full", words=("--slice", "a"), given=new("a"), sink="/dev/full", status=4, stderr=WRITE_FAULT),
    End("an output that nobody reads", words=("--slice", "a"), given=new("a"), sink="nobody", status=4, stderr=WRITE_FAULT),
    End("an output that is full and not needed", words=("--slice", "b"), given=new("a"), sink="/dev/full"),
]


class Ends(ProgramCases):
    """The option's word, and how a run ends with it."""

    def test_ends(self):
        """The program ends with the status that it has to, and says what it has to."""
        self.check_rows(ENDS, at_once=1)

    def test_refused_growths(self):
        """Where a request for memory is refused, each of them in turn, it writes all lines or, with status 5, none."""
        rows = [row for name in REFUSED for row in rows_of(name, INPUTS[name])]
        try_row = partial(refuse_growths, self.program, library("refuse_growth"))
        tried = self.check_each(((row.name, row) for row in rows), try_row, lambda it: it.fault)
        shown = all_shown(tried)
        self.tell(", ".join(f"{what}: {number:,}" for what, number in shown.items()))
        self.assertTrue(CASE or shown[ENDED], "no refused growth ended the program")


REFUSED = ("the own row", "two that join each other", "a joiner that is reset")


def refuse_growths(program, preloaded, row):
    """What comes of a slice with one request for memory refused after another."""
    trial, shown = Trial(program, preloaded, row), Counter()
    for number in range(1, MOST):
        ran, was_refused = trial.run(number)
        if not was_refused:
            return Tried(None, shown)
        is_ended = (ran.returncode, ran.stdout, ran.stderr) == (OUT_OF_MEMORY, b"", COMPLAINT)
        fault = None if is_ended else row.fault(ran)
        if fault:
            return Tried(f"the growth {number} is refused: {fault}", shown)
        shown[ENDED if is_ended else NOT_SEEN] += 1
    return Tried("the growths have no end", shown)


# Random runs.

FAULTY = (b"", b" \t\r", b"nonsense", b'{"do":"spin"}', b'{"do":"spin","session":"-"}')
FAULTS_OF_SESSIONS = ("jump", "join", "leave", "new")  # words that are no command without further keys
FAULTY_SHARE = 0.1


def fault_of(session):
    return lines_of([{"error": "E02", "session": session}])


def with_faults(chance, run):
    """The lines of a run's commands, with other lines between them, some in the names of its sessions."""
    sessions = list(run.server.sessions)
    for command in run.commands():
        if chance.is_so(FAULTY_SHARE):
            of_session = line(chance.choice(sessions), chance.choice(FAULTS_OF_SESSIONS))
            yield chance.choice((of_session, chance.choice(FAULTY)))
        yield text_of(command).encode()


@dataclass
class Sliced:
    """A session of an input, and the slice that the plain program keeps for it."""

    session: str
    kept: bytes

    def faults(self, row, told, program):
        """What is wrong with the built program's slice, with the slice of that, and with what it tells the session again."""
        slicing = replace(row, words=("--slice", self.session, *row.words), stdout=self.kept)
        for given in (row.given, self.kept):
            yield slicing.fault(replace(slicing, given=given).run(program))
        again = lines_by_session(replace(row, given=self.kept).run(program).stdout)[self.session]
        fault = difference(told.replace(fault_of(self.session), b""), again)
        yield fault and f"what the slice tells {self.session}: {fault}\n{shown_input(self.kept)}"


def shown_by_slices(run, lines, slices):
    """What runs have to show: of each slice, whether it has lines of others, and whether it keeps some lines of a session
    and leaves out others."""
    shown = Counter({"lines": len(lines), "commands": len(run.steps), "slices": len(slices)})
    given = Counter(step.session for step in run.steps)
    for it in slices:
        counts = {name: text.count(b"\n") for name, text in lines_by_session(it.kept).items()}
        shown["lines that are kept"] += sum(counts.values())
        shown["slices of several sessions"] += len(counts) > 1
        shown["slices that keep a part of a session"] += any(counts[name] < given[name] for name in counts)
        shown["slices of three sessions and more"] += len(counts) > 2
    return shown


def try_slices(program, seed):
    """Tries the slices of some runs of sessions that listen to each other, which take turns on one server."""
    made = mixed.Chance(seed)
    declared, turns = list(made.classes()), made.choice(signals.TURNS)
    run = mixed.run_of(made, Server(Classes(declared), turns))
    lines = list(with_faults(made, run))
    with TemporaryDirectory(prefix="metad-slices-") as room:
        row = row_with_classes(f"random, {seed}", [], [], declared, room, turns)
        row = replace(row, given=b"".join(it + b"\n" for it in lines), folder=Path(room))
        notes = notes_of(server_of(row), lines)
        slices = [Sliced(name, slice_of(lines, notes, name)) for name in run.server.sessions]
        told = lines_by_session(row.run(program).stdout)
        faults = (fault for it in slices for fault in it.faults(row, told[it.session], program))
        fault = next(filter(None, faults), None)
    return Tried(fault and f"{fault}\nits class file: {text_of({'classes': declared})}", shown_by_slices(run, lines, slices))


class ByChance(ProgramCases):
    """Slices of random runs."""

    def test_runs(self):
        """The program keeps what the plain one keeps, also of what was kept. By its slice each session receives what it
        receives by all lines, except the faults of its own that the slice leaves out."""
        seeds = range(SEED, SEED + mixed.RUNS // mixed.RUNS_AT_ONCE)
        cases = ((f"random, {seed}", seed) for seed in seeds)
        tried = self.check_each(cases, partial(try_slices, self.program), lambda it: it.fault, ProcessPoolExecutor)
        shown = all_shown(tried)
        self.tell(", ".join(f"{what}: {number:,}" for what, number in shown.items()))
        self.assertEqual([] if CASE else [what for what, number in shown.items() if not number], [], "no run shows this")


# A long input.


class Long(ProgramCases):
    """A slice of a long input."""

    def test_long(self):
        """Of a million lines ten are kept, in seconds."""
        kept, lines = long_lines()
        row = Row("a million lines", b"\n".join(lines), b"".join(it + b"\n" for it in kept), words=("--slice", "a"))
        self.assertEqual((len(kept), len(lines)), (10, LONG))
        begun = time.monotonic()
        fault = row.fault(row.run(self.program))
        self.assertIsNone(fault, fault)
        self.tell(f"seconds: {time.monotonic() - begun:.1f}")
