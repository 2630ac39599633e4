"""The program as a process: its ends and the words of its command line, what it says over pipes, a limit on the size of its
output, its limits on as much stack as it reserves, and names that are chosen to make it slow."""

import os
import resource
import select
import signal
import subprocess
import time
from contextlib import ExitStack, contextmanager
from dataclasses import dataclass, replace
from pathlib import Path
from tempfile import TemporaryDirectory, TemporaryFile

from .generators import colliding, limits, many
from .support.cases import ProgramCases, processor_seconds
from .support.documents import version
from .support.lines import lines_of, text_of
from .support.program import SECONDS, Row

NEW = b'{"class":"QObject","do":"new","session":"a"}\n'
ONE = b'{"reply":1,"session":"a"}\n'
OTHER = NEW.replace(b'"a"', b'"b"')
END_OF_INPUT = b"\x04"  # as a terminal takes it at the beginning of a line
READ_FAULT, WRITE_FAULT, BAD_NAME = b"metad: read fault\n", b"metad: write fault\n", b"metad: bad session name\n"


@dataclass
class End(Row):
    """A run that ends, with an input or an output that may be something else than a pipe."""

    given: bytes = b""
    stdout: bytes | None = b""
    source: str | None = None  # a path in place of the input
    sink: str | None = None  # a path in place of the output, or "nobody" for a pipe without a reader
    part: str = ""  # is in what is written, on either of the two

    def run(self, program):
        with ExitStack() as opened:
            source = opened.enter_context(descriptor_of(self.source, os.O_RDONLY)) if self.source else None
            sink = opened.enter_context(descriptor_of(self.sink, os.O_WRONLY)) if self.sink else subprocess.PIPE
            ran = subprocess.run(
                [program, *self.words],
                **({"stdin": source} if self.source else {"input": self.given}),
                stdout=sink,
                stderr=subprocess.PIPE,
                timeout=self.seconds,
                preexec_fn=lambda: signal.signal(signal.SIGPIPE, signal.SIG_IGN),
                restore_signals=False,
            )
        ran.stdout = ran.stdout or b""
        return ran

    def passes(self, ran):
        return super().passes(ran) and self.part.encode() in ran.stdout + ran.stderr

    def faults(self, ran):
        yield from super().faults(ran)
        if self.part.encode() not in ran.stdout + ran.stderr:
            yield f"it writes {ran.stdout + ran.stderr!r}, without {self.part!r}"


@contextmanager
def descriptor_of(path, mode):
    """The descriptor of a path, or that of a pipe that nobody reads."""
    if path == "nobody":
        reader, descriptor = os.pipe()
        os.close(reader)
    else:
        descriptor = os.open(path, mode)
    try:
        yield descriptor
    finally:
        os.close(descriptor)


ENDS = [
    End("input at its end", given=NEW, stdout=ONE),
    End("input that is a folder", source="/", status=3, stderr=READ_FAULT),
    End("output that is full", given=NEW, sink="/dev/full", status=4, stderr=WRITE_FAULT),
    End("output that nobody reads", given=NEW, sink="nobody", status=4, stderr=WRITE_FAULT),
    End("output that is full and not needed", sink="/dev/full"),
    End("help", words=("--help",), stdout=None),
    End("help that cannot be written", words=("--help",), sink="/dev/full", status=4, stderr=None),
    End("an option that is not there", words=("--slow",), status=2, stderr=None),
    End("turns", words=("--turns", "1000000"), given=NEW, stdout=ONE),
    End("a slice", words=("--slice", "a"), given=NEW + OTHER + NEW[:-1], stdout=2 * NEW),
    End("a slice of a session that says nothing", words=("--slice=c",), given=NEW + OTHER),
    End("a slice of input that is a folder", words=("--slice=a",), source="/", status=3, stderr=READ_FAULT),
    End("a slice for an output that is full", words=("--slice=a",), given=NEW, sink="/dev/full", status=4, stderr=WRITE_FAULT),
    End("a session's name of 64 bytes", words=("--slice", 64 * "a"), given=NEW),
    End("a session's name of 65 bytes", words=("--slice", 65 * "a"), status=2, stderr=BAD_NAME),
    End("a session's name that is empty", words=("--slice=",), status=2, stderr=BAD_NAME),
    End("a session's name that is a hyphen", words=("--slice", "-"), status=2, stderr=BAD_NAME),
    End("a bad session name before a class file that is a folder", words=("/", "--slice", "a b"), status=2, stderr=BAD_NAME),
    End("a class file without a name", words=("",), status=1, stderr=b"metad: class file refused: unreadable\n"),
    End("a class file that is a folder", words=("/",), status=1, stderr=b"metad: class file refused: unreadable\n"),
    End("a class file that is empty", words=("/dev/null",), status=1, stderr=b"metad: class file refused: C01 at class 0\n"),
]

# words that give no options, each with the status that they end with and a part of the text that is written
REFUSED_WORDS = [
    (("a", "b"), 2, "error: unexpected argument 'b' found\n\nUsage: metad [OPTIONS] [CLASSES]\n\nFor more information, try '--help'.\n"),
    (("a", "-hx"), 0, "\n\nUsage: metad [OPTIONS] [CLASSES]\n\n"),
    (("--turns", "3", "--help"), 0, "--turns <N>"),
    (("--turns", "0"), 2, "0 is not in 1..=1000000"),
    (("--turns=1000001",), 2, "1000001 is not in 1..=1000000"),
    (("--turns", "ten", "--help"), 2, "invalid value 'ten' for '--turns <N>'"),
    (("--turns", "-1"), 2, "unexpected argument"),
    (("--turns", "--help"), 2, "--turns <N>"),
    (("--turns", "1", "--turns=1"), 2, "the argument '--turns <N>' cannot be used multiple times"),
    (("--slice", "a", "--help"), 0, "--slice <NAME>"),
    (("--slice", "--help"), 2, "a value is required for '--slice <NAME>' but none was supplied"),
    (("--slice",), 2, "a value is required for '--slice <NAME>' but none was supplied"),
    (("--slice", "--", "a"), 2, "a value is required for '--slice <NAME>' but none was supplied"),
    (("--slice", "-x"), 2, "unexpected argument '-x' found"),
    (("--slice", "a", "--slice=b"), 2, "the argument '--slice <NAME>' cannot be used multiple times"),
    (("--slice=", "a", "b"), 2, "unexpected argument 'b' found"),
    (("a", b"\xff"), 2, "\n\nUsage: metad [OPTIONS] [CLASSES]\n\nFor more information, try '--help'.\n"),
]
ENDS_BY_WORDS = [
    End(f"the words {words}", words=words, status=status, stdout=b"" if status else None, stderr=None if status else b"", part=part)
    for words, status, part in REFUSED_WORDS
]

# words that give options: the path of the class file and the turns
WORDS = [
    ((), None, 10_000),
    (("--", "-x"), "-x", 10_000),
    (("--turns", "3"), None, 3),
    (("a", "--turns=1000000"), "a", 1_000_000),
    (("--turns", "+07", "--", "--turns"), "--turns", 7),
    (("--turns=1", "-"), "-", 1),
]
CLASS_FILE = '{"classes":[{"name":"Probe","super":"QObject","signals":["ping()"],"slots":[{"sig":"note()","body":[]}]}]}'
CALLS = 8


def row_of_words(folder, words, path, turns):
    """A run whose answers tell which class file it has and how many of a signal's calls have a turn."""
    connect = {"do": "connect", "sender": 1, "signal": "ping()", "receiver": 1, "method": "note()"}
    invoke = {"do": "invoke", "object": 1, "method": "ping()", "args": []}
    given = [{"do": "new", "class": it} for it in ("Probe", "Cell")] + [connect] * CALLS + [invoke]
    calls = [{"args": [], "call": "note()", "object": 1, "sender": 1}] * min(turns, CALLS)
    spent = [{"warning": "E23"}] if turns < CALLS else []
    second = {"error": "E03"} if path else {"reply": 2}
    wanted = [{"reply": 1}, second, *({"reply": number} for number in range(1, CALLS + 1)), *calls, *spent, {"reply": True}]
    return Row(f"the words {words}", lines_of(given, session="a"), lines_of(wanted, session="a"), words=words, folder=folder)


class Ends(ProgramCases):
    """Each end of the program, on real devices: an input that is a folder, an output that is full or that nobody reads."""

    def test_ends(self):
        """The program ends with the status that it has to, and says what it has to."""
        self.check_rows(ENDS, at_once=1)

    def test_words_that_are_refused(self):
        """Words that give no options end it with status 2 or with its help."""
        self.check_rows(ENDS_BY_WORDS, at_once=1)

    def test_words_that_give_options(self):
        """Words name the class file and how many turns a command has."""
        with TemporaryDirectory(prefix="metad-words-") as folder:
            for path in filter(None, {path for _, path, _ in WORDS}):
                Path(folder, path).write_text(CLASS_FILE)
            self.check_rows([row_of_words(Path(folder), *it) for it in WORDS])

    def test_help(self):
        """The help begins with the versions that the README says, and names words, options, statuses and documents."""
        ran = subprocess.run([self.program, "--help"], capture_output=True, text=True, timeout=SECONDS)
        own, prover = version()
        self.assertEqual(ran.stdout.partition("\n")[0], f"metad {own}, proved with {prover}")
        for words in ("CLASSES", "--turns", "--slice", "--help", *(f"\n  {status}  " for status in range(6)), "metad(1)", "docs/TUTORIAL.md"):
            self.assertIn(words, ran.stdout)


PATIENCE = 60  # seconds in which a reply has to come
QUIET = 0.2  # seconds in which nothing may come where nothing is to be said

GET = b'{"do":"get","object":1,"property":"objectName","session":"a"}\n'
SET = b'{"do":"set","object":1,"property":"objectName","session":"a","value":"lamp"}\n'
FULL = b'{"do":"set","object":1,"property":"objectName","session":"a","value":"' + 4000 * b"n" + b'"}\n'


@dataclass
class Turn:
    """Bytes that are written at once, and all that has to be said before the next."""

    name: str
    given: bytes
    said: bytes = b""


def reply(json, session="a"):
    return f'{{"reply":{json},"session":"{session}"}}\n'.encode()


TALK = [
    Turn("a line", NEW, reply("1")),
    Turn("a second line", SET, reply("true")),
    Turn("a third line", GET, reply('"lamp"')),
    Turn("half a line", GET[:20]),
    Turn("the other half", GET[20:], reply('"lamp"')),
    Turn("a line without its end", NEW[:-1]),
    Turn("the end", b"\n", reply("2")),
    Turn("three lines", NEW + b"nonsense\n" + GET, reply("3") + b'{"error":"E01","session":"-"}\n' + reply('"lamp"')),
    Turn("a line and half of the next", SET + GET[:1], reply("true")),
    Turn("the rest and a line", GET[1:] + NEW, reply('"lamp"') + reply("4")),
    Turn("a blank line", b"\n"),
    Turn("a line of another session", NEW.replace(b'"a"', b'"b"'), reply("1", "b")),
    Turn("more than fits in a buffer", FULL + 40 * GET, reply("true") + 40 * reply('"' + 4000 * "n" + '"')),
    Turn("a last line without its end", GET[:-1]),
]
LAST_ANSWER = reply('"' + 4000 * "n" + '"')


def read(output, size, seconds):
    """Up to so many bytes, as far as they come in time."""
    said, until = b"", time.monotonic() + seconds
    while len(said) < size:
        ready, _, _ = select.select([output], [], [], max(0.0, until - time.monotonic()))
        part = os.read(output, size - len(said)) if ready else b""
        if not part:
            break
        said += part
    return said


class Pipes(ProgramCases):
    """A talk over pipes."""

    def test_talk(self):
        """What is said to a line comes before more is written, and nothing before a line has its end."""
        pipe = subprocess.PIPE
        process = subprocess.Popen([self.program], stdin=pipe, stdout=pipe, stderr=pipe, bufsize=0)
        try:
            for turn in TALK:
                os.write(process.stdin.fileno(), turn.given)
                output = process.stdout.fileno()
                said = read(output, len(turn.said), PATIENCE) if turn.said else read(output, 1, QUIET)
                self.assertEqual(said, turn.said, f"{turn.name}: what is said to {turn.given[:200]!r}")
            said, error = process.communicate(timeout=PATIENCE)
        finally:
            process.kill()
            process.communicate()
        self.assertEqual(said, LAST_ANSWER, "what is said at the end")
        self.assertEqual((process.returncode, error), (0, b""), "the status at the end, and standard error")
        self.tell(f"turns: {len(TALK)}")

    def test_terminal(self):
        """At a terminal the end of the input is typed once. A run is proved to call its source once there; this shows that it
        reads the device once too."""
        keyboard, terminal = os.openpty()
        with ExitStack() as opened:
            for descriptor in (keyboard, terminal):
                opened.callback(os.close, descriptor)
            process = subprocess.Popen([self.program], stdin=terminal, stdout=subprocess.PIPE, bufsize=0)
            try:
                os.write(keyboard, NEW)
                self.assertEqual(read(process.stdout.fileno(), len(ONE), PATIENCE), ONE, "what is said to a line")
                os.write(keyboard, END_OF_INPUT)
                self.assertEqual(process.wait(timeout=PATIENCE), 0, "the status at the end")
            finally:
                process.kill()
                process.communicate()


TRUTHS = SET * 1_000
OF_TRUTHS = reply("true") * 1_000
WITHOUT_CORE = "ulimit -c 0"
OF_SIZE = "ulimit -f 4"  # blocks, each of 512 bytes or of 1,024
IGNORED, NOT_IGNORED = "trap '' XFSZ", "trap - XFSZ"
EXCEEDED = -signal.SIGXFSZ


class Sizes(ProgramCases):
    """A limit on the size of the files that the program writes."""

    def run_limited(self, setting):
        """What comes of a run that writes to a file beyond such a limit, after this setting of the shell's, and the file."""
        with TemporaryDirectory(prefix="metad-sizes-") as room:
            wrote = Path(room, "wrote")
            words = [WITHOUT_CORE, setting, OF_SIZE, f'exec "$0" > {wrote}']
            ran = subprocess.run(["sh", "-c", " && ".join(words), self.program], input=NEW + TRUTHS, stderr=subprocess.PIPE, timeout=SECONDS)
            return ran, wrote.read_bytes()

    def check_front(self, wrote):
        """The file has as much of the answer as the limit allows."""
        self.assertTrue(wrote and (ONE + OF_TRUTHS).startswith(wrote), wrote[-300:])
        self.assertLess(len(wrote), len(ONE + OF_TRUTHS))

    def test_signal_ignored(self):
        """Where the signal of the limit is ignored, which a program inherits, it ends as with a full device."""
        ran, wrote = self.run_limited(IGNORED)
        self.assertEqual((ran.returncode, ran.stderr), (4, WRITE_FAULT))
        self.check_front(wrote)

    def test_signal_not_ignored(self):
        """Where it is not, it ends the program, as it does any other."""
        ran, wrote = self.run_limited(NOT_IGNORED)
        self.assertEqual((ran.returncode, ran.stderr), (EXCEEDED, b""))
        self.check_front(wrote)

    def test_started_by_python(self):
        """Python ignores the signal, and lets what it starts do so too where it is asked for that."""
        for is_restored, status in ((False, 4), (True, EXCEEDED)):
            with self.subTest(restore_signals=is_restored), TemporaryFile() as sink:
                ran = subprocess.run(
                    ["sh", "-c", f'{WITHOUT_CORE} && {OF_SIZE} && exec "$0"', self.program],
                    input=NEW + TRUTHS,
                    stdout=sink,
                    stderr=subprocess.PIPE,
                    timeout=SECONDS,
                    restore_signals=is_restored,
                )
                self.assertEqual(ran.returncode, status)
                sink.seek(0)
                self.check_front(sink.read())


KIB = 1024
STACK = 2_304 * KIB  # the 2 MiB that the program reserves, and what the system and the program's start have put there
SMALLER_STACK = 1_792 * KIB
ADDRESSES = 20 * KIB * KIB


def fault_within(program, row, resources, most):
    """What is wrong with a run that has at most so many bytes of these resources, or None."""
    hard = resource.getrlimit(resources)[1]
    return row.fault(row.run(program, env={}, preexec_fn=lambda: resource.setrlimit(resources, (most, hard))))


@dataclass
class Need:
    """The least, in KiB, with which a row passes, or what is wrong with it where it has the most."""

    name: str
    fault: str | None
    kib: int = 0


def need_of(program, row, resources, most):
    """How much a row needs of these resources. It has at most so many bytes of each."""
    fault = fault_within(program, row, resources, most)
    if fault:
        return Need(row.name, fault)
    least, most = 0, most // KIB
    while most - least > 4:
        middle = (least + most) // 2
        least, most = (middle, most) if fault_within(program, row, resources, middle * KIB) else (least, middle)
    return Need(row.name, None, most)


class Limits(ProgramCases):
    """The limits of signals, slots, events, properties, publications and joins; what has to be written is worked out from
    the rules."""

    def setUp(self):
        self.folder = Path(self.enterContext(TemporaryDirectory(prefix="metad-limits-")))
        (self.folder / "classes.json").write_text(text_of({"classes": [limits.CLASS]}))

    def cases(self, rows):
        return [(row.name, replace(row, folder=self.folder)) for row in rows]

    def check_stack(self, rows):
        within = lambda row: fault_within(self.program, row, resource.RLIMIT_STACK, STACK)
        self.check_each(self.cases(rows), within, at_once=1)

    def check_needs(self, rows, resources, most, words):
        for it in self.check_each(self.cases(rows), lambda row: need_of(self.program, row, resources, most), lambda it: it.fault, at_once=1):
            self.tell(f"\n    {it.name}: {words} {it.kib} KiB")

    def test_wide(self):
        """As many objects, connections, events, properties, publications and joins as may be, and the longest texts."""
        self.check_stack(limits.wide_rows())

    def test_deep(self):
        """Signals, changes, bindings and deletions that nest as deep as they may need no more stack than is reserved."""
        self.check_stack(limits.deep_rows())

    def test_reads(self):
        """As much as there may be, which is then read."""
        self.check_stack(many.rows())

    def test_smaller_stack(self):
        """On less than that the program ends by a signal, before it reads a line."""
        hard = resource.getrlimit(resource.RLIMIT_STACK)[1]
        bound = lambda: resource.setrlimit(resource.RLIMIT_STACK, (SMALLER_STACK, hard))
        ran = Row("nothing", NEW, ONE).run(self.program, env={}, preexec_fn=bound)
        self.assertEqual((ran.returncode, ran.stdout), (-signal.SIGSEGV, b""))

    def test_shared(self):
        """As many events as there may be, whose texts are those of two emissions; the test prints how much memory they need."""
        self.check_needs(limits.shared_rows(), resource.RLIMIT_AS, ADDRESSES, "in an address space of")


NAMES = 20_000
JOINS = 1_000  # of each session
TRIES = 3  # runs of each input; the quickest counts
MOST = 4  # times as long as other names


def session_row(names):
    """A run in which sessions have these names."""
    given = lines_of({"do": "children", "session": name} for name in names)
    return Row("sessions", given, lines_of({"reply": [], "session": name} for name in names))


def join_row(names):
    """A run in which a few sessions join sessions of these names."""
    given, wanted = [], []
    for at, name in enumerate(names):
        session = {"session": f"s{at // JOINS}"}
        if at % JOINS == 0:
            given.append({"do": "new", "class": "QObject", **session})
            wanted.append({"reply": 1, **session})
        given.append({"do": "join", "from": name, "name": "n", "types": [], "object": 1, "method": "deleteLater()", **session})
        wanted.append({"reply": True, **session})
    return Row("joins", lines_of(given), lines_of(wanted))


def class_row(signals, path):
    """A run with a class that has these signals, which are too many."""
    path.write_text(text_of({"classes": [{"name": "A", "super": "QObject", "signals": signals}]}))
    return Row("signals", b"", b"", b"metad: class file refused: C09 at class 1\n", 1, words=(str(path),))


class Names(ProgramCases):
    """Names that are chosen so that they collide under a hash whose seed is known."""

    def rows(self, make, folder):
        """Runs with names that this makes."""
        names = make(NAMES)
        return session_row(names), join_row(names), class_row(make(NAMES, "()"), Path(folder, f"{make.__name__}.json"))

    def fault_of(self, pair):
        """What is wrong where the names of the first run take so much longer than those of the second."""
        least = []
        for row in pair:
            seconds = []
            for _ in range(TRIES):
                start = processor_seconds()
                fault = row.fault(row.run(self.program))
                seconds.append(processor_seconds() - start)
                if fault:
                    return fault
            least.append(min(seconds))
        slow, quick = least
        return f"{slow:.2f} seconds of the processor, and {quick:.2f} with other names" if slow > MOST * quick else None

    def test_chosen_names(self):
        """They take at most four times as long as other names, of sessions, in joins and in class files."""
        with TemporaryDirectory(prefix="metad-names-") as folder:
            pairs = zip(self.rows(colliding.colliding, folder), self.rows(colliding.others, folder))
            self.check_each([(pair[0].name, pair) for pair in pairs], self.fault_of, at_once=1)
