"""Memory: each request of the program for more is refused in turn, and what comes of it is looked at; the look at it tells
good programs from bad ones; and the program has little memory, and gives back what it has had."""

import json
from collections import Counter
from concurrent.futures import ProcessPoolExecutor, ThreadPoolExecutor
from dataclasses import replace
from functools import partial
from itertools import islice
from pathlib import Path
from subprocess import CompletedProcess
from tempfile import TemporaryDirectory

from .generators import bindings, mixed, repeating
from .generators.growing import growing_row
from .generators.long_lines import long_line_row
from .plain.lines import answer, server_of
from .support.bounded import NOT_LOADED, UNLOADED, came_of, run_bounded
from .support.by_chance import listeners_by_chance, session_by_chance
from .support.cases import AT_ONCE, CASE, Cases, ProgramCases
from .support.differences import difference
from .support.growths import (
    COMPLAINT,
    ENDED,
    FAILED,
    KINDS,
    LINE_LOST,
    MOST,
    NOT_ENTERED,
    NOT_SEEN,
    NOT_STARTED,
    OUT_OF_MEMORY,
    RECEIVER_FAILED,
    Trial,
    answers_in,
    count_start,
    missing,
    refuse_growths,
    start_of,
)
from .support.lines import lines_of
from .support.peaks import peaks_of
from .support.program import ROWS, Row, library, row_of, rows_in

SESSIONS = 1_000
COMMANDS = 200
REFUSED = 400  # one of so many requests for memory after the start is refused, if the program makes it
LISTENERS = 200  # runs of sessions that listen to each other
WHOLE = 3  # a short one of these, in which posts arrive that need memory: each of its growths is refused
GROWTHS_OF_LINE = 8  # requests for memory that a line of theirs makes, about


def refuse_with_bindings(program, preloaded, seed):
    """What comes of a session with bindings in which one random growth is refused."""
    made = bindings.Watching(seed)
    with session_by_chance(made, seed, COMMANDS) as session:
        trial = Trial(program, preloaded, session.row, count_start(program, preloaded, session.row))
        return trial.refuse_one(trial.start + made.randint(1, REFUSED))


def refuse_among_listeners(program, preloaded, seed):
    """What comes of sessions that listen to each other where one random growth of theirs is refused; in one run each
    growth is refused in turn."""
    made = mixed.Chance(seed)
    with listeners_by_chance(made, seed) as row:
        trial = Trial(program, preloaded, row, count_start(program, preloaded, row))
        if seed == WHOLE:
            return trial.refuse_each(trial.start + 1)
        return trial.refuse_one(trial.start + made.randint(1, GROWTHS_OF_LINE * len(trial.lines)))


class RefusedGrowths(ProgramCases):
    """Rows with one request for memory refused after another.

    Rows that start alike, by the same words and class files, differ only after their start, so all but the first of
    them begin there. Where the class file has more than 4 KiB the number grows by a fiftieth at each step,
    and where the row has more than 1,000 lines by a fifth.
    """

    def tell_outcomes(self, tried):
        """Says how often each kind of outcome came about, and answers these counts."""
        outcomes = sum((it.outcomes for it in tried), Counter())
        kinds = ", ".join(f"{kind}: {outcomes[kind]:,}" for kind in KINDS)
        self.tell(f"{kinds}, lines of other sessions compared: {sum(it.neighbours for it in tried):,}")
        return outcomes

    def test_refused_growths(self):
        """Each leads to one of the allowed outcomes, and each of these comes about."""
        room = Path(self.enterContext(TemporaryDirectory(prefix="metad-growths-")))
        rows, preloaded, first_rows = [*rows_in(ROWS), long_line_row(room)], library("refuse_growth"), {}
        for row in rows:
            first_rows.setdefault(start_of(row), row)
        with ThreadPoolExecutor(AT_ONCE) as pool:
            starts = dict(zip(first_rows, pool.map(partial(count_start, self.program, preloaded), first_rows.values())))

        def try_row(row):
            start = starts[start_of(row)]
            first = 1 if first_rows[start_of(row)] is row else start + 1
            return refuse_growths(self.program, preloaded, row, start, first)

        outcomes = self.tell_outcomes(self.check_each([(row.name, row) for row in rows], try_row, lambda it: it.fault))
        self.assertEqual([] if CASE else missing(outcomes), [], "no refused growth ever led to this")

    def test_refused_arrival(self):
        """One is the growth that a post needs where it arrives: the receiver alone has failed, up to its reset."""
        preloaded, seen = library("refuse_growth"), []
        start = count_start(self.program, preloaded, POSTED)
        trial = Trial(self.program, preloaded, POSTED, start)
        for number in range(start + 1, MOST):
            ran, was_refused = trial.run(number)
            if not was_refused:
                break
            if ran.stdout == b"".join(RECEIVER_FAILS):
                seen.append(number - start)
        self.assertTrue(seen, "no refused growth made the receiver fail")
        self.tell(f"growths after the start: {number - start - 1}, of arrivals: {seen}")

    def check_by_chance(self, number, try_seed, kinds):
        """Tries so many sessions or runs, and that some of them lead to outcomes of these kinds."""
        cases = ((f"random, {seed}", seed) for seed in range(1, number + 1))
        tried = self.check_each(cases, partial(try_seed, self.program, library("refuse_growth")), lambda it: it.fault, ProcessPoolExecutor)
        outcomes = self.tell_outcomes(tried)
        few = [kind for kind, least in kinds.items() if outcomes[kind] < least]
        self.assertEqual([] if CASE else few, [], "too few sessions led to this")

    def test_sessions_with_bindings(self):
        """One random growth is refused in each of many sessions whose bindings are asked for after each command."""
        self.check_by_chance(SESSIONS, refuse_with_bindings, {FAILED: SESSIONS // 10})

    def test_sessions_that_listen(self):
        """So does one of each of many runs of sessions that publish, join, bind and call functors, and each of one run."""
        self.check_by_chance(LISTENERS, refuse_among_listeners, {FAILED: LISTENERS // 10, RECEIVER_FAILED: 1})


ONE_OF_EACH = (
    *({"do": word, "object": 1} for word in ("parent", "findAll", "object", "properties")),
    *({"do": word} for word in ("classes", "functors", "publications", "joins", "connections", "bindings")),
    {"do": "describe", "class": "Cell"},
    {"do": "binding", "object": 1, "property": "x"},
)  # commands that only read
MADE = ({"do": "new", "class": "Cell"}, {"do": "set", "object": 1, "property": "objectName", "value": "n" * 4_096})
AFTER_FAILING = (*ONE_OF_EACH, {"do": "reset"}, *ONE_OF_EACH)


class FailedReads(ProgramCases):
    """Commands that only read, in a session that has failed."""

    def setUp(self):
        commands = [{"session": "a", **it} for it in (*MADE, *AFTER_FAILING)]
        row = Row("reads", lines_of(commands), b"")
        server = server_of(row)
        made = b"".join(answer(server, line) for line in lines_of(commands[:1]).splitlines())
        server.session("a").fail()
        refused = [answer(server, line) for line in lines_of(commands[len(MADE) :]).splitlines()]
        self.row = replace(row, stdout=made + error("E21", "a") + b"".join(refused))

    def test_plain(self):
        """The plain program refuses each by E20, up to the reset."""
        failed, count = [error("E20", "a")] * len(ONE_OF_EACH), len(ONE_OF_EACH)
        answers = answers_in(self.row.stdout)[len(MADE) :]
        self.assertEqual((answers[:count], answers[count]), (failed, text(reply=True, session="a")))
        self.assertNotIn(failed[0], answers[count:], "after the reset")

    def test_reads(self):
        """So does the program, in which a growth of a command before them was refused."""
        preloaded = library("refuse_growth")
        start = count_start(self.program, preloaded, self.row)
        trial = Trial(self.program, preloaded, self.row, start)
        for number in range(start + 1, MOST):
            ran, was_refused = trial.run(number)
            if not was_refused or ran.stdout == self.row.stdout:
                break
        self.assertEqual(ran.stdout, self.row.stdout, "no refused growth made the session fail so")


MIB, KIB = 2**20, 2**10
LEAST_SPACE, STEP_OF_SPACE, MOST_SPACE = 3 * MIB, 64 * KIB, 64 * MIB  # in the least the program is not even loaded
SPACES = 4 * AT_ONCE  # that are tried before it is looked whether one of them was enough
MOST_GROWN = 1.02  # of the peak of the first lines


def try_space(program, row, size):
    """What comes of a row in so many bytes of address space, and what was written then."""
    ran = run_bounded(program, row, f"ulimit -v {size // KIB}")
    return size, came_of(row, ran), ran


class LittleMemory(ProgramCases):
    """The program where there is little memory, and what it gives back."""

    def tried_spaces(self, row):
        """What comes of a row in an address space of 3 MiB, and of 64 KiB more each time, up to where it passes whole."""
        sizes, tried = iter(range(LEAST_SPACE, MOST_SPACE, STEP_OF_SPACE)), []
        with ProcessPoolExecutor(AT_ONCE) as pool:
            while not any(NOT_SEEN in came.kinds for _, came, _ in tried):
                part = list(islice(sizes, SPACES))
                self.assertTrue(part, "no space was enough")
                tried += pool.map(partial(try_space, self.program, row), part)
        return tried

    def check_spaces(self, row, needed):
        """Each run ends without being killed, and each session receives what it may receive where memory is short; outcomes
        of these kinds come about."""
        outcomes, whole = Counter(), None
        for size, came, ran in self.tried_spaces(row):
            with self.subTest(space=f"{size // KIB:,} KiB"):
                self.assertTrue(came.is_allowed, f"status {ran.returncode}, {ran.stderr[-300:]!r}, {difference(row.stdout, ran.stdout)}")
            outcomes.update(set(came.kinds))
            whole = whole or (size if NOT_SEEN in came.kinds else None)
        kinds = ", ".join(f"{kind}: {count:,}" for kind, count in sorted(outcomes.items()))
        self.tell(f"runs by what shows in them: {kinds}; whole in {whole // KIB:,} KiB")
        self.assertEqual([kind for kind in needed if not outcomes[kind]], [], "no space led to this")

    def test_two_sessions(self):
        """Two sessions. One hears the other."""
        self.check_spaces(row_of(ROWS / "signal_is_posted_to_another_session"), [NOT_LOADED, ENDED])

    def test_session_that_grows(self):
        """A session that grows until it fails, next to one that counts on, is reset and grows again."""
        self.check_spaces(growing_row(), [NOT_LOADED, ENDED, FAILED])

    def check_peaks(self, parts):
        first, *peaks = peaks_of(self.program, parts)
        self.tell(f"peak of the first {repeating.LINES:,} lines: {first:,} KiB, of {(1 + len(peaks)) * repeating.LINES:,}: {max(peaks):,} KiB")
        self.assertLessEqual(max(peaks), MOST_GROWN * first)

    def test_what_deletions_give_back(self):
        """A million lines that make and delete take no more memory than the first of them."""
        self.check_peaks(repeating.deleted())

    def test_what_resets_give_back(self):
        """Nor do a million lines that make objects of a session, which is then reset."""
        self.check_peaks(repeating.reset())


def text(**keys):
    return lines_of([keys])


GIVEN = [
    text(**{"class": "QObject", "do": "new", "session": "a"}),
    text(**{"class": "QObject", "do": "new", "session": "b"}),
    text(do="get", object=1, property="objectName", session="a"),
    text(args=[], do="invoke", method="f()", object=1, session="b"),
    text(do="jump", session="a"),
]
NUMBER_A, NUMBER_B = text(reply=1, session="a"), text(reply=1, session="b")
TITLE_A = text(reply="", session="a")
CALL_B = text(args=[], call="f()", object=1, sender=0, session="b")
WARNING_B, TRUTH_B = text(object=1, session="b", warning="E04"), text(reply=True, session="b")
CALLS_B = CALL_B + WARNING_B + TRUTH_B
FAULT_A = text(error="E02", session="a")
ROW = Row("made up", b"".join(GIVEN), NUMBER_A + NUMBER_B + TITLE_A + CALLS_B + FAULT_A)


def error(code, session):
    return text(error=code, session=session)


class MadeUp(Row):
    """The row of a program that answers as if a session were fresh where its first line was not there."""

    def run(self, program, **more):
        first, later = {"a": NUMBER_A, "b": NUMBER_B}, {"a": TITLE_A, "b": CALLS_B}
        seen, wrote = set(), []
        for line in map(json.loads, self.given.splitlines()):
            session = line["session"]
            if line["do"] == "jump":
                wrote.append(FAULT_A)
            elif line["do"] == "new":
                wrote.append(first[session])
                seen.add(session)
            else:
                wrote.append(later[session] if session in seen else error("E04", session))
        return CompletedProcess(program, 0, b"".join(wrote), b"")


def ended(stdout, status=0, stderr=b""):
    return CompletedProcess("made up", status, stdout, stderr)


def told(*answers):
    """The run of a program that tells this to all lines but the last, which is no command."""
    return ended(b"".join(answers) + FAULT_A)


# what a program writes where one growth is refused, and what that is
CASES = [
    ("the row itself", ended(ROW.stdout), "not seen"),
    ("a session fails", told(NUMBER_A, NUMBER_B, error("E21", "a"), CALLS_B), "session failed"),
    ("a session fails where it calls", told(NUMBER_A, NUMBER_B, TITLE_A, error("E21", "b")), "session failed"),
    ("a session fails at its first line", told(error("E21", "a"), NUMBER_B, error("E20", "a"), CALLS_B), "session failed"),
    ("a session is not entered", told(error("E21", "a"), NUMBER_B, error("E04", "a"), CALLS_B), "session not entered"),
    ("a line is lost", told(NUMBER_A, NUMBER_B, error("E21", "-"), CALLS_B), "line lost"),
    ("a lost first line", told(error("E21", "-"), NUMBER_B, error("E04", "a"), CALLS_B), "line lost"),
    ("the end with a prefix of the row", ended(NUMBER_A, OUT_OF_MEMORY, COMPLAINT), "program ended"),
    ("the end after a call", ended(NUMBER_A + NUMBER_B + TITLE_A + CALL_B, OUT_OF_MEMORY, COMPLAINT), "program ended"),
    ("the end with something else", ended(NUMBER_B, OUT_OF_MEMORY, COMPLAINT), None),
    ("the end without a word", ended(NUMBER_A, OUT_OF_MEMORY), None),
    ("another status", ended(NUMBER_A, 3, COMPLAINT), None),
    ("a session that receives its failure and goes on", told(NUMBER_A, error("E21", "b"), TITLE_A, CALLS_B), None),
    ("a session that goes on after it had a line", told(NUMBER_A, NUMBER_B, TITLE_A, error("E21", "b"), CALLS_B), None),
    ("another session fails too", told(error("E21", "a"), NUMBER_B, error("E20", "a"), error("E20", "b")), None),
    ("a failed session whose lines are not read", ended(NUMBER_A + NUMBER_B + error("E21", "a") + CALLS_B + error("E20", "a")), None),
    ("a call before the failure", told(NUMBER_A, NUMBER_B, TITLE_A, CALL_B, error("E21", "b")), None),
    ("a call is missing", told(NUMBER_A, NUMBER_B, TITLE_A, WARNING_B, TRUTH_B), None),
    ("the reply after calls is missing", told(NUMBER_A, NUMBER_B, TITLE_A, CALL_B, WARNING_B), None),
    ("a lost line after a call", told(NUMBER_A, NUMBER_B, TITLE_A, CALL_B, error("E21", "-")), None),
    ("a reply is missing", told(NUMBER_A, NUMBER_B, TITLE_A), None),
    ("a wrong reply", told(NUMBER_A, NUMBER_B, CALLS_B, TITLE_A), None),
    ("an answer of its own when out of memory", told(NUMBER_A, error("E14", "b"), TITLE_A, error("E20", "b")), None),
]


class PlainRow(Row):
    """The row of the plain program."""

    def run(self, program, **more):
        server = server_of(self)
        return ended(b"".join(answer(server, line) for line in self.given.split(b"\n")))


POSTED = row_of(ROWS / "receiver_is_reset_after_a_post")
TRUTH_A = text(reply=True, session="a")
POSTED_B = text(args=[7], call="seen(int)", object=1, sender=0, session="b")
SPUN, SPUN_NOTHING = (
    text(reply={"events": events, "left": 0, "lost": 0, "mismatched": 0}, session="b") for events in (1, 0)
)
COUNTS = ("bindings", "connections", "group", "joins", "lost", "mismatched", "objects", "publications", "queued")
NOTHING_B = text(reply=dict.fromkeys(COUNTS, 0), session="b")
JOINS_B = text(reply=dict.fromkeys(COUNTS, 0) | {"joins": 1}, session="b")
BEGUN = [NUMBER_A, NUMBER_B, TRUTH_B, TRUTH_A]
FAILED_A, FAILED_B, LATER_A, LATER_B = (error(code, session) for code in ("E21", "E20") for session in "ab")
CALLED_B = POSTED_B + SPUN
RESET_B = [TRUTH_B, NOTHING_B]
RECEIVER_FAILS = [*BEGUN, TRUTH_A, LATER_B, TRUTH_A, *RESET_B]

# what a program writes where one growth is refused while one session posts to another, line by line, and what that is
CASES_OF_POSTS = [
    ("the row itself", [*BEGUN, TRUTH_A, CALLED_B, TRUTH_A, *RESET_B], "not seen"),
    ("the receiver fails", RECEIVER_FAILS, "receiver failed"),
    ("the receiver fails in its own command", [*BEGUN, TRUTH_A, FAILED_B, TRUTH_A, *RESET_B], "session failed"),
    ("the receiver fails at its reset", [*BEGUN, TRUTH_A, CALLED_B, TRUTH_A, FAILED_B, LATER_B], "session failed"),
    ("the receiver fails where it joins", [NUMBER_A, NUMBER_B, FAILED_B, TRUTH_A, TRUTH_A, LATER_B, TRUTH_A, *RESET_B], "session failed"),
    ("the sender fails before its post", [*BEGUN, FAILED_A, SPUN_NOTHING, LATER_A, *RESET_B], "session failed"),
    ("the sender fails after its post", [*BEGUN, FAILED_A, CALLED_B, LATER_A, *RESET_B], "session failed"),
    ("a line of the sender is lost", [*BEGUN, error("E21", "-"), SPUN_NOTHING, TRUTH_A, *RESET_B], "line lost"),
    ("the sender is not entered", [FAILED_A, NUMBER_B, TRUTH_B, error("E04", "a"), error("E04", "a"), SPUN_NOTHING, error("E04", "a"), *RESET_B], "session not entered"),
    ("the sender fails with the receiver", [*BEGUN, FAILED_A, LATER_B, LATER_A, *RESET_B], None),
    ("the sender fails, and goes on", [*BEGUN, FAILED_A, SPUN_NOTHING, TRUTH_A, *RESET_B], None),
    ("a post is lost without a failure", [*BEGUN, TRUTH_A, SPUN_NOTHING, TRUTH_A, *RESET_B], None),
    ("the sender is notified that the receiver fails", [*BEGUN, error("E14", "a"), LATER_B, TRUTH_A, *RESET_B], None),
    ("the receiver fails where nothing is posted", [NUMBER_A, NUMBER_B, LATER_B, TRUTH_A, TRUTH_A, LATER_B, TRUTH_A, *RESET_B], None),
    ("the receiver goes on", [*BEGUN, TRUTH_A, LATER_B, TRUTH_A, TRUTH_B, JOINS_B], None),
    ("the receiver stays failed", [*BEGUN, TRUTH_A, LATER_B, TRUTH_A, LATER_B, LATER_B], None),
    ("the receiver is notified of its failure and goes on", [*BEGUN, TRUTH_A, LATER_B, TRUTH_A, TRUTH_B, LATER_B], None),
]

LOADED_NOT = b"metad: error while loading shared libraries: libc.so.6: failed to map segment from shared object\n"

# the same where any number of growths may be refused: what it writes, its status and what it says, and what shows in that
CASES_OF_LITTLE = [
    ("the row itself", [POSTED.stdout], 0, b"", [NOT_SEEN]),
    ("both sessions fail", [*BEGUN, FAILED_A, LATER_B, LATER_A, *RESET_B], 0, b"", [FAILED, RECEIVER_FAILED]),
    ("a session fails and a line is lost", [*BEGUN, TRUTH_A, FAILED_B, error("E21", "-"), *RESET_B], 0, b"", [FAILED, LINE_LOST]),
    ("a session fails twice", [NUMBER_A, NUMBER_B, FAILED_B, TRUTH_A, TRUTH_A, LATER_B, TRUTH_A, FAILED_B, LATER_B], 0, b"", [FAILED] * 2),
    ("a session is entered at its third line", [FAILED_A, NUMBER_B, TRUTH_B, FAILED_A, error("E04", "a"), SPUN_NOTHING, error("E04", "a"), *RESET_B], 0, b"", [NOT_ENTERED] * 2),
    ("the program ends at once", [], OUT_OF_MEMORY, COMPLAINT, [ENDED]),
    ("the program ends after a failure", [*BEGUN, FAILED_A, SPUN_NOTHING], OUT_OF_MEMORY, COMPLAINT, [FAILED, ENDED]),
    ("the program ends in a line", [*BEGUN, TRUTH_A, POSTED_B[:9]], OUT_OF_MEMORY, COMPLAINT, [ENDED]),
    ("the program ends in another line", [*BEGUN, TRUTH_A, SPUN[:12]], OUT_OF_MEMORY, COMPLAINT, None),
    ("the program is not loaded", [], UNLOADED, LOADED_NOT, [NOT_LOADED]),
    ("the program says something, and is not loaded", [NUMBER_A], UNLOADED, LOADED_NOT, None),
    ("the program ends by a signal", [], -11, b"", None),
    ("the program ends without a word", BEGUN, OUT_OF_MEMORY, b"", None),
    ("the program stops early", BEGUN, 0, b"", None),
    ("a failed session goes on", [*BEGUN, FAILED_A, SPUN_NOTHING, TRUTH_A, *RESET_B], 0, b"", None),
    ("a lost line was done", [*BEGUN, error("E21", "-"), CALLED_B, TRUTH_A, *RESET_B], 0, b"", None),
    ("one line too many", [POSTED.stdout, NOTHING_B], 0, b"", None),
]


class Outcomes(Cases):
    """What came of a refused growth, told of programs that are made up here, each by what it writes then."""

    def test_outcomes(self):
        """The allowed outcomes have names, and anything else is refused."""
        self.check_outcomes(MadeUp(**vars(ROW)), CASES)

    def test_outcomes_of_posts(self):
        """So they are where one session posts to another, which may fail by that."""
        cases = [(name, ended(b"".join(lines)), wanted) for name, lines, wanted in CASES_OF_POSTS]
        self.check_outcomes(PlainRow(**vars(POSTED)), cases)

    def check_outcomes(self, row, cases):
        def fault_of(case):
            ran, wanted = case
            told = Trial("made up", "", replace(row)).outcome(ran)
            return None if told == wanted else f"{told}, and not {wanted}, where it wrote {ran}"

        self.check_each([(name, case) for name, *case in cases], fault_of)

    def test_outcomes_of_little_memory(self):
        """So are all that come of one run, where more than one growth may be refused."""
        for name, lines, status, said, kinds in CASES_OF_LITTLE:
            with self.subTest(case=name):
                came = came_of(POSTED, ended(b"".join(lines), status, said))
                self.assertEqual(list(came.kinds) if came.is_allowed else None, kinds)

    def test_outcomes_of_starts(self):
        """An end is the start's where the growth is one of its own, and nothing was written."""
        kinds = [(9, b"", NOT_STARTED), (10, b"", ENDED), (10, NUMBER_A, ENDED), (9, NUMBER_A, None)]
        for number, wrote, kind in kinds:
            with self.subTest(number=number, wrote=wrote):
                trial = Trial("made up", "", replace(ROW), start=9)
                self.assertEqual(trial.outcome(ended(wrote, OUT_OF_MEMORY, COMPLAINT), number), kind)

    def test_missing(self):
        """It is seen which outcomes never came: of a program that ends at every refused growth, and of others."""
        self.assertEqual(missing(Counter({ENDED: 9})), [kind for kind in KINDS if kind != ENDED])
        self.assertEqual(missing(Counter(KINDS)), [])
        self.assertEqual(missing(Counter(KINDS[1:])), [KINDS[0]])
