"""Many sessions, and one runs out of memory: those that do not listen to it receive what they would receive without that,
and those that do hear what it has posted by then."""

from __future__ import annotations

import json
from collections import Counter
from concurrent.futures import ProcessPoolExecutor
from functools import partial
from itertools import count
from pathlib import Path
from tempfile import TemporaryDirectory
from typing import Iterator, NamedTuple

from .generators.chained import chained_row
from .support.by_chance import row_with_classes
from .support.cases import CASE, Cases, ProgramCases
from .support.growths import Trial, answers_in, count_start, line
from .support.program import Row, library
from .support.lines import lines_of
from .support.spared import Reference, failure_faults, sources_of

SEEDS = 4
PARTS = 8  # in which the growths of a run are refused side by side
TOLD = 5_000  # refusals, at least, that some session receives
OFTEN = 1_000


class Tried(NamedTuple):
    """How often what came of refused growths, and what is wrong, or None."""

    counts: Counter
    fault: "str | None" = None


def tell_of(reference: Reference, stdout: bytes) -> "tuple[Counter, str | None]":
    """What a run of a refused growth says of its sessions, and what is wrong with it, or None."""
    came = reference.judge(stdout)
    told = bool(came.hit or came.unread)
    fault = came.fault or next(failure_faults(reference.lines, answers_in(stdout)), None)
    if not told and stdout != reference.row.stdout:
        fault = fault or "other lines, and no refusal"
    listening = [it for it in came.spared if len(sources_of(reference.joins, it)) > 1]
    counts = Counter(told=told, unread=bool(came.unread), hit=len(came.hit))
    if told:
        counts.update(spared=len(came.spared), listening=len(listening), beside=len(came.others - came.hit))
    return counts, fault


def refuse_part(program: str, preloaded: str, case: "tuple[int, int]") -> Tried:
    """Refuses every so many growths of a run of many sessions, from one of the first on."""
    seed, part = case
    with chained_row(seed) as row:
        trial = Trial(program, preloaded, row, count_start(program, preloaded, row))
        reference, counts = Reference(row, lambda it: it.run(program).stdout), Counter()
        for number in count(trial.start + 1 + part, PARTS):
            ran, was_refused = trial.run(number)
            if not was_refused:
                return Tried(counts, row.fault(ran))
            if (ran.returncode, ran.stderr) != (0, b""):
                return Tried(counts, trial.refusal_fault(number, ran))
            more, fault = tell_of(reference, ran.stdout)
            counts.update(more)
            if fault:
                return Tried(counts, f"{fault}\n{trial.refusal_fault(number, ran)}")
    raise AssertionError("no end of growths")


class SparedSessions(ProgramCases):
    """Sessions next to one that runs out of memory."""

    def test_each_growth(self) -> None:
        """Whichever growth is refused, no session is affected that was spared, nor any that listens to spared ones alone."""
        cases = [(f"chained, {seed}, part {part}", (seed, part)) for seed in range(1, SEEDS + 1) for part in range(PARTS)]
        tried = self.check_each(cases, partial(refuse_part, self.program, library("refuse_growth")), lambda it: it.fault, ProcessPoolExecutor)
        counts = sum((it.counts for it in tried), Counter())
        self.tell(", ".join(f"{key}: {number:,}" for key, number in counts.items()))
        if not CASE:
            self.assertGreaterEqual(counts["told"], TOLD, "too few refusals were received")
            few = [key for key in ("unread", "hit", "spared", "listening", "beside") if counts[key] < OFTEN]
            self.assertEqual(few, [], "these are too few")


POSTS = 8
VALUES = list(range(1, POSTS + 1))
BURST = [{"emit": "told(int)", "args": [{"const": value}]} for value in VALUES]
DECLARED = [{
    "name": "Teller",
    "super": "QObject",
    "signals": ["told(int)"],
    "slots": [{"sig": "burst()", "body": BURST}, {"sig": "seen(int)", "body": []}],
}]
JOIN = {"do": "join", "from": "a", "name": "news", "types": ["int"], "object": 1, "method": "seen(int)"}
JOINERS = ("b", "c")


def steps_of_burst() -> "Iterator[tuple[dict, list[dict]]]":
    """Commands by which one session posts several times in one command, and others take what has arrived; each with the lines
    that it is answered by."""
    for session in ("a", *JOINERS):
        yield {"do": "new", "class": "Teller", "session": session}, [{"reply": 1}]
    yield {"do": "publish", "object": 1, "signal": "told(int)", "name": "news", "session": "a"}, [{"reply": True}]
    for session in JOINERS:
        yield {**JOIN, "session": session}, [{"reply": True}]
    yield {"do": "invoke", "object": 1, "method": "burst()", "args": [], "session": "a"}, [
        {"args": [], "call": "burst()", "object": 1, "sender": 0},
        {"reply": True},
    ]
    calls = [{"args": [value], "call": "seen(int)", "object": 1, "sender": 0} for value in VALUES]
    for session in JOINERS:
        yield {"do": "spin", "session": session}, [*calls, {"reply": {"events": POSTS, "left": 0, "lost": 0, "mismatched": 0}}]


def burst_row(room: Path) -> Row:
    """The row of these commands."""
    steps = list(steps_of_burst())
    wanted = [{**it, "session": command["session"]} for command, told in steps for it in told]
    return row_with_classes("posts in one command", [command for command, _ in steps], wanted, DECLARED, room)


def seen_by(answer: bytes) -> "list[int]":
    """The values of the calls in an answer."""
    return [it["args"][0] for it in map(json.loads, answer.splitlines()) if "call" in it]


class Posts(ProgramCases):
    """A command that runs out of memory between its posts."""

    def test_posts_before_a_refusal(self) -> None:
        """Those that were made by then have arrived, at all who join, and no others have."""
        room, preloaded = Path(self.enterContext(TemporaryDirectory(prefix="metad-posts-"))), library("refuse_growth")
        row = burst_row(room)
        trial, arrived = Trial(self.program, preloaded, row, count_start(self.program, preloaded, row)), []
        self.assertIsNone(row.fault(row.run(self.program)))
        for number in count(trial.start + 1):
            ran, was_refused = trial.run(number)
            if not was_refused:
                break
            *_, told, first, second = answers_in(ran.stdout)
            if told == line("E21", "a") and trial.answers[: len(trial.answers) - 3] == answers_in(ran.stdout)[:-3]:
                self.assertEqual(seen_by(first), seen_by(second), f"growth {number}")
                self.assertEqual(seen_by(first), VALUES[: len(seen_by(first))], f"growth {number}")
                arrived.append(len(seen_by(first)))
        self.tell(f"posts that have arrived, by the growth that was refused: {arrived}")
        self.assertEqual(arrived, sorted(arrived), "an earlier growth was refused, and more posts have arrived")
        self.assertEqual(sorted(set(arrived) - {POSTS}), list(range(POSTS)), "some number of posts never arrived")


def new(session: str) -> dict:
    return {"do": "new", "class": "Teller", "session": session}


def reply(session: str, value: object = 1) -> dict:
    return {"reply": value, "session": session}


def error(session: str, code: str) -> dict:
    return {"error": code, "session": session}


# a session, one that joins it, one that joins that one, and one that joins nobody
GIVEN = [
    *map(new, "abcd"),
    {**JOIN, "session": "b"},
    {**JOIN, "from": "b", "session": "c"},
    *map(new, "abcd"),
    {"do": "reset", "session": "a"},
    *map(new, "ad"),
]
BEGUN = [*map(reply, "abcd"), reply("b", True), reply("c", True)]
WANTED = [*BEGUN, *(reply(it, 2) for it in "abcd"), reply("a", True), reply("a"), reply("d", 3)]
MADE_UP = Row("made up", lines_of(GIVEN), lines_of(WANTED))
WITHOUT_SECOND_D = lines_of([*WANTED[:9], *WANTED[10:12], reply("d", 2)])
ENTERED = 6  # lines before the sessions' second objects

# what is written in place of the lines after the joins, which sessions are spared then, and whether that is allowed
RUNS = [
    ("nothing is refused", WANTED[ENTERED:], "abcd", True),
    ("the first one fails, and all that listen to it differ", [error("a", "E21"), reply("b", 9), reply("c", 9), *WANTED[9:]], "d", True),
    ("the first one fails, and so does one that does not listen", [error("a", "E21"), reply("b", 2), reply("c", 2), reply("d", 9), *WANTED[10:]], "d", False),
    ("the last in the chain fails", [reply("a", 2), reply("b", 2), error("c", "E21"), *WANTED[9:]], "abd", True),
    ("the last in the chain fails, and the one before it differs", [reply("a", 2), reply("b", 9), error("c", "E21"), *WANTED[9:]], "abd", False),
    ("the first one has failed, and goes on", [error("a", "E21"), *WANTED[7:9], reply("d", 2), error("a", "E21"), reply("a", 3), reply("d", 3)], "d", False),
    ("a session fails by a post", [reply("a", 2), error("b", "E20"), *WANTED[8:]], "ad", True),
    ("a line is not read", [*WANTED[6:9], error("-", "E21"), *WANTED[10:12], reply("d", 2)], "abcd", True),
    ("a line is not read, and was done", [*WANTED[6:9], error("-", "E21"), *WANTED[10:]], "abcd", False),
]


class Judged(Cases):
    """What is said of made-up runs."""

    def test_runs(self) -> None:
        """It is seen which sessions are spared, and where one of them is affected, or one that has failed goes on."""
        for name, lines, spared, is_allowed in RUNS:
            with self.subTest(case=name):
                reference, stdout = Reference(MADE_UP, lambda row: WITHOUT_SECOND_D), lines_of([*BEGUN, *lines])
                came = reference.judge(stdout)
                self.assertEqual(came.spared, set(spared))
                _, fault = tell_of(reference, stdout)
                self.assertEqual(fault is None, is_allowed, fault)
