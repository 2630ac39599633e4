"""Runs of the program with one of its requests for memory refused, and their allowed results.

The answer to a command is all that it prints: calls and warnings, and then its reply or its error. A refused growth may
have one of these KINDS of results:

- not seen: the run is the row's;
- session failed: one command is answered by E21 alone, every later one of its session by E20, and all
  others as in the row, also the session's lines that are no commands;
- receiver failed: a session fails that a post reaches; the command that posts is answered as in the row,
  and every later one of that session by E20;
- line lost: a line that was being read is answered by E21 for the session `-`, and all others as if it
  had not been there;
- session not entered: a session that had no command before cannot be entered; the command is answered by
  E21 for its session, and all others as if it had not been there;
- program ended: with status 5 and a prefix of the row's answer;
- start refused: it ends so before it reads a line, while it makes its classes, its functors, its server and
  its buffers.

Where sessions are joined or reset, the row does not have what others receive after a failure, and a failed
session after its `reset`: the plain program says what it is. Anything else is wrong. In every case a session
that listens to no session that was hit receives what the row has for it.
"""

import json
import os
from collections import Counter, defaultdict
from dataclasses import dataclass, field, replace

from tests.plain.failing import FAILED, LINE_LOST, NOT_ENTERED, RECEIVER_FAILED, Followed, followed
from tests.plain.lines import NOBODY, command_of, server_of

from .differences import LAST, difference, shown_input
from .lines import is_blank, lines_in, lines_of

MOST = 100_000
LARGE = 4 * 1024  # bytes of a class file
LONG = 1_000  # lines
PART, LONG_PART = 50, 5
OUT_OF_MEMORY = 5
COMPLAINT = b"metad: out of memory\n"
NOT_SEEN, ENDED, NOT_STARTED = "not seen", "program ended", "start refused"
KINDS = (NOT_SEEN, FAILED, RECEIVER_FAILED, LINE_LOST, NOT_ENTERED, ENDED, NOT_STARTED)
OF_MANY = (b'"join"', b'"reset"')  # words of commands after which the row does not say what sessions receive when one fails


def line(code, session):
    return lines_of([{"error": code, "session": session}])


def answers_in(text):
    """The answer to each command: the lines that it prints; the last is its reply or its error."""
    answers, is_whole = [], True
    for it in lines_in(text):
        if is_whole:
            answers.append(b"")
        answers[-1] += it
        is_whole = it.startswith(LAST)
    return answers


def session_of(answer):
    return json.loads(answer.splitlines()[-1])["session"]


def is_command_of(session, answer):
    """Whether a session has given a command that is answered so. What is no command is answered by E02."""
    return session_of(answer) == session and answer != line("E02", session)


def with_failed_session(answers, at):
    """The row's answers, where the session of one of them has failed there. What is no command stays E02."""
    session = session_of(answers[at])
    later = [line("E20", session) if is_command_of(session, it) else it for it in answers[at + 1 :]]
    return answers[:at] + [line("E21", session)] + later


def told_to(answers):
    """The lines that each session receives, by its name."""
    told = defaultdict(bytes)
    for it in answers:
        told[session_of(it)] += it
    return told


def joins_in(lines):
    """The sessions that lines join by a command, each with the one that it joins."""
    commands = filter(None, (command_of(it.removesuffix(b"\n")) for it in lines))
    return {(it["session"], it["from"]) for it in commands if it["do"] == "join"}


def listeners(joins, name):
    """A session, and all that listen to it by joins, of others that listen to it too."""
    found = {name}
    while more := {session for session, source in joins if source in found} - found:
        found |= more
    return found


@dataclass
class Tried:
    """The results of refusing one growth after another, how often a session that was not hit received what the row has for
    it, and what is wrong, or None."""

    outcomes: Counter = field(default_factory=Counter)
    fault: str | None = None
    neighbours: int = 0


class Trial:
    """A row whose growths are refused by a library that is preloaded. Its start makes so many of them."""

    def __init__(self, program, library, row, start=0):
        self.program, self.library, self.row, self.start = program, library, row, start
        self.lines = [it for it in lines_in(row.given) if not is_blank(it)]
        self.answers = answers_in(row.stdout)
        self.told, self.joins = told_to(self.answers), joins_in(self.lines)
        self.without, self.kinds, self.neighbours = {}, {}, 0

    def is_plain(self):
        """Whether each line that is not passed over has one answer, or none is read."""
        return self.row.status != 0 or len(self.lines) == len(self.answers)

    def run(self, number):
        """Runs the row with this growth refused, and tells whether the run reached it."""
        reader, writer = os.pipe()
        added = {"LD_PRELOAD": self.library, "REFUSE_AT": str(number), "REFUSE_NOTE": str(writer)}
        try:
            ran = self.row.run(self.program, env={**os.environ, **added}, pass_fds=[writer])
        finally:
            os.close(writer)
        with os.fdopen(reader, "rb") as note:
            return ran, note.read() != b""

    def answers_without(self, at):
        """The answers to the input without one of its lines."""
        if at not in self.without:
            given = b"".join(self.lines[:at] + self.lines[at + 1 :])
            self.without[at] = answers_in(replace(self.row, given=given).run(self.program).stdout)
        return self.without[at]

    def has_many(self):
        """Whether sessions are joined or reset."""
        return any(word in self.row.given for word in OF_MANY)

    def failed(self, answers, at):
        """The kind of a refusal after which a session has failed or was not entered, if that leads to these answers; the
        first that is not as in the row is given. None if it does not."""
        if not self.has_many():
            return FAILED if answers == with_failed_session(self.answers, at) else None
        told = tuple(answers)
        if told not in self.kinds:
            found = followed(server_of(self.row, Followed), [it.removesuffix(b"\n") for it in self.lines], answers)
            self.kinds[told] = next((it.refusals[0].kind for it in found if len(it.refusals) == 1), None)
        return self.kinds[told]

    def beside(self, name):
        """The sessions of the row that do not listen to one."""
        return self.told.keys() - listeners(self.joins, name) - {NOBODY}

    def outcome(self, ran, number=None):
        """The kind of result of refusing this growth, or None if it is not allowed."""
        if ran.returncode == OUT_OF_MEMORY:
            if ran.stderr != COMPLAINT or not self.row.stdout.startswith(ran.stdout):
                return None
            return ENDED if number is None or number > self.start else NOT_STARTED if not ran.stdout else None
        if self.row.passes(ran):
            return NOT_SEEN
        answers = answers_in(ran.stdout)
        if self.row.status or ran.returncode or ran.stderr or len(answers) != len(self.answers):
            return None
        at = next(at for at, (got, want) in enumerate(zip(answers, self.answers)) if got != want)
        told, neighbours = told_to(answers), self.beside(session_of(self.answers[at]))
        if any(told[it] != self.told[it] for it in neighbours):
            return None
        self.neighbours += len(neighbours)
        return self.outcome_at(answers, at)

    def outcome_at(self, answers, at):
        """What a refusal led to, where this is the first of the answers that is not as in the row."""
        others = answers[:at] + answers[at + 1 :]
        if answers[at] == line("E21", NOBODY):
            return LINE_LOST if others == self.answers_without(at) else None
        if failed := self.failed(answers, at):
            return failed
        session = session_of(self.answers[at])
        is_first = not any(is_command_of(session, it) for it in self.answers[:at])
        if is_first and answers[at] == line("E21", session) and others == self.answers_without(at):
            return NOT_ENTERED
        return None

    def count(self):
        """How many growths a run makes."""
        made, most = 0, 1
        while self.run(most)[1]:
            made, most = most, 2 * most
        while most - made > 1:
            middle = (made + most) // 2
            made, most = (middle, most) if self.run(middle)[1] else (made, middle)
        return made

    def refuse_each(self, first, part=None):
        """Refuses one growth after another, from the first one on; with a part, at distances that grow by it."""
        outcomes, number = Counter(), first
        for _ in range(MOST):
            ran, was_refused = self.run(number)
            if not was_refused:
                fault = self.row.fault(ran)
                return Tried(outcomes, fault and f"without a refusal {fault}", self.neighbours)
            outcome = self.outcome(ran, number)
            if outcome is None:
                return Tried(outcomes, self.refusal_fault(number, ran), self.neighbours)
            outcomes[outcome] += 1
            number += 1 + (number // part if part else 0)
        return Tried(outcomes, "no end of growths", self.neighbours)

    def refuse_one(self, number):
        """Refuses this growth."""
        ran, _was_refused = self.run(number)
        outcome = self.outcome(ran, number)
        return Tried(Counter([outcome]), None if outcome else self.refusal_fault(number, ran), self.neighbours)

    def refusal_fault(self, number, ran):
        """What is said of a refused growth that led to something else."""
        said = difference(self.row.stdout, ran.stdout)
        wrote = f"status {ran.returncode}, on standard error {ran.stderr[-300:]!r}, on standard output {said}"
        return f"growth {number} refused: {wrote}\n{shown_input(self.row.given)}"


def classes_of(row):
    """The class files among a row's words."""
    paths = [row.folder / word for word in row.words]
    return tuple(path.read_bytes() for path in paths if path.is_file())


def start_of(row):
    """What the program's start depends on: rows that agree in it start alike."""
    return row.words, classes_of(row)


def count_start(program, library, row):
    """How many growths a row's start makes."""
    return Trial(program, library, replace(row, given=b"", stdout=b"")).count()


def refuse_growths(program, library, row, start, first):
    """Refuses the growths of a row, whose start makes so many, from the first one that is to be refused on."""
    trial = Trial(program, library, row, start)
    if not trial.is_plain():
        return Tried(fault="it has not one answer a line")
    if len(trial.lines) > LONG:
        return trial.refuse_each(first, LONG_PART)
    return trial.refuse_each(first, PART if sum(map(len, classes_of(row))) > LARGE else None)


def missing(outcomes):
    """What should have come of some refused growth and never did."""
    return [kind for kind in KINDS if not outcomes[kind]]
