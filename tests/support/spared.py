"""Which sessions a run has spared where memory was short, and whether each of them receives what it otherwise would.

A session is spared where it, and every session that it joins, directly or through others, has never been answered by E21 or
E20. It receives byte for byte what it receives in a run with ample memory on the same input without the lines that were
answered by E21 for the session `-`, which were not read.
"""

from __future__ import annotations

import re
from collections import defaultdict
from dataclasses import dataclass, field, replace
from typing import Callable, Iterable, Iterator

from tests.plain.lines import NOBODY, command_of

from .growths import answers_in, joins_in, line
from .lines import is_blank, lines_in
from .program import Row

HITS = (b'{"error":"E21",', b'{"error":"E20",')
UNREAD = line("E21", NOBODY)
SESSION = re.compile(rb'"session":"([^"]*)"')  # which no text holds, since its quotes would be escaped
OF_JOINS = (b"join", b"\\u")  # a line with neither joins nothing


def session_of(answer: bytes) -> str:
    """The session that an answer is for."""
    return SESSION.search(answer, answer.rindex(b"\n", 0, -1) + 1 if answer.count(b"\n") > 1 else 0)[1].decode()


def sources_of(joins: "set[tuple[str, str]]", name: str) -> "set[str]":
    """A session, and all that it joins, directly or through others."""
    found = {name}
    while more := {source for session, source in joins if session in found} - found:
        found |= more
    return found


def hit_in(answers: Iterable[bytes]) -> "set[str]":
    """The sessions whose failure some answer reports."""
    return {session_of(it) for it in answers if it.startswith(HITS)} - {NOBODY}


def told_in(answers: Iterable[bytes]) -> "dict[str, bytes]":
    """The lines that each session receives."""
    told: "dict[str, bytes]" = defaultdict(bytes)
    for answer in answers:
        told[session_of(answer)] += answer
    return told


def answers_of(text: bytes) -> "dict[str, list[bytes]]":
    """The answers to each session, in their order."""
    found: "dict[str, list[bytes]]" = defaultdict(list)
    for answer in answers_in(text):
        found[session_of(answer)].append(answer)
    return found


def failure_faults(lines: Iterable[bytes], answers: Iterable[bytes]) -> Iterator[str]:
    """What is wrong with the answers to sessions that have failed: each command but a `reset` is answered by E20."""
    entered, failed = set(), set()
    for given, answer in zip(lines, answers):
        command = None if answer == UNREAD else command_of(given.rstrip(b"\n"))
        if command is None:
            continue
        name, is_hit = command["session"], answer in (line("E20", command["session"]), line("E21", command["session"]))
        if name in failed and not is_hit and command["do"] != "reset":
            yield f"{name} has failed, and receives {answer[:300]!r}"
        if not is_hit:
            failed.discard(name)
        elif name in entered or answer == line("E20", name):
            failed.add(name)
        entered |= set() if is_hit else {name}


@dataclass
class Spared:
    """The sessions that a run has spared, those that were hit or have joined one that was, the lines that were not read, and
    what is wrong, or None."""

    spared: "set[str]" = field(default_factory=set)
    others: "set[str]" = field(default_factory=set)
    hit: "set[str]" = field(default_factory=set)
    unread: "tuple[int, ...]" = ()
    fault: "str | None" = None


class Reference:
    """What the sessions of a row receive where memory is ample, also without some of its lines. `run` runs a row."""

    def __init__(self, row: Row, run: "Callable[[Row], bytes]"):
        self.row, self.run = row, run
        self.lines = [it for it in lines_in(row.given) if not is_blank(it)]
        self.joins = joins_in(it for it in self.lines if any(word in it for word in OF_JOINS))
        self.names = told_in(answers_in(row.stdout)).keys() - {NOBODY}
        self.written = {(): row.stdout}
        self.told = {}

    def stdout_without(self, unread: "tuple[int, ...]") -> bytes:
        """What is written where these lines are left out."""
        if unread not in self.written:
            left = set(unread)
            given = b"".join(it for at, it in enumerate(self.lines) if at not in left)
            self.written[unread] = self.run(replace(self.row, given=given))
        return self.written[unread]

    def told_without(self, unread: "tuple[int, ...]") -> "dict[str, bytes]":
        """What each session receives where these lines are left out."""
        if unread not in self.told:
            self.told[unread] = told_in(answers_in(self.stdout_without(unread)))
        return self.told[unread]

    def judge(self, stdout: bytes) -> Spared:
        """What a run to its end has spared, which wrote this."""
        answers = answers_in(stdout)
        if len(answers) != len(self.lines):
            return Spared(fault=f"{len(answers)} answers to {len(self.lines)} lines")
        unread = tuple(at for at, it in enumerate(answers) if it == UNREAD)
        told, wanted, hit = told_in(answers), self.told_without(unread), hit_in(answers)
        spared = {name for name in self.names if not sources_of(self.joins, name) & hit}
        wrong = sorted(name for name in spared if told.get(name, b"") != wanted.get(name, b""))
        return Spared(spared, self.names - spared, hit, unread, f"told other lines: {wrong}" if wrong else None)
