"""A record with the answers to its lines, and which of them a slice keeps."""

from __future__ import annotations

import io
import json
from dataclasses import dataclass
from typing import Iterator, List, NamedTuple, Optional, Sequence

from explaining.known_commands import LINE_BYTES
from explaining.lines import NO_SESSION
from common.ending import Stop

NO_COMMAND = ("E01", "E02")  # answers to lines that are no commands


class Told(NamedTuple):
    """A line that the program has written, without its end: to which session, and whether it ends an answer."""

    raw: bytes
    session: str
    error: Optional[str]
    ends: bool


@dataclass
class Entry:
    """A line of the record, without its end, and its answers. Blank lines are left out."""

    raw: bytes
    told: List[Told]
    is_kept: bool = False

    @property
    def session(self) -> str:
        return self.told[-1].session

    @property
    def is_command(self) -> bool:
        return self.session != NO_SESSION and self.told[-1].error not in NO_COMMAND


def lines_in(text: bytes) -> Iterator[bytes]:
    """The lines of a text, without their ends."""
    return (it[:-1] if it.endswith(b"\n") else it for it in io.BytesIO(text))


def is_blank(line: bytes) -> bool:
    """Whether a line is passed over."""
    return len(line) <= LINE_BYTES and not line.strip(b" \t\r")


def told_of(raw: bytes) -> Told:
    """What a line of the program is."""
    try:
        held = json.loads(raw)
        return Told(raw, held["session"], held.get("error"), "reply" in held or "error" in held)
    except (ValueError, KeyError, TypeError, AttributeError, RecursionError):
        raise Stop("the program writes what is no line of metad") from None


def answers_in(text: bytes) -> Iterator[List[Told]]:
    """The answers to each line of an input: calls and warnings, and then a reply or an error."""
    answer: List[Told] = []
    for raw in lines_in(text):
        answer.append(told_of(raw))
        if answer[-1].ends:
            yield answer
            answer = []
    if answer:
        raise Stop("the program has not ended its last answer")


def entries_of(record: bytes, told: bytes) -> List[Entry]:
    """The lines of a record with what the program tells to them."""
    lines = [it for it in lines_in(record) if not is_blank(it)]
    answers = list(answers_in(told))
    if len(lines) != len(answers):
        raise Stop("the program does not answer each line of the record once")
    return [Entry(raw, answer) for raw, answer in zip(lines, answers)]


def mark(entries: Sequence[Entry], kept: bytes) -> None:
    """Marks the commands that a slice keeps, which are those of the record in their order.

    Of each session a slice keeps the first commands, up to some one. So of commands that are the same to the byte the first
    ones are meant.
    """
    left = iter(entries)
    for raw in lines_in(kept):
        found = next((it for it in left if it.is_command and it.raw == raw), None)
        if found is None:
            raise Stop("the program keeps what is no command of the record")
        found.is_kept = True
