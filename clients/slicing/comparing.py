"""Whether a session receives the same from its slice as from the whole record."""

from __future__ import annotations

from dataclasses import dataclass
from itertools import zip_longest
from typing import Iterable, List, Optional, Sequence

from .record import Entry, Told


def told_to(name: str, answers: Iterable[Sequence[Told]]) -> List[bytes]:
    """The lines that a session receives."""
    return [it.raw for answer in answers for it in answer if it.session == name]


def told_by_record(name: str, entries: Iterable[Entry]) -> List[bytes]:
    """The lines that a session receives for the commands of a record. Answers to lines that are no commands are left out,
    because no slice has these."""
    return told_to(name, (it.told for it in entries if it.is_command))


@dataclass(frozen=True)
class Difference:
    """The first line, counted from 1, in which a session receives something else from its slice; None where one has ended."""

    number: int
    by_record: Optional[bytes]
    by_slice: Optional[bytes]


def difference(by_record: Sequence[bytes], by_slice: Sequence[bytes]) -> Optional[Difference]:
    """In what two lists of lines differ first, or None."""
    pairs = enumerate(zip_longest(by_record, by_slice), 1)
    return next((Difference(number, whole, part) for number, (whole, part) in pairs if whole != part), None)
