"""How a slice is shown: the lines of the record with marks, counts by session, and whether the session receives the same."""

from __future__ import annotations

from typing import Dict, Iterable, Iterator, List, Optional, Sequence

from common.files import Said
from explaining.words import counted

from .comparing import Difference
from .record import Entry

KEPT, LEFT_OUT, NO_COMMAND = b"+ ", b"- ", b"? "
MARKS = {KEPT: "kept", LEFT_OUT: "left out", NO_COMMAND: "no command, and left out"}
ENDED = b"(nothing more)"


def mark_of(entry: Entry) -> bytes:
    return (KEPT if entry.is_kept else LEFT_OUT) if entry.is_command else NO_COMMAND


def marked(entries: Iterable[Entry]) -> Iterator[Said]:
    """The lines of the record, each with its mark."""
    return (mark_of(it) + it.raw for it in entries)


def kept_of(entries: Sequence[Entry]) -> str:
    """How many commands there are, and how many of them are kept."""
    number, kept = len(entries), sum(it.is_kept for it in entries)
    return f"{counted(number, 'command')}, {'all' if kept == number else kept or 'none'} kept"


def counts(entries: Sequence[Entry]) -> Iterator[Said]:
    """How much is kept of each session, in the order in which they come, and of all together."""
    by_session: Dict[str, List[Entry]] = {}
    for it in entries:
        if it.is_command:
            by_session.setdefault(it.session, []).append(it)
    yield from (f"session {name}: {kept_of(its)}" for name, its in by_session.items())
    commands = [it for its in by_session.values() for it in its]
    if len(by_session) > 1:
        yield f"all sessions: {kept_of(commands)}"
    others = len(entries) - len(commands)
    if others:
        yield f"{counted(others, 'line')} {'are' if others > 1 else 'is'} no command, and left out"


def compared(name: str, told: Sequence[bytes], found: Optional[Difference]) -> Iterator[Said]:
    """Whether the session receives the same, or the first line that differs."""
    if found is None:
        yield f"the slice tells {name} the same: {counted(len(told), 'line')}"
        return
    yield f"the slice tells {name} something else, first in line {found.number} of what {name} receives:"
    yield b"by the record: " + (ENDED if found.by_record is None else found.by_record)
    yield b"by the slice:  " + (ENDED if found.by_slice is None else found.by_slice)
