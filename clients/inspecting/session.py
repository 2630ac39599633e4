"""What is known of a session, from the lines that were given for it and told to it."""

from __future__ import annotations

from collections import deque
from dataclasses import dataclass, field
from typing import Any, Deque, Dict, NamedTuple, Optional, Set, Tuple

from common.holding import Held
from common.values import Binding, Spot

__all__ = ["Binding", "Posting", "Session"]

POSTED_MOST = 20_000  # postings that are kept until they are met


class Posting(NamedTuple):
    """An event that waits, or may wait: who has posted it, by which command and call there."""

    object: int
    method: str  # empty for a deletion
    args: Any  # a list, or UNKNOWN
    sender: int
    session: str
    entry: int
    call: int  # of the entry, or -1 where the command itself has posted it
    path: Tuple[Spot, ...]  # the signals that have led to it
    is_sure: bool
    key: Optional[int] = None  # of the connection that has posted it


@dataclass(eq=False)
class Session(Held):
    """What is known of a session: what it holds, the events that wait, and how many lines it received."""

    name: str = ""
    sources: Set[str] = field(default_factory=set)  # the sessions that it is known to listen to, by so many joins
    joined: int = 0
    postings: Deque[Posting] = field(default_factory=lambda: deque(maxlen=POSTED_MOST))
    is_gone: bool = False
    lines: int = 0
    commands: int = 0
    version: int = 0  # grows with each change
    rates: Tuple[int, int, int] = (0, 0, 0)  # a second, the lines in it, and those in the one before
    since: Dict[str, int] = field(default_factory=dict)  # the commands since which counts are not known for certain

    def count_lines(self, number: int, second: int) -> None:
        """Counts lines that came in a second."""
        self.lines += number
        at, now, before = self.rates
        if second == at:
            self.rates = (at, now + number, before)
        else:
            self.rates = (second, number, now if second == at + 1 else 0)

    def rate(self, second: int) -> int:
        """How many lines came in the last whole second."""
        at, now, before = self.rates
        return before if second == at else now if second == at + 1 else 0

    def note_doubts(self, number: int) -> None:
        """Keeps in mind since which command counts are not known for certain."""
        for key, is_sure in (("connections", self.are_connections_sure), ("queued", self.is_queue_sure)):
            if is_sure:
                self.since.pop(key, None)
            else:
                self.since.setdefault(key, number)

    def fail(self) -> None:
        super().fail()
        self.postings.clear()
