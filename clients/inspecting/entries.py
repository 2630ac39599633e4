"""Commands with their calls, warnings and replies, as they are kept for the page."""

from __future__ import annotations

from collections import deque
from dataclasses import dataclass, field
from typing import Any, Deque, Dict, List, Optional, Tuple

from common.asked import word_of

CALLS_MOST = 2_000  # calls of a command that are kept
TEXT_MOST = 65_536  # bytes of a line that are kept
ENTRIES_MOST = 20_000
BYTES_MOST = 64 * 1024 * 1024

Step = Tuple[int, str, Optional[int]]  # an object, its signal, and the connection that has called that


@dataclass(eq=False)
class Call:
    """A call of a slot or of a functor, and what has led to it as far as that is known."""

    object: int
    call: str
    args: List[Any]
    sender: int
    parent: int = -1  # the call within which it was made, or -1 for the command itself
    path: Tuple[Step, ...] = ()  # the signals that have led to it
    connection: Optional[int] = None  # its number
    posted: Optional[Tuple[int, int, str]] = None  # the entry, the call there and the session that have posted it
    is_traced: bool = False  # whether it is known what has led to it
    is_only: bool = False  # whether nothing else could have
    class_name: Optional[str] = None


@dataclass(eq=False)
class Warned:
    """A warning, and after how many calls it came."""

    code: str
    object: int
    property: str
    behind: int


@dataclass(eq=False)
class Emission:
    """A signal that was sent, by the command or one of its calls, and the calls that it has made."""

    object: int
    signal: str
    call: int  # that has sent it, or -1
    calls: List[int] = field(default_factory=list)
    events: List[Tuple[int, int]] = field(default_factory=list)  # calls of later commands, which it has posted


@dataclass(eq=False)
class Entry:
    """A command, and its calls, warnings and reply."""

    number: int
    session: str
    raw: bytes
    asked: Dict[str, Any]
    given: int  # when, in millionths of a second
    by_inspector: bool = False
    ended: int = 0
    taken: int = 0  # how long the server was at it, by what the front saw
    calls: List[Call] = field(default_factory=list)
    warnings: List[Warned] = field(default_factory=list)
    emissions: List[Emission] = field(default_factory=list)
    changes: List[Tuple[Tuple[int, str], Any]] = field(default_factory=list)  # values of properties that it has made known
    answer: bytes = b""
    reply: Any = None
    error: Optional[str] = None
    lines: int = 0
    size: int = 0
    left_out: int = 0  # calls that were not kept
    word: str = ""  # what it asks to do

    def __post_init__(self) -> None:
        self.word = word_of(self.asked)

    def emission_of(self, number: int, signal: str, call: int) -> Emission:
        """The newest emission of a signal by a call, or by the command; one that nothing was known of is known now."""
        for it in reversed(self.emissions):
            if (it.object, it.signal, it.call) == (number, signal, call):
                return it
        self.emissions.append(Emission(number, signal, call))
        return self.emissions[-1]


class Entries:
    """The newest commands, by their numbers from 1 on."""

    def __init__(self, most: int = ENTRIES_MOST) -> None:
        self.most = most
        self.kept: Deque[Entry] = deque()
        self.size = 0
        self.count = 0  # commands so far

    def add(self, entry: Entry) -> None:
        """Keeps a command, and lets the oldest go that there is no room for."""
        self.kept.append(entry)
        self.size += entry.size
        while len(self.kept) > self.most or self.size > BYTES_MOST and len(self.kept) > 1:
            self.size -= self.kept.popleft().size

    def first(self) -> int:
        """The number of the oldest that is kept."""
        return self.kept[0].number if self.kept else self.count + 1

    def get(self, number: int) -> Optional[Entry]:
        """The command of this number, where it is kept. Between the kept numbers there are some that were left out."""
        low, high = 0, len(self.kept)
        while low < high:
            middle = (low + high) // 2
            if self.kept[middle].number < number:
                low = middle + 1
            else:
                high = middle
        found = self.kept[low] if low < len(self.kept) else None
        return found if found is not None and found.number == number else None
