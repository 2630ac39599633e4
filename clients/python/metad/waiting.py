"""Waits for the lines of a session, with a time limit.

In a live session they wait for the lines that come unasked, and the server is asked for nothing. In any other session the
server tells nothing unasked, so they spin, again and again, with pauses that grow.
"""

from __future__ import annotations

import time
from typing import TYPE_CHECKING, Callable, Iterator, Optional, Tuple, TypeVar

from .connection import Connection
from .errors import NotAnswered
from .hearing import Follower
from .lines import Call
from .once import Once

if TYPE_CHECKING:
    from .client import Session

SPIN_SECONDS = (0.001, 0.05)  # between two spins of a wait: at first, and at most

Done = TypeVar("Done")


class Patience:
    """How long a wait may go on, and how long the next pause of one that spins is."""

    def __init__(self, timeout: Optional[float]) -> None:
        self._until = None if timeout is None else time.monotonic() + timeout
        self._pause = SPIN_SECONDS[0]

    def left(self) -> Optional[float]:
        """The seconds that are left; None without an end."""
        return None if self._until is None else self._until - time.monotonic()

    def is_over(self) -> bool:
        """Whether the wait has to end."""
        left = self.left()
        return left is not None and left <= 0

    def pause(self) -> float:
        """The seconds until the next spin."""
        left, pause = self.left(), self._pause
        self._pause = min(2 * pause, SPIN_SECONDS[1])
        return pause if left is None else max(0, min(pause, left))


def news_of(connection: Connection) -> Tuple[Once, bool]:
    """What happens with the next news, and whether the session is live: then callbacks receive what has come by now."""
    news, is_live = connection.news(), connection.is_live
    if is_live:
        connection.tell()
    return news, is_live


def wait_until(session: Session, is_done: Callable[[], Done], timeout: Optional[float]) -> Done:
    """Waits until a function returns something true, and returns that; returns its last result if the time is over.

    The function is called whenever the session may have received something. `ConnectionClosed` if nothing more can come.
    """
    connection, patience = session.server.connection, Patience(timeout)
    while True:
        news, is_live = news_of(connection)
        if not is_live:
            session.spin()
        done = is_done()
        if done or patience.is_over():
            return done
        if connection.is_live:
            connection.check()
            news.wait(patience.left())
        else:
            time.sleep(patience.pause())


def not_in_time(timeout: Optional[float]) -> NotAnswered:
    """The exception for a predicate that did not come true in time."""
    return NotAnswered(f"what was waited for did not come true in {timeout} seconds")


class Calls(Follower, Iterator[Call]):
    """The calls of a session as they come. `Session.calls` makes it, to be iterated."""

    def __init__(self, session: Session, timeout: Optional[float]) -> None:
        super().__init__(session)
        self._session = session
        self._timeout = timeout

    def __iter__(self) -> Calls:
        return self

    def __next__(self) -> Call:
        if not wait_until(self._session, self._has_come, self._timeout):
            raise StopIteration
        return self._came.popleft()
