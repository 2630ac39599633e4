"""A server inside this program, by the library `libmetad`.

It is a `Server` like the one that `start` returns, without a process, a pipe or a thread: a command is answered before the
call that gives it returns. There is no front, so there are no live sessions and no monitors: events wait for `spin`.
"""

from __future__ import annotations

import io
from functools import partial
from itertools import chain
from pathlib import Path
from tempfile import TemporaryDirectory
from typing import TYPE_CHECKING, Dict, Optional, Sequence

from .client import Server
from .connection import Connection
from .errors import LibraryMissing, ServerGone
from .hearing import Hearing
from .holding import class_words
from .lines import Value
from .pairing import Answer, Fault, reply_of
from .programs import Word
from .streams import SINK
from .tools import explained

if TYPE_CHECKING:
    from .library import Inside

TURNS = 10_000
"""The turns of each command, as the program has them without `--turns`."""


class InsideConnection(Connection):
    """A connection with a server of the library, whose answers are there when a line was given."""

    _is_heard = False

    def __init__(self, inside: Inside) -> None:
        super().__init__(io.BytesIO(), io.BytesIO())
        self._inside = inside

    def open(self, is_heard: bool = False) -> None:
        """Begins to write and to read. Where lines are heard as they come, they are taken as soon as they are given."""
        self._files = self._at_once = self._inside
        self._is_heard = is_heard

    def give_lines(self, answers: Sequence[Answer], text: bytes) -> None:
        self.give_all(answers, (text,))

    def give_all(self, answers: Sequence[Answer], parts: Sequence[bytes]) -> None:
        super().give_all(answers, parts)
        if self._is_heard:
            self.look()

    def ask(self, session: Hearing, line: bytes, do: str, keys: Dict[str, Value]) -> Value:
        """Gives the line of a session's command; returns the value of the reply, as soon as the library has answered.

        The line is given and its answer fetched by one call. All threads wait meanwhile, so no other one can read between.
        """
        inside, answer = self._inside, Answer(session)
        with self._writing:
            is_alone = not (self._under_way or self._came or self._since or self._is_hung_up or self._unwritten)
            if is_alone:
                SINK.extend(chain(map(self._under_way.append, (answer,)), inside.answering(line)))
        if not is_alone:
            return super().ask(session, line, do, keys)
        found = self._take_first(inside, answer, session._ending)
        if found is None:
            return reply_of(self.settle(answer, None, do), do, keys)
        if self._heard:
            self.tell_before(answer)
        return found[0]

    def abandon(self) -> None:
        self.hang_up()

    def _shut(self) -> None:
        self._inside.end()

    def _end(self) -> Fault:
        failure = self._inside.failure()
        if failure:
            return partial(ServerGone, *failure)
        return super()._end()


def opened(library: Optional[Word], classes: Optional[Dict[str, Value]], turns: int) -> InsideConnection:
    """A connection that is not open yet, with a new server."""
    if not 0 <= turns < 1 << 32:
        raise ValueError(f"turns are a number from 0 to 4,294,967,295, and not {turns}")
    try:
        from .library import Inside, library_at
    except ImportError as error:
        raise LibraryMissing(f"this Python cannot use libraries of C: {error}") from None
    loaded = library_at(library)
    with TemporaryDirectory(prefix="metad-") as folder:
        words = class_words(classes, folder)
        with explained(words):
            return InsideConnection(Inside(loaded, Path(words[0]).read_bytes() if words else b"", turns))


def inside(library: Optional[Word] = None, *, classes: Optional[Dict[str, Value]] = None, turns: int = TURNS) -> Server:
    """Opens a server inside this program, by the library `libmetad`: at a path, or wherever it is found.

    `classes` is what a class file holds, and each command has so many turns for the calls that it causes. It raises
    `LibraryMissing` where there is no library, `ClassFileRefused` where the classes are refused, and `NotStarted` where
    there is no memory. A command holds the interpreter while it is done, so other threads of Python wait; fewer turns bound
    that.
    """
    connection = opened(library, classes, turns)
    connection.open()
    return Server.of(connection)
