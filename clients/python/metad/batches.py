"""Commands that are sent together, whose answers are handed out when all have come.

    with session.batch() as batch:
        made = [batch.new("Cell") for _ in range(100)]
    print([it.result() for it in made])
"""

from __future__ import annotations

from typing import TYPE_CHECKING, Any, Generic, Iterator, List, Optional, TypeVar

from .asking import Asked
from .errors import MetadError, NotAnswered
from .lines import Value, command_line
from .pairing import Answer, reply_of
from .session_commands import Batching
from .streams import AT_ONCE

if TYPE_CHECKING:
    from types import TracebackType
    from typing import Type

    from .aio import Session as AioSession
    from .client import Session

    Sessions = TypeVar("Sessions", Session, AioSession)
else:
    Sessions = TypeVar("Sessions")

Replied = TypeVar("Replied")


class Promised(Answer, Generic[Replied]):
    """The answer to a command of a batch. It is there when the block of the batch has ended."""

    def __init__(self, batch: BaseBatch[Any], asked: Asked[Replied]) -> None:
        self.asking = batch.session.receivers
        self._batch = batch
        self._do, self._keys = asked.do, asked.keys

    def done(self) -> bool:
        """Whether the answer is there, or will not come any more."""
        return self._batch.has_ended and self._has_come

    def result(self) -> Replied:
        """The value of the reply, or raises `Refused`. `NotAnswered` before the block has ended."""
        if not (self._batch.has_ended and self._has_come):
            raise NotAnswered(f"no answer to {self._do} yet: a batch has its answers when its block has ended")
        line = self._batch.session.server.connection.settled(self)
        replied: Replied = reply_of(line, self._do, self._keys)
        return replied

    def error(self) -> Optional[MetadError]:
        """What `result` raises; None where it returns a value."""
        try:
            self.result()
        except MetadError as error:
            return error
        return None


class BaseBatch(Batching, Generic[Sessions]):
    """A batch of commands of a session. It has a method for each command, which returns a `Promised` at once.

    The commands are sent in their order while the block runs, many by one write. No command can use the result of another
    one of the batch. If the block is left by an exception, the commands before it are sent, and not waited for.
    """

    def __init__(self, session: Sessions, timeout: Optional[float]) -> None:
        self.session: Sessions = session
        """The session that gives the commands."""
        self.has_ended = False
        """Whether the block has ended."""
        self._timeout = timeout
        self._promised: List[Promised[Any]] = []
        self._lines: List[bytes] = []  # of the last commands, that were not given yet
        self._size = 0

    def __iter__(self) -> Iterator[Promised[Any]]:
        """The answers, in the order of the commands."""
        return iter(self._promised)

    def command(self, do: str, **keys: Value) -> Promised[Value]:
        """Adds a command by its word and its keys, like `send` of a session."""
        return self.ask(Asked(do, **keys))

    def ask(self, asked: Asked[Replied]) -> Promised[Replied]:
        """Adds a command that was built by `metad.commands`."""
        if self.has_ended:
            raise MetadError("the block of this batch has ended: begin another one")
        line = command_line(self.session.name, asked.do, asked.keys)
        if self._size + len(line) > AT_ONCE:
            self._send()
        promised = Promised(self, asked)
        self._lines.append(line)
        self._size += len(line)
        self._promised.append(promised)
        return promised

    def _send(self) -> None:
        """Sends what was added, and takes what has come."""
        connection = self.session.server.connection
        answers, text = tuple(self._promised[-len(self._lines) :]), b"".join(self._lines)
        self._lines, self._size = [], 0
        connection.give_lines(answers, text)
        connection.look()

    def _end(self, error: Optional[BaseException]) -> Optional[Answer]:
        """Sends the rest; the answer that has to be waited for, if any."""
        if self._lines:
            self._send()
        self.has_ended = True
        return self._promised[-1] if self._promised and error is None else None


class Batch(BaseBatch["Session"]):
    """A batch of commands, whose block waits for all answers at its end. It is made by `Session.batch`."""

    def __enter__(self) -> Batch:
        return self

    def __exit__(
        self, kind: Optional[Type[BaseException]], error: Optional[BaseException], trace: Optional[TracebackType]
    ) -> None:
        last = self._end(error)
        if last is not None:
            self.session.server.connection.await_answer(last, self._timeout)


class AioBatch(BaseBatch["AioSession"]):
    """A batch of commands, whose block awaits all answers at its end. It is made by `aio.Session.batch`."""

    async def __aenter__(self) -> AioBatch:
        return self

    async def __aexit__(
        self, kind: Optional[Type[BaseException]], error: Optional[BaseException], trace: Optional[TracebackType]
    ) -> None:
        last = self._end(error)
        if last is not None:
            await self.session._came(last, self._timeout)
