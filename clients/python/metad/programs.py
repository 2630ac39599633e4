"""Connections with servers that are started here."""

from __future__ import annotations

import subprocess
import tempfile
from functools import partial
from os import PathLike
from typing import IO, Optional, Sequence, Union

from .connection import Connection
from .errors import ClassFileRefused, NotStarted, ServerGone
from .lines import NO_COMMAND
from .pairing import Answer, Fault

Word = Union[str, "PathLike[str]"]
"""A word of a command line, or a path."""


class ProgramConnection(Connection):
    """A connection with a server that is started here.

    It is in a session of the system of its own, so that an interrupt from the terminal does not end it. The end of its
    input does, and so does the end of this process.
    """

    _ends_when_hung_up = True

    def __init__(self, words: Sequence[Word]) -> None:
        self._errors: IO[bytes] = tempfile.TemporaryFile()
        self._status: Optional[int] = None
        try:
            pipe = subprocess.PIPE
            self._process = subprocess.Popen(
                words, stdin=pipe, stdout=pipe, stderr=self._errors, start_new_session=True
            )
        except BaseException:
            self._errors.close()
            raise
        assert self._process.stdout and self._process.stdin
        super().__init__(self._process.stdout, self._process.stdin)

    def status(self) -> Optional[int]:
        return self._status

    def kill(self) -> None:
        """Ends the server at once."""
        self._process.kill()
        self.abandon()

    def ask_first(self) -> Answer:
        """Gives the first line, whose answer says that the server has started."""
        answer = Answer()
        self.give(answer, NO_COMMAND)
        return answer

    def started(self, answer: Answer) -> None:
        """Raises what an end before the first answer means, where that is what came."""
        try:
            self.settled(answer)
        except ServerGone as gone:
            raise not_started(gone.status, gone.stderr) from None

    def _end(self) -> Fault:
        self._status = self._process.wait()
        self._reader.close()
        self._errors.seek(0)
        stderr = self._errors.read().decode("utf-8", "replace")
        self._errors.close()
        return partial(ServerGone, self._status, stderr)


def not_started(status: Optional[int], stderr: str) -> NotStarted:
    """What it means that a server has ended before it answered anything."""
    is_classes = status == 1 and "class file refused" in stderr
    return (ClassFileRefused if is_classes else NotStarted)(status, stderr)
