"""The files below the streams of a connection, which are read and written without waiting."""

from __future__ import annotations

import io
import os
import select
import stat
from collections import deque
from itertools import chain, count
from operator import methodcaller
from typing import IO, Any, Deque, Iterator, List, Optional, Tuple

AT_ONCE = select.PIPE_BUF
"""Bytes that a pipe takes at once where it takes any."""

READ_BYTES = 65_536
READABLE = select.POLLIN | select.POLLHUP | select.POLLERR | select.POLLNVAL

SINK: Deque[Any] = deque(maxlen=0)
"""Goes through iterators by `extend`, in one call, and keeps nothing."""

POPLEFT = methodcaller("popleft")
PARTS = methodcaller("splitlines", True)


def number_of(stream: IO[bytes]) -> Optional[int]:
    """The number of the file below a stream; None where it cannot be used in place of the stream."""
    if type(stream) not in (io.BufferedReader, io.BufferedWriter, io.FileIO):
        return None
    try:
        number = stream.fileno()
        return None if stat.S_ISREG(os.fstat(number).st_mode) else number
    except (OSError, ValueError):
        return None


def held_by(stream: IO[bytes], number: int) -> bytes:
    """What was read from a file and is held by its stream."""
    if not isinstance(stream, io.BufferedReader):
        return b""
    is_blocking = os.get_blocking(number)
    os.set_blocking(number, False)
    try:
        return stream.peek()
    finally:
        os.set_blocking(number, is_blocking)


def parts_of(line: bytes) -> List[bytes]:
    """A line in parts that a pipe takes at once."""
    return [line[at : at + AT_ONCE] for at in range(0, len(line), AT_ONCE)]


class Files:
    """The two files of a connection.

    Each method changes something by one call at most, which happens as a whole or not at all, whatever signal comes.
    """

    def __init__(self, reader: int, writer: int, held: bytes) -> None:
        self._reader = reader
        self._writer = writer
        self._receive: Tuple[Any, ...] = os.read, (reader,), (READ_BYTES,)
        self._read: Deque[bytes] = deque([held] if held else ())  # an empty one is the end
        self._write: Tuple[Any, ...] = os.write, (writer,)

    @classmethod
    def below(cls, reader: IO[bytes], writer: IO[bytes]) -> Optional[Files]:
        """The files below two streams; None where these are streams of another kind."""
        numbers = number_of(reader), number_of(writer)
        if numbers[0] is None or numbers[1] is None:
            return None
        return cls(numbers[0], numbers[1], held_by(reader, numbers[0]))

    def wait(self, seconds: float, is_writing: bool) -> bool:
        """Waits at most so many seconds until something can be read, or also until something can be written; whether
        something can be read."""
        if self._read:
            return True
        poll, awaited = select.poll(), select.POLLIN
        if is_writing and self._writer == self._reader:
            awaited |= select.POLLOUT
        elif is_writing:
            poll.register(self._writer, select.POLLOUT)
        poll.register(self._reader, awaited)
        for number, events in poll.poll(seconds * 1_000):
            if number == self._reader and events & READABLE:
                return True
        return False

    def read(self, came: Deque[Tuple[int, bytes]], numbers: count[int]) -> bool:
        """Reads what can be read, and adds it to what has come, in numbered parts, which end where lines end; False at the
        end of the file."""
        try:
            if not self._read:
                self._read.extend(self._receiving())
            if not self._read[0]:
                return False
            came.extend(zip(numbers, chain.from_iterable(map(PARTS, map(POPLEFT, (self._read,))))))
        except IndexError:
            pass  # a signal handler has read it
        return True

    def _receiving(self) -> Iterator[bytes]:
        """What is read next, when it is gone through."""
        return map(*self._receive)

    def first_text(self) -> bytes:
        """What has come and was not taken yet; it waits for that without a limit. It is empty where it has to be read again. The
        text stays until `taking` is gone through."""
        try:
            if not self._read:
                self._read.extend(self._receiving())
            return self._read[0]
        except IndexError:
            return b""  # a signal handler has taken it
        except OSError as error:
            if error.errno is None:
                raise  # by a signal handler
            return b""

    def taking(self, text: bytes) -> Iterator[None]:
        """Removes a text that has come, when it is gone through."""
        return map(self._read.remove, (text,))

    def can_write(self) -> bool:
        """Whether `AT_ONCE` bytes can be written without waiting."""
        poll = select.poll()
        poll.register(self._writer, select.POLLOUT)
        return bool(poll.poll(0))

    def write(self, parts: Deque[bytes]) -> None:
        """Removes the first one of some parts of lines, and writes it."""
        SINK.extend(map(*self._write, map(POPLEFT, (parts,))))

    def writing(self, part: bytes) -> Iterator[int]:
        """Writes a part of a line, when it is gone through."""
        return map(*self._write, (part,))
