"""Monitors of a front, which read the lines that its server writes."""

from __future__ import annotations

import socket
import threading
from contextlib import suppress
from types import TracebackType
from typing import Dict, Iterator, Optional, Type

from .errors import ConnectionClosed, LinesLost, Refused
from .lines import Value, line_of, line_with
from .programs import Word
from .sockets import connected

READ_BYTES = 65_536
LEFT_OUT = "F10"  # the last line of a front to a monitor that has left too much unread
OF_FRONT = "F"  # how the codes of a front begin


class Arrived:
    """What has arrived of the lines of a monitor, and was not given."""

    def __init__(self) -> None:
        self._begun = bytearray()
        self._searched = 0  # bytes of it in which no line ends

    def add(self, data: bytes) -> None:
        """Adds what has arrived."""
        self._begun += data

    def take(self) -> Optional[Dict[str, Value]]:
        """The next line; None where it has not arrived. `LinesLost` where it says that the others are lost."""
        end = self._begun.find(b"\n", self._searched) + 1
        if not end:
            self._searched = len(self._begun)
            return None
        line = line_of(bytes(self._begun[:end]))
        del self._begun[:end]
        self._searched = 0
        if line.get("error") == LEFT_OUT:
            raise LinesLost(line.get("lost"))
        return line

    def end(self) -> None:
        """Raises `LinesLost` where what has arrived ends in the middle of a line."""
        if self._begun:
            raise LinesLost


def request(session: str) -> bytes:
    """The line that asks a front for the lines of one session."""
    return line_with({"front": "monitor", "session": session})


def is_chosen(line: Dict[str, Value], session: str) -> bool:
    """Whether a line says that the lines of one session come from now on; `Refused` where they do not."""
    if "front" not in line and str(line.get("error", "")).startswith(OF_FRONT):
        raise Refused("monitor", line["error"], {"session": session})
    return "front" in line


class Monitor:
    """Reads the lines of a front's server, as that writes them: of all sessions, or of one. It is made by `monitor`.

    It is iterated, and each line is what its JSON holds. There are no more lines when the front has ended, or when the
    monitor was closed, also by another thread. Where lines were lost, because too many were left unread, all that have
    arrived come first, and then `LinesLost` is raised. As a context manager it is closed at the end.
    """

    def __init__(self, path: Word, session: Optional[str] = None) -> None:
        self._arrived = Arrived()
        self._reading = threading.RLock()  # which a signal handler of the thread that reads gets too
        self._is_closed = False
        self._lost: Optional[LinesLost] = None
        self._link = connected(path)
        try:
            if session is not None:
                self._choose(session)
        except BaseException:
            self._link.close()
            raise

    def _choose(self, session: str) -> None:
        """Asks for the lines of one session, and waits until they will come; lines that came before are dropped."""
        with suppress(BrokenPipeError):  # what came before that is still read
            self._link.sendall(request(session))
        for line in iter(self._take, None):
            if is_chosen(line, session):
                return
        raise ConnectionClosed

    def __enter__(self) -> Monitor:
        return self

    def __exit__(
        self, kind: Optional[Type[BaseException]], error: Optional[BaseException], trace: Optional[TracebackType]
    ) -> None:
        self.close()

    def __iter__(self) -> Iterator[Dict[str, Value]]:
        return self

    def __next__(self) -> Dict[str, Value]:
        line = self._take()
        if line is None:
            raise StopIteration
        return line

    def close(self) -> None:
        """Reads no more, and ends the iteration of another thread. Closing again does nothing."""
        self._is_closed = True
        with suppress(OSError):  # it was closed before, or the front has gone
            self._link.shutdown(socket.SHUT_RDWR)  # which wakes the thread that reads
        with self._reading:
            self._link.close()

    def _take(self) -> Optional[Dict[str, Value]]:
        """The next line; None at the end, and `LinesLost` where that is not the end of all lines."""
        with self._reading:
            if self._lost is not None:
                raise LinesLost(self._lost.count)
            try:
                line = None if self._is_closed else self._take_next()
            except LinesLost as lost:
                self._lost = lost
                line = None
            if self._is_closed:
                return None
            if self._lost is not None:
                raise self._lost
            return line

    def _take_next(self) -> Optional[Dict[str, Value]]:
        """The next line; None when no more will come."""
        while True:
            line = self._arrived.take()
            if line is not None:
                return line
            data = self._receive()
            if not data:
                self._arrived.end()
                return None
            self._arrived.add(data)

    def _receive(self) -> bytes:
        """What has arrived, at least one byte; nothing at the end."""
        try:
            return self._link.recv(READ_BYTES)
        except OSError:
            return b""  # it was closed meanwhile, or the front has gone without reading all that it was given


def monitor(path: Word, session: Optional[str] = None) -> Monitor:
    """Reads what is written by the server of a front whose `--monitor` is this path: for all sessions, or for one.
    `OSError` where nobody listens there, and `Refused` where no session can have this name."""
    return Monitor(path, session)
