"""Connections that the other side closes as a test expects: at any moment, whether or not it has read everything.

These take the place of `sendall`, `shutdown` and `read` only where a test expects that end. Elsewhere an error of a connection
is a fault. Nothing that arrived before the end is lost.
"""

from __future__ import annotations

import errno
import socket
from contextlib import suppress
from io import BufferedReader
from typing import Iterator, Type

CLOSED = (BrokenPipeError, ConnectionResetError)
"""What a connection raises whose other side has closed."""

PIECE = 65_536


def give(link: socket.socket, data: bytes) -> bool:
    """Writes to a side that may have closed; returns whether it still took everything."""
    try:
        link.sendall(data)
        return True
    except CLOSED:
        return False


def end_writing(link: socket.socket) -> None:
    """Ends what is written to a side that may have closed."""
    try:
        link.shutdown(socket.SHUT_WR)
    except OSError as error:
        if error.errno != errno.ENOTCONN:  # as after a reset
            raise


def pieces_of(reader: BufferedReader, *more: Type[BaseException]) -> Iterator[bytes]:
    """What comes until the other side closes. With further exceptions, these end it too."""
    with suppress(*CLOSED, *more):
        while piece := reader.read1(PIECE):
            yield piece


def rest_of(reader: BufferedReader, *more: Type[BaseException]) -> bytes:
    """All that comes until the other side closes. With further exceptions, these end it too."""
    return b"".join(pieces_of(reader, *more))


def has_closed(link: socket.socket) -> bool:
    """Whether the next thing that comes is the end, and not a byte. It waits as long as the connection does."""
    try:
        return link.recv(1) == b""
    except CLOSED:
        return True
