"""The connections of browsers: how many there may be at once, and how long and how much each of them may take."""

from __future__ import annotations

import io
import socket
import threading
import time
from contextlib import suppress
from typing import Any

REQUEST_MOST = 196_608  # bytes of a request, its head and its body together
BUSY = b"HTTP/1.1 503 Service Unavailable\r\nContent-Type: text/plain; charset=utf-8\r\nContent-Length: 5\r\nConnection: close\r\n\r\nbusy\n"
PIECE = 65_536
SECONDS_TO_CLOSE = 1  # in which the rest of a request that is refused is passed over
PASSED_MOST = 4 * 1024 * 1024


class Connections:
    """Counts the connections, and allows only so many."""

    def __init__(self, most: int) -> None:
        self.places = threading.BoundedSemaphore(most)

    def enter(self) -> bool:
        """Takes a place for one more; says whether there was one."""
        return self.places.acquire(blocking=False)

    def leave(self) -> None:
        """Gives a place back."""
        self.places.release()

    def refuse(self, link: socket.socket) -> None:
        """Says that there is no room, and closes. It never blocks on a browser that is refused."""
        with suppress(OSError):
            link.setblocking(False)
            with suppress(BlockingIOError):
                link.recv(PIECE)
            link.send(BUSY)
            link.shutdown(socket.SHUT_WR)
        link.close()


class Source(io.RawIOBase):
    """What a browser sends: each request within a time, and only so many bytes of it. Beyond that reading fails as where a
    time has run out, also where bytes come one by one."""

    def __init__(self, link: socket.socket) -> None:
        super().__init__()
        self.link = link
        self.until = 0.0
        self.left = 0

    def await_request(self, seconds: float) -> None:
        """Begins to wait for a request, which has to come whole in these seconds."""
        self.until = time.monotonic() + seconds
        self.left = REQUEST_MOST

    def readable(self) -> bool:
        return True

    def readinto(self, place: Any) -> int:
        """Reads what has come, or waits for it."""
        seconds = self.until - time.monotonic()
        if seconds <= 0 or self.left <= 0:
            raise socket.timeout("timed out")
        self.link.settimeout(seconds)
        count = self.link.recv_into(place)
        self.left -= count
        return count

    def pass_over(self) -> None:
        """Passes over the rest of a request that was refused, so that closing does not keep the answer from its reader."""
        until, left = min(self.until, time.monotonic() + SECONDS_TO_CLOSE), PASSED_MOST
        with suppress(OSError):
            self.link.shutdown(socket.SHUT_WR)
            while left > 0 and time.monotonic() < until:
                self.link.settimeout(max(0.001, until - time.monotonic()))
                count = len(self.link.recv(PIECE))
                left = left - count if count else 0
