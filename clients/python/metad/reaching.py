"""Connections through the sockets of a front, and the requests to it before any command is given.

The client asks a front for a live session: the front then gives `spin` automatically, and events come unasked. A front
without live sessions refuses that and closes the connection, so the client makes a second one, which does not ask.
"""

from __future__ import annotations

import socket
import threading
from contextlib import suppress
from typing import IO, Callable, Dict, NamedTuple, Optional

from .connection import Connection
from .errors import ConnectionClosed, NotAnswered, NotLive, Refused, StrangeLine
from .lines import Value, line_of, line_with
from .once import Once
from .pairing import Fault
from .programs import Word
from .sockets import Link, connected
from .tls import Tls

HELLO = {"front": "hello"}

Connect = Callable[[], Link]
"""Makes a connection with a front, without any request yet."""


class Reached(NamedTuple):
    """A connection with a front that has answered its requests."""

    link: Link
    reader: IO[bytes]
    is_live: bool
    """Whether events come unasked."""

    def close(self) -> None:
        """Closes the connection."""
        self.reader.close()
        self.link.close()


def reach(
    connect: Connect, share: Optional[str] = None, group: Optional[str] = None, live: Optional[bool] = None, timeout: Optional[float] = None
) -> Reached:
    """Connects with a front, and asks for a shared session or one of a group, if one is named, and for its events.

    With None for `live` it goes on without events where the front has no live sessions, with True it raises `NotLive` then,
    and with False it does not ask. `NotAnswered` where an answer does not come in so many seconds.
    """
    asked = first_line(share, group)
    if live is not False:
        try:
            reached = asking(connect(), {**(asked or HELLO), "live": True}, timeout)
        except (Refused, ConnectionClosed, StrangeLine) as fault:
            if live and not isinstance(fault, Refused):
                raise
            # there are no live sessions, or what is named is refused: the front says which when it is asked for no events
        else:
            if reached.is_live or not live:
                return reached
            reached.close()
    reached = asking(connect(), asked, timeout)
    if live:
        reached.close()
        raise NotLive("this front has no live sessions: it is an older one, or its clients name sessions (--group-from name)")
    return reached


def first_line(share: Optional[str], group: Optional[str]) -> Dict[str, Value]:
    """The request of the first line; nothing if no session is named."""
    if share is not None and group is not None:
        raise ValueError("a shared session has a group by its name")
    if share is not None:
        return {"front": "share", "session": share}
    return {} if group is None else {**HELLO, "group": group}


def asking(link: Link, asked: Dict[str, Value], timeout: Optional[float]) -> Reached:
    """Sends this request, if any, as a first line. If the front refuses it, raises `Refused` and closes the connection."""
    reader = link.makefile("rb")
    try:
        link.settimeout(timeout)
        answer = answered(link, reader, asked) if asked else {}
        link.settimeout(None)
    except BaseException:
        reader.close()
        link.close()
        raise
    return Reached(link, reader, answer.get("live") is True)


def answered(link: Link, reader: IO[bytes], asked: Dict[str, Value]) -> Dict[str, Value]:
    """The front's answer to a first line."""
    try:
        link.sendall(line_with(asked))
        text = reader.readline()
    except socket.timeout:
        raise NotAnswered("the front has not answered its first line in time") from None
    except ConnectionError:
        text = b""
    if not text.endswith(b"\n"):
        raise ConnectionClosed
    line = line_of(text)
    if "error" in line:
        raise Refused(asked["front"], line["error"], {key: asked[key] for key in asked if key != "front"})
    return line


class SocketConnection(Connection):
    """A connection through a socket of a front, which may speak for a session that is shared, or for one of a
    group."""

    _ends_when_hung_up = True

    def __init__(
        self, connect: Connect, share: Optional[str] = None, group: Optional[str] = None, live: Optional[bool] = None
    ) -> None:
        self._link, reader, is_live = reach(connect, share, group, live)
        super().__init__(reader, self._link.makefile("wb"), is_live)

    def _shut(self) -> None:
        try:
            super()._shut()
        finally:
            self._link.shutdown(socket.SHUT_WR)

    def _end(self) -> Fault:
        self._hung_up.wait()
        self._reader.close()
        self._link.close()
        return super()._end()

    def drop(self) -> None:
        """Closes a connection that was not opened."""
        self._reader.close()
        self._writer.close()
        self._link.close()


class Making(Once):
    """A connection that a thread of its own makes; it comes when that has succeeded or failed."""

    def __init__(
        self, path: Word, share: Optional[str], group: Optional[str], live: Optional[bool], tls: Optional[Tls] = None
    ) -> None:
        super().__init__()
        self._path, self._tls = path, tls
        self._asked = share, group, live
        self._is_wanted = True
        self._link: Optional[Link] = None
        self._made: Optional[SocketConnection] = None
        self._fault: Optional[Exception] = None
        threading.Thread(target=self._run, name="metad connecting", daemon=True).start()

    def _run(self) -> None:
        try:
            self._made = SocketConnection(self._connect, *self._asked)
        except Exception as fault:
            self._fault = fault
        self.come()
        if not self._is_wanted:
            self.give_up()

    def _connect(self) -> Link:
        if not self._is_wanted:
            raise ConnectionClosed
        self._link = connected(self._path, self._tls)
        if not self._is_wanted:
            self.give_up()
        return self._link

    def made(self) -> SocketConnection:
        """The connection, once it has been made; or raises the reason why it could not be made."""
        if self._made is None:
            assert self._fault is not None
            raise self._fault
        return self._made

    def give_up(self) -> None:
        """Has the connection closed, now or when it is made."""
        self._is_wanted = False
        if self._made is not None:
            self._made.drop()
        elif self._link is not None:
            with suppress(OSError):  # it was closed already
                self._link.shutdown(socket.SHUT_RDWR)  # which wakes the thread that waits for an answer
