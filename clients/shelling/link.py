"""The way to a server: how it is reached, how lines are given to it as they are, and which it was given."""

from __future__ import annotations

import json
import socket
import subprocess
from dataclasses import dataclass
from functools import partial
from typing import IO, Any, Callable, Dict, Iterator, List, Optional, Sequence, cast

import metad
from metad.lines import NO_COMMAND
from metad.reaching import reach
from metad.sockets import connected as socket_at

NUMBER = "line"  # the key at which a command has the number of the line that it stands for
PATIENCE = 30  # seconds in which a server has to end when its input has ended
FIRST_SECONDS = 10  # in which a program has to answer its first line, or else it is no metad
FIRST_OF_SOCKET = 60  # the same behind a front, where others may be served first
LINE_MOST = 16 * 1024 * 1024  # bytes of a line, more than metad writes
SHOWN_MOST = 1_000  # bytes of a longer one that are kept


class Unreachable(Exception):
    """Why a server cannot be reached, as a text for people."""


@dataclass(frozen=True)
class Order:
    """A line that is to be written."""

    line: bytes
    is_kept: bool


class Tap:
    """A stream to a server's input, which writes lines as they are and keeps them.

    The client is given a command in place of each line, which says by a number which line it stands for.
    """

    def __init__(self, stream: IO[bytes], hang_up: Callable[[], None] = lambda: None) -> None:
        self.stream = stream
        self.hang_up = hang_up
        self.kept: List[bytes] = []
        self.orders: Dict[int, Order] = {}

    def write(self, data: bytes) -> int:
        """Writes the line that a command stands for."""
        order = self.orders.pop(json.loads(data)[NUMBER])
        if order.is_kept:
            self.kept.append(order.line)
        self.stream.write(order.line)
        return len(data)

    def flush(self) -> None:
        self.stream.flush()

    def close(self) -> None:
        try:
            self.stream.close()
        finally:
            self.hang_up()


class Bounded:
    """A stream of what a program writes, which keeps no line that is longer than one of metad."""

    def __init__(self, stream: IO[bytes]) -> None:
        self.stream = stream
        self.read = stream.read
        self.close = stream.close

    def __iter__(self) -> Iterator[bytes]:
        for text in iter(partial(self.stream.readline, LINE_MOST), b""):
            yield text if len(text) < LINE_MOST else text[:SHOWN_MOST] + b"\n"


class Link:
    """A server, as a shell uses it. `name` is the program, or the socket."""

    def __init__(
        self, name: str, reader: IO[bytes], tap: Tap, process: Optional[subprocess.Popen[bytes]], is_live: bool = False
    ) -> None:
        self.name = name
        self.tap = tap
        self.process = process
        self.count = 0  # lines so far
        self.has_answered = False
        self.server = metad.Server(cast("IO[bytes]", Bounded(reader)), cast("IO[bytes]", tap), is_live)

    @property
    def is_fronted(self) -> bool:
        """Whether there is a front, which gives the session its name."""
        return self.process is None

    def ask(self, session: metad.Session, do: str, keys: Dict[str, Any]) -> Any:
        """Gives a command; the value of the reply."""
        return self.give(session, command_line(session, do, keys), True)

    def ask_line(self, session: metad.Session, line: bytes) -> Any:
        """Gives a line as it is; the value of the reply."""
        return self.give(session, line + b"\n", True)

    def ask_aside(self, session: metad.Session, do: str, keys: Dict[str, Any]) -> Any:
        """Gives a command that only asks, and is not kept; the value of the reply."""
        return self.give(session, command_line(session, do, keys), False)

    def give(self, session: metad.Session, line: bytes, is_kept: bool) -> Any:
        """Gives a line, and waits for its answer; `NotAnswered` where the first one does not come in time."""
        self.count += 1
        self.tap.orders[self.count] = Order(line, is_kept)
        pending = session.send("status", **{NUMBER: self.count})
        try:
            reply = pending.result(None if self.has_answered else self.first_seconds())
        except metad.Refused:
            self.has_answered = True
            raise
        self.has_answered = True
        return reply

    def first_seconds(self) -> int:
        """In how many seconds the first answer has to come."""
        return FIRST_OF_SOCKET if self.is_fronted else FIRST_SECONDS

    def try_out(self, session: metad.Session) -> None:
        """Sees that a program to which nothing was given is a metad: that it answers a line that is no command."""
        if self.process is not None and not self.has_answered:
            try:
                self.give(session, NO_COMMAND, False)
            except metad.Refused:
                pass  # as it has to be

    def give_up(self) -> None:
        """Ends at once what is no metad."""
        if self.process is not None:
            self.process.kill()

    def end(self) -> Optional[int]:
        """Ends the server's input, and waits for its end; its status, None behind a front."""
        try:
            self.server.close(PATIENCE)
            return None if self.process is None else self.process.wait(PATIENCE)
        except (metad.NotAnswered, subprocess.TimeoutExpired):
            if self.process is None:
                return None
            self.process.kill()
            return self.process.wait()

    def doubt(self) -> str:
        """The end of a sentence about a program that has not answered a single line: that it may be no metad."""
        return "" if self.has_answered else f"; is {self.name} {'the socket of a front' if self.is_fronted else 'metad'}?"


def command_line(session: metad.Session, do: str, keys: Dict[str, Any]) -> bytes:
    """The line of a command."""
    text = json.dumps({**keys, "do": do, "session": session.name}, ensure_ascii=False, separators=(",", ":"))
    return text.encode("utf-8", "surrogatepass") + b"\n"


def started(words: Sequence[str]) -> Link:
    """Starts a server, which an interrupt of the terminal does not reach. Its standard error is that of the shell."""
    pipe = subprocess.PIPE
    try:
        process = subprocess.Popen(words, stdin=pipe, stdout=pipe, start_new_session=True)
    except (OSError, ValueError) as error:
        raise Unreachable(f"{words[0]} cannot be started: {reason(error)}") from None
    assert process.stdin and process.stdout
    return Link(words[0], process.stdout, Tap(process.stdin), process)


def connected(path: str, live: Optional[bool] = None) -> Link:
    """Connects with the socket of a front, and asks it for a live session unless `live` is False."""
    try:
        link, reader, is_live = reach(partial(socket_at, path), live=live, timeout=FIRST_OF_SOCKET)
    except (OSError, ValueError) as error:
        raise Unreachable(f"{path} cannot be reached: {reason(error)}") from None

    def hang_up() -> None:
        try:
            link.shutdown(socket.SHUT_WR)
        except OSError:
            pass  # the other side has gone

    return Link(path, reader, Tap(link.makefile("wb"), hang_up), None, is_live)


def reason(error: Exception) -> str:
    """Why the system refused something."""
    return str(getattr(error, "strerror", None) or error)


def ended(status: Optional[int]) -> str:
    """How a server has ended, in words."""
    if status is None:
        return "the server has gone"
    return f"the server was ended by signal {-status}" if status < 0 else f"the server has ended with status {status}"
