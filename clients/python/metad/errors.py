"""What goes wrong between a client and a server."""

from __future__ import annotations

import json
from typing import Any, Dict, Optional

from .codes import advice_on, meaning_of

SHOWN_MOST = 200  # characters of a command's keys, or bytes of a line, that a text shows


class MetadError(Exception):
    """What goes wrong between a client and a server. Its text can be printed whatever it holds."""

    def __str__(self) -> str:
        return printable(super().__str__())


class Refused(MetadError):
    """A command was refused, and has changed nothing (except with `E21`, see the protocol)."""

    def __init__(self, do: str, code: str, keys: Optional[Dict[str, Any]] = None) -> None:
        super().__init__(do, code, keys)
        self.do = do
        """The word of the command."""
        self.code = code
        """The code of the refusal, as `E04`."""
        self.keys = {} if keys is None else keys
        """The keys of the command, without `do` and `session`."""
        self.meaning = meaning_of(code)
        """What the code means."""
        self.advice = advice_on(code)
        """What to do about it, as docs/PROTOCOL.md has it."""

    def __str__(self) -> str:
        said = f"{self.do} {_shown(self.keys)}: {self.code}, {self.meaning}"
        return printable(f"{said}. What to do: {self.advice}" if self.advice else said)


class NotFresh(MetadError):
    """A session into which a dump is replayed has had objects or connections before."""


class NotAnswered(MetadError, TimeoutError):
    """What was waited for did not come in time. A command is still under way then, and its answer can be had later."""


class ServerGone(MetadError):
    """The server has ended, or cannot be reached any more. Commands that were under way end with it."""

    def __init__(self, status: Optional[int], stderr: str) -> None:
        super().__init__(status, stderr)
        self.status = status
        """Its exit status, or the negative number of the signal that ended it; None where it was not started here."""
        self.stderr = stderr
        """What it wrote on standard error; empty where it was not started here."""

    def __str__(self) -> str:
        said = self.stderr.strip()
        return f"{self._ended()}: {said}" if said else self._ended()

    def _ended(self) -> str:
        """How the server has ended, in words."""
        if self.status is None:
            return "the server has gone"
        if self.status < 0:
            return f"the server was ended by signal {-self.status}"
        return f"the server has ended with status {self.status}"


class ConnectionClosed(ServerGone):
    """The connection was closed, by this side or the other one. What became of the server is not known.

    A new connection through a front is a new session; to make one is up to the caller.
    """

    def __init__(self, status: Optional[int] = None, stderr: str = "") -> None:
        super().__init__(status, stderr)

    def _ended(self) -> str:
        return "the connection was closed"


class SessionLost(ConnectionClosed):
    """A front has closed the connection by `F04`: what the session held went with the process that it was in.

    A new connection is a new session, which holds nothing.
    """

    def _ended(self) -> str:
        return "what the session held is lost, and the connection was closed"


class LinesLost(ConnectionClosed):
    """A front has closed a monitor that left too much unread, or has ended in the middle of a line.

    All lines that have arrived were given first. The lines after them are lost; a new monitor gets the lines that come
    from then on.
    """

    def __init__(self, count: Optional[int] = None) -> None:
        super().__init__()
        self.count = count
        """How many lines were lost; None if the front does not say it."""

    def _ended(self) -> str:
        known = self.count is not None
        count = f"{self.count:,} lines were lost" if known else "lines were lost, and how many is unknown"
        return f"the front has closed this monitor before it had read all: {count}"


class NotStarted(ServerGone):
    """The server has ended before it answered anything: the words of its command line mean nothing, for one."""


class ClassFileRefused(NotStarted):
    """The server has refused its class file; `stderr` has the code of the first fault, and the number of its class."""

    fault: str = ""
    """Where the first fault is and what it is, as `metad-check` says it; empty where this is not known."""

    def __str__(self) -> str:
        return printable(f"{super().__str__()}: {self.fault}" if self.fault else super().__str__())


class LibraryMissing(MetadError, FileNotFoundError):
    """There is no library by which a server can be opened in this program. Its text says where it was looked for."""


class StrangeLine(MetadError):
    """A line came that no server of this protocol writes. What comes after it cannot be relied on.

    Commands that are under way, and later ones, end with it, and the server's input is ended.
    """

    def __init__(self, line: bytes) -> None:
        super().__init__(line)
        self.line = line
        """The line as it came."""

    def __str__(self) -> str:
        return f"no line of the protocol: {self.line[:SHOWN_MOST]!r}"


class Ambiguous(MetadError, TypeError):
    """A class has no method that these arguments or parameters fit, or more than one."""


class NoValue(MetadError, TypeError, ValueError):
    """A value that no command can take was given to one. Nothing was sent."""


class NotLive(MetadError):
    """A front that has no live sessions was asked for one by `live=True`."""


class NoMonitors(MetadError):
    """A front that was started without monitors was asked for one."""


class OtherSession(MetadError, ValueError):
    """Objects of two sessions were to be tied to each other, but each session has numbers of its own."""


class NoRelay(MetadError):
    """A function cannot be called for a signal: the server has no slot that would report it, see `with_relay`."""


def printable(text: str) -> str:
    """A text that can be printed and written in UTF-8: halves of characters, as `\\ud800`, are written as escapes."""
    return text.encode("utf-8", "backslashreplace").decode()


def _shown(keys: Dict[str, Any]) -> str:
    """The keys of a command, as JSON that is cut where it is long."""
    text = json.dumps(keys, ensure_ascii=False, separators=(",", ":"), default=repr)
    return text if len(text) <= SHOWN_MOST else text[:SHOWN_MOST] + ".."
