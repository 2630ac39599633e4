"""A front that is started here, which gives many clients of one server a session each.

    with metad.start_front("bin/metad") as front, front.connect() as server:
        print(server.session("mine").new("Probe"))
"""

from __future__ import annotations

import os
import subprocess
import tempfile
import time
from os import fspath
from pathlib import Path
from types import TracebackType
from typing import Dict, List, Optional, Sequence, Tuple, Type, Union

from .client import Server, connect
from .errors import NoMonitors, NotAnswered, NotStarted
from .holding import START_SECONDS, class_words
from .lines import Value
from .monitors import Monitor
from .programs import Word, not_started
from .tools import explained

PAUSE = 0.02  # seconds between two looks at whether a front listens
LISTENS = b": listening at "
SAID_MOST = 65_536  # bytes of a front's standard error that are looked at
MODE, MONITOR, MONITOR_MODE = "--mode", "--monitor", "--monitor-mode"  # options of a front


class Front:
    """A front and its server, which were started here. It is made by `start_front`.

    As a context manager, both are ended at the end. They also end with this process, however that ends.
    """

    def __init__(
        self,
        words: Sequence[Word],
        classes: Optional[Dict[str, Value]],
        options: Sequence[Word],
        timeout: Optional[float],
        monitor: Union[bool, Word] = False,
    ) -> None:
        self._room = tempfile.TemporaryDirectory(prefix="metad-")
        self.path = str(Path(self._room.name, "metad.sock"))
        """Where its clients connect."""
        self._errors = tempfile.TemporaryFile()
        try:
            self._monitor_path, monitoring = monitor_words(monitor, [fspath(it) for it in options], self._room.name)
            self._begin(words, classes, [*options, *monitoring], timeout)
        except BaseException:
            self._leave()
            raise

    def _begin(
        self,
        words: Sequence[Word],
        classes: Optional[Dict[str, Value]],
        options: Sequence[Word],
        timeout: Optional[float],
    ) -> None:
        """Starts the front, once its server has started without it, and waits until clients can connect."""
        given = class_words(classes, self._room.name)
        server = [*words, *given]
        with explained(given):
            try_server(server, timeout)
        started = [*front_words(), "--tied", "--quiet", *options, self.path, *server]
        self._process = subprocess.Popen(started, stdin=subprocess.PIPE, stderr=self._errors, start_new_session=True)
        try:
            self._wait(timeout)
        except BaseException:
            self._process.kill()
            self._process.communicate()
            raise

    @property
    def monitor_path(self) -> str:
        """Where its monitors connect; `NoMonitors` where it was started without them."""
        if self._monitor_path is None:
            raise NoMonitors("this front was started without monitors: start it by `start_front(.., monitor=True)`")
        return self._monitor_path

    def __enter__(self) -> Front:
        return self

    def __exit__(
        self, kind: Optional[Type[BaseException]], error: Optional[BaseException], trace: Optional[TracebackType]
    ) -> None:
        self.close()

    def connect(
        self, share: Optional[str] = None, group: Optional[str] = None, *, live: Optional[bool] = None
    ) -> Server:
        """A new client. It has a session of its own, or one of a group if that is named, or it speaks for a shared
        session. The session is live, unless `live` is False."""
        return connect(self.path, share, group, live=live)

    def monitor(self, session: Optional[str] = None) -> Monitor:
        """A new monitor, of all sessions or of one. `NoMonitors` where the front was started without them."""
        return Monitor(self.monitor_path, session)

    def close(self) -> int:
        """Ends the front and its server, and waits for that; returns the front's exit status. Closing again does
        nothing more."""
        self._process.terminate()
        self._process.communicate()
        self._leave()
        return self._process.returncode

    def _wait(self, timeout: Optional[float]) -> None:
        """Waits until clients can connect."""
        until = None if timeout is None else time.monotonic() + timeout
        while LISTENS not in self._said():
            status = self._process.poll()
            if status is not None:
                raise NotStarted(status, self._said().decode("utf-8", "replace"))
            if until is not None and time.monotonic() > until:
                raise NotAnswered(f"the front does not listen after {timeout} seconds")
            time.sleep(PAUSE)

    def _said(self) -> bytes:
        """What the front has written on standard error."""
        return os.pread(self._errors.fileno(), SAID_MOST, 0)

    def _leave(self) -> None:
        """Removes all that it has made."""
        self._errors.close()
        self._room.cleanup()


def front_words() -> List[Word]:
    """The words that start a front: one that is built or installed next to this package, or the one on the path."""
    above = list(Path(__file__).resolve().parents)  # a list, because Python 3.8 cannot slice `parents`
    beside = (folder / "bin" / "metad-front" for folder in above[3:5])
    return [next((str(it) for it in beside if it.is_file()), "metad-front")]


def monitor_words(monitor: Union[bool, Word], options: Sequence[str], folder: str) -> Tuple[Optional[str], List[str]]:
    """Where monitors connect with a front that has these options, None where they cannot; and the further options that a
    front needs for it. The rights of their socket are those of the clients' socket, unless the options say others."""
    path, words = value_of(MONITOR, options), []
    if path is None and monitor is not False:
        path = str(Path(folder, "metad.monitor")) if monitor is True else fspath(monitor)
        words = [MONITOR, path]
    mode = value_of(MODE, options)
    if path is not None and mode is not None and value_of(MONITOR_MODE, options) is None:
        words += [MONITOR_MODE, mode]
    return path, words


def value_of(option: str, words: Sequence[str]) -> Optional[str]:
    """The value of an option among some words, the last one where it is there several times; None without it."""
    found = None
    for word, behind in zip(words, [*words[1:], None]):
        name, sign, value = word.partition("=")
        if name == option:
            found = value if sign else behind
    return found


def try_server(words: Sequence[Word], timeout: Optional[float]) -> None:
    """Starts a server that is given nothing, so that it ends; raises what it means where it does not end well."""
    try:
        null = subprocess.DEVNULL
        ran = subprocess.run(words, stdin=null, stdout=null, stderr=subprocess.PIPE, timeout=timeout)
    except subprocess.TimeoutExpired:
        raise NotAnswered(f"the server has not ended without input in {timeout} seconds") from None
    if ran.returncode:
        raise not_started(ran.returncode, ran.stderr.decode("utf-8", "replace"))


def start_front(
    program: Word,
    *words: Word,
    classes: Optional[Dict[str, Value]] = None,
    options: Sequence[Word] = (),
    timeout: Optional[float] = START_SECONDS,
    monitor: Union[bool, Word] = False,
) -> Front:
    """Starts a front, at a socket of its own, with a server: a program with the words of its command line.

    It returns when clients can connect. `classes` is as for `start`, and `options` are further ones of the front, as
    `["--record", "lines"]`. With `monitor=True` monitors can connect too, at the front's `monitor_path`, or with a path
    there; their socket has the rights of the clients' socket. Without it there is no such socket. The server is tried first, without input: where it does not end with 0 then, this raises
    `ClassFileRefused` or `NotStarted`, and where the front ends before it listens, `NotStarted`. `OSError` where one of
    them is not there.
    """
    return Front([program, *words], classes, options, timeout, monitor)
