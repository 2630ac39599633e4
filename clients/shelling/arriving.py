"""Shows the lines of a live session as they come, while the shell waits for its next line."""

from __future__ import annotations

import signal
import threading
import time
from contextlib import contextmanager
from typing import Iterator, Optional

from .prompting import Prompt
from .shell import Shell

SPIN = {"do": "spin"}  # the command that the front gives on its own
WAKES = signal.SIGUSR1  # of the main thread, while that waits for a key
PAUSE = 0.05  # seconds between two such signals; one may come just before the wait for a key


class Arrivals:
    """Shows what comes while the shell reads lines of an input that is no terminal, by a thread of its own."""

    def __init__(self, shell: Shell) -> None:
        self.shell = shell
        self._connection = shell.link.server.connection
        self._is_failure_said = False
        self._fault: Optional[OSError] = None
        self._reading = threading.Lock()  # is free while the shell waits for a line
        self._reading.acquire()

    def begin(self) -> None:
        """Begins to show what comes, in a live session."""
        if self._connection.is_live:
            self.shell.session(self.shell.name)  # makes the session, which receives what comes
            threading.Thread(target=self._watch, name="shell arrivals", daemon=True).start()

    @contextmanager
    def waiting(self) -> Iterator[None]:
        """Lets lines be shown while the shell waits for a line; shows first what has come."""
        self.tell()
        self._reading.release()
        try:
            yield
        finally:
            self._reading.acquire()
        if self._fault is not None:
            raise self._fault

    def tell(self) -> None:
        """Shows what has come."""
        self._connection.tell()
        code = self._connection.live_fault
        if code is not None and not self._is_failure_said:
            self._is_failure_said = True
            self.shell.refuse_command(self.shell.name, SPIN, SPIN, code)
            self.shell.say("note", "    events are not shown as they come any more; after a reset write `spin`")

    def is_due(self) -> bool:
        """Whether something has come that was not shown."""
        return self._connection.has_untold() or (self._connection.live_fault is not None and not self._is_failure_said)

    def _watch(self) -> None:
        """Waits for what comes, up to the end of the connection or of its live session."""
        try:
            while True:
                news = self._connection.news()
                if self.is_due():
                    self.bring()
                elif self._connection.has_ended() or not self._connection.is_live:
                    return
                else:
                    news.wait()
        except OSError as fault:  # standard output is closed, or full
            self._fault = fault

    def bring(self) -> None:
        """Shows what has come as soon as the shell waits for a line."""
        with self._reading:
            self.tell()


class TypedArrivals(Arrivals):
    """Shows what comes while a line is typed at a prompt: by the main thread, which a signal wakes."""

    def __init__(self, shell: Shell, prompt: Prompt) -> None:
        super().__init__(shell)
        self._prompt = prompt

    def begin(self) -> None:
        if self._connection.is_live:
            signal.signal(WAKES, self._woken)
        super().begin()

    def bring(self) -> None:
        main = threading.main_thread().ident
        while main is not None and self.is_due():
            if self._prompt.can_be_hidden():
                signal.pthread_kill(main, WAKES)
            time.sleep(PAUSE)

    def _woken(self, _number: int, _frame: object) -> None:
        """Hides the typed line, shows what has come, and shows the line again."""
        if self._prompt.can_be_hidden() and self.is_due():
            with self._prompt.hidden():
                self.tell()
