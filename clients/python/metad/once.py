"""Things that happen once, which any number of threads wait for."""

from __future__ import annotations

import queue
from contextlib import suppress
from functools import partial
from typing import Callable, List, Optional, Sequence

Bell = Callable[[], object]
"""Is called once something has come, by the thread that brings it."""


class Once:
    """Something that comes once, and that any number of threads wait for."""

    _has_come = False
    _bells: Sequence[Bell] = ()  # up to the first one

    def has_come(self) -> bool:
        """Whether it has come already."""
        return self._has_come

    def come(self) -> None:
        """Lets it come, and rings the bells."""
        self._has_come = True
        self.ring_all()

    def ring_all(self) -> None:
        """Rings the bells of all that wait, once it has come."""
        bells = self._rung_bells()
        while bells:
            with suppress(IndexError):  # another thread was quicker
                bells.pop()()

    def ring(self, bell: Bell) -> None:
        """Has a bell rung once it has come, at once where it has. A bell may be rung twice."""
        self._rung_bells().append(bell)
        if self._has_come:
            bell()

    def silence(self, bell: Bell) -> None:
        """Takes a bell away, where it is still there."""
        with suppress(ValueError):
            self._rung_bells().remove(bell)

    def _rung_bells(self) -> List[Bell]:
        """The bells, which are one list for all threads."""
        bells: List[Bell] = self.__dict__.setdefault("_bells", [])
        return bells

    def wait(self, timeout: Optional[float] = None) -> bool:
        """Waits for it, so many seconds at most; says whether it has come."""
        if not self._has_come:
            rung: queue.SimpleQueue[None] = queue.SimpleQueue()
            bell = partial(rung.put, None)
            self.ring(bell)
            try:
                rung.get(timeout=None if timeout is None else max(timeout, 0))
            except queue.Empty:
                pass
            finally:
                self.silence(bell)
        return self._has_come
