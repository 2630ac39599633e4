"""Answers to browsers, each made once for all browsers that ask the same at the same moment."""

from __future__ import annotations

import threading
from typing import Callable, Dict, Hashable

KEPT = 256
BYTES_MOST = 16 * 1024 * 1024


class Answers:
    """Keeps answers as long as nothing has changed. `moment` is what they depend on: they are dropped when it is another one."""

    def __init__(self) -> None:
        self.lock = threading.Lock()
        self.moment: Hashable = None
        self.kept: Dict[Hashable, bytes] = {}
        self.size = 0
        self.made = 0

    def get(self, moment: Hashable, key: Hashable, make: Callable[[], bytes]) -> bytes:
        """The answer for a key. It is made without the lock, so that a long one delays nobody else."""
        with self.lock:
            if moment != self.moment:
                self.moment, self.size = moment, 0
                self.kept.clear()
            found = self.kept.get(key)
        if found is not None:
            return found
        made = make()
        with self.lock:
            self.made += 1
            if moment == self.moment and len(self.kept) < KEPT and self.size + len(made) <= BYTES_MOST:
                self.kept[key] = made
                self.size += len(made)
        return made
