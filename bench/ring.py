"""Computes to which worker of a front a group of sessions belongs, as the front's page says it."""

from __future__ import annotations

from bisect import bisect_left
from hashlib import blake2b

POINTS = 128  # of each worker


def point_of(text: str) -> int:
    """The point of a text on the ring."""
    return int.from_bytes(blake2b(text.encode(), digest_size=8).digest(), "big")


class Ring:
    """Assigns groups to so many workers."""

    def __init__(self, count: int) -> None:
        found = sorted((point_of(f"{number}/{point}"), number) for number in range(1, count + 1) for point in range(POINTS))
        self.points = [point for point, _ in found]
        self.numbers = [number for _, number in found]

    def number_of(self, group: str) -> int:
        """The number of the worker that a group belongs to."""
        return self.numbers[bisect_left(self.points, point_of(group)) % len(self.points)]
