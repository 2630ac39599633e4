"""The inputs whose memory is measured: many things of one kind in each of some sessions, as lines with their expected output.

Their classes are those of the demonstration, or the usual ones where there are Bells and Ears.
"""

from __future__ import annotations

from typing import Iterator, Tuple

from inputs import connections, numbered
from lines import called, connect, join, new, pair, post, ring

Line = Tuple[str, str]
Lines = Iterator[Line]

MOST = 1_024  # of each kind in a session, and as many bindings and joins as it may have
RELAYS = 64


def names_of(sessions: int) -> Iterator[str]:
    """The names of so many sessions."""
    return (f"s{number}" for number in range(sessions))


def many_cells(sessions: int, count: int) -> Lines:
    """Cells that were only made."""
    for name in names_of(sessions):
        yield from numbered(name, 1, ["Cell"] * count)


def many_bindings(sessions: int, count: int, cells: int = MOST) -> Lines:
    """Bindings of some of the Cells of a session, each to what else its Cell has."""
    for name in names_of(sessions):
        yield from numbered(name, 1, ["Cell"] * cells)
        yield from (pair(name, number) for number in range(1, count + 1))


def many_events(sessions: int, count: int) -> Lines:
    """Calls of an Ear that are queued."""
    for name in names_of(sessions):
        yield new(name, 1, "Ear")
        yield from [post(name, 1)] * count


def many_joins(sessions: int, count: int) -> Lines:
    """Joins of as many names of another session."""
    for name in names_of(sessions):
        yield new(name, 1, "Ear")
        yield from (join(name, "other", f"n{number}") for number in range(count))


def many_connections(sessions: int, count: int) -> Lines:
    """Connections between a Bell and an Ear."""
    for name in names_of(sessions):
        yield from connections(name, count)


def many_calls(relays: int, all_relays: int = RELAYS, ears: int = MOST) -> Lines:
    """A Bell that has another one ring by so many connections, which calls an Ear by many each time; a third Bell has the rest
    of those connections, and does not ring."""
    yield from numbered("a", 1, ["Bell", "Ear", "Bell", "Bell"])
    yield from (connect("a", 1 if number <= relays else 4, 3, number, method="rang(int)") for number in range(1, all_relays + 1))
    yield from (connect("a", 3, 2, all_relays + number) for number in range(1, ears + 1))
    yield ring("a", called("a", "hear(int)", [2] * (relays * ears), 5, sender=3))
