"""Lines that make things and remove them, again and again, so that as much is there after them as before."""

from __future__ import annotations

from typing import Iterator

from tests.support.lines import lines_of
from tests.support.peaks import Part

LINES = 10_000  # of a part
PARTS = 100
LINES_OF_OBJECT = 8  # by which an object is made and deleted
LINES_OF_HELD = 3  # by which an object is made that goes with its session
HELD = (LINES - 1) // LINES_OF_HELD


def part_of(steps: Iterator[tuple[dict, object]]) -> Part:
    """The part of commands of one session and what each has to be replied."""
    made = list(steps)
    wanted = ({"reply": value} for _, value in made)
    return Part(lines_of((command for command, _ in made), session="a"), lines_of(wanted, session="a"))


def came_and_went(number: int) -> Iterator[tuple[dict, object]]:
    """An object of this number with all that an object may have, which is then deleted."""
    yield {"do": "new", "class": "Cell"}, number
    yield {"do": "set", "object": number, "property": "tag", "value": "a text that is not quite a short one"}, False
    yield {"do": "bind", "object": number, "property": "x", "to": {"prop": "y"}}, True
    yield {"do": "connect", "sender": number, "signal": "xChanged(int)", "receiver": number, "method": "seen(int)"}, number
    yield {"do": "publish", "object": number, "signal": "xChanged(int)", "name": "temp"}, True
    yield {"do": "join", "from": "b", "name": "temp", "types": ["int"], "object": number, "method": "seen(int)"}, True
    yield {"do": "invoke", "object": number, "method": "seen(int)", "args": [number], "type": "queued"}, True
    yield {"do": "delete", "object": number}, True


def deleted() -> Iterator[Part]:
    """Objects that are made and deleted one after another."""
    each = LINES // LINES_OF_OBJECT
    for first in range(1, PARTS * each + 1, each):
        yield part_of(step for number in range(first, first + each) for step in came_and_went(number))


def held_and_reset() -> Iterator[tuple[dict, object]]:
    """Objects that are all there at once, and go with a reset of their session."""
    for number in range(1, HELD + 1):
        yield {"do": "new", "class": "Cell"}, number
        yield {"do": "set", "object": number, "property": "tag", "value": "a text that is not quite a short one"}, False
        yield {"do": "connect", "sender": number, "signal": "xChanged(int)", "receiver": 1, "method": "seen(int)"}, number
    yield {"do": "reset"}, True


def reset() -> Iterator[Part]:
    """The same objects, made again after each reset."""
    part = part_of(held_and_reset())
    return (part for _ in range(PARTS))
