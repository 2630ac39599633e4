"""A session that grows by texts, is reset and grows again, next to one that only counts on."""

from __future__ import annotations

from typing import Iterator

from tests.support.lines import lines_of
from tests.support.program import Row

OBJECTS = 8
TEXT = "n" * 4_096
PROPERTIES = 64
COUNTS = ("bindings", "connections", "group", "joins", "lost", "mismatched", "objects", "publications", "queued")
Step = "tuple[dict, dict]"  # a command and what it is answered by


def steps(objects: int) -> Iterator[Step]:
    """Commands, each with what it is answered by."""

    def grow(round_number: int) -> Iterator[Step]:
        for number in range(1, objects + 1):
            yield {"do": "new", "class": "QObject", "session": "a"}, {"reply": number}
            for at in range(PROPERTIES):
                yield {"do": "set", "object": number, "property": f"p{at}", "value": TEXT, "session": "a"}, {"reply": False}
            yield {"do": "set", "object": 1, "property": "x", "value": round_number * objects + number, "session": "b"}, {"reply": True}

    yield {"do": "new", "class": "Cell", "session": "b"}, {"reply": 1}
    yield from grow(0)
    yield {"do": "reset", "session": "a"}, {"reply": True}
    yield from grow(1)
    yield {"do": "reset", "session": "a"}, {"reply": True}
    yield {"do": "status", "session": "a"}, {"reply": dict.fromkeys(COUNTS, 0)}
    yield {"do": "get", "object": 1, "property": "x", "session": "b"}, {"reply": 2 * objects}


def growing_row(objects: int = OBJECTS) -> Row:
    """The row of them, where memory is ample."""
    made = list(steps(objects))
    answers = [{**told, "session": command["session"]} for command, told in made]
    return Row("a session that grows", lines_of(command for command, _ in made), lines_of(answers))
