"""What a key of a line or of a command may hold."""

from __future__ import annotations

import json
from typing import Any, Callable

LEVELS = 128  # of arrays and objects in one another, which JSON has at most for metad

Holds = Callable[[Any], bool]  # whether a key may hold a value


def is_whole(value: Any) -> bool:
    return isinstance(value, int) and not isinstance(value, bool) and value >= 0


def is_priority(value: Any) -> bool:
    return isinstance(value, int) and not isinstance(value, bool) and -1 <= value <= 1


def is_number(value: Any) -> bool:
    return is_whole(value) and value > 0


def is_text(value: Any) -> bool:
    return isinstance(value, str)


def is_truth(value: Any) -> bool:
    return isinstance(value, bool)


def is_true(value: Any) -> bool:
    return value is True


def is_list(value: Any) -> bool:
    return isinstance(value, list)


def is_any(value: Any) -> bool:
    return True


def or_null(holds: Holds) -> Holds:
    return lambda value: value is None or holds(value)


def are(holds: Holds) -> Holds:
    return lambda value: is_list(value) and all(map(holds, value))


def has(**keys: Holds) -> Holds:
    """Whether an object has these keys, and holds at them what it may."""

    def holds(value: Any) -> bool:
        return isinstance(value, dict) and all(key in value and is_held(value[key]) for key, is_held in keys.items())

    return holds


def json_object(raw: bytes) -> dict[str, Any] | None:
    """The members of a line that is a JSON object as metad reads and writes them, or None."""
    try:
        found = json.loads(raw.decode())
    except (ValueError, RecursionError):
        return None
    return found if isinstance(found, dict) and not is_deep(found) else None


def is_deep(value: Any) -> bool:
    """Whether a value has more levels than metad reads."""
    level = [value]
    for _ in range(LEVELS):
        inside = [it.values() if isinstance(it, dict) else it for it in level if isinstance(it, (dict, list))]
        level = [it for values in inside for it in values]
    return bool(level)
