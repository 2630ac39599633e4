"""Which commands the page may give, and for which sessions. The page's process and the front both check this."""

from __future__ import annotations

import json
from typing import Any, Dict, FrozenSet

from explaining.faults import is_name
from explaining.held import is_deep
from explaining.known_commands import LINE_BYTES as LINE_MOST
from explaining.known_commands import READING

WRITING: Dict[str, FrozenSet[str]] = {
    "invoke": frozenset(("object", "method", "args", "type")),
    "set": frozenset(("object", "property", "value")),
}  # commands that need --inspect-write
ALL = {**READING, **WRITING}


def is_session(name: object) -> bool:
    """Whether this is the name of a session."""
    return is_name(name)


def is_allowed(command: object, may_ask: bool, may_write: bool) -> bool:
    """Whether this is a command that the page may give, without a session and without keys of other commands."""
    word = command.get("do") if isinstance(command, dict) else None
    if not isinstance(command, dict) or not isinstance(word, str) or word not in ALL:
        return False
    has_leave = may_ask if word in READING else may_write
    return has_leave and command.keys() - {"do"} <= ALL[word]


def value_of(text: bytes) -> Any:
    """The value of a JSON text. Raises ValueError for whatever the server would not read: no UTF-8, no JSON, or arrays and
    objects nested too deep."""
    try:
        value = json.loads(text.decode(), parse_constant=refuse)
    except RecursionError:
        raise ValueError("nested too deep") from None
    if is_deep(value):
        raise ValueError("nested too deep")
    return value


def refuse(word: str) -> Any:
    """Refuses the words of Python that are no JSON: NaN and infinities."""
    raise ValueError(f"{word} is no JSON")


def text_of(command: Dict[str, Any]) -> bytes:
    """A command as one line without its end. Raises ValueError where the server would not read it: it holds half of a
    surrogate pair or a number without an end, is nested too deep, or is too long with the name of any session."""
    try:
        text = json.dumps(command, ensure_ascii=False, allow_nan=False, separators=(",", ":")).encode()
    except RecursionError:
        raise ValueError("nested too deep") from None
    if is_deep(command) or len(text) > LINE_MOST - 128:
        raise ValueError("too deep or too long")
    return text
