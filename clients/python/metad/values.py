"""What a command can be given: the values that JSON and the protocol have."""

from __future__ import annotations

from math import isfinite
from operator import index
from typing import Any, Dict

from .errors import SHOWN_MOST, NoValue
from .expressions import Expression

LEAST, MOST = -(2**63), 2**64 - 1  # of whole numbers
LEVELS = 126  # of lists and dicts in one another: metad reads no more
ALLOWED = (
    "allowed are True and False, whole numbers from -2^63 to 2^64 - 1, texts, None for null, objects of the session, and"
    " where the command takes them lists of these and dicts whose keys are texts"
)


def check_values(do: str, keys: Dict[str, Any]) -> None:
    """Looks through what the keys of a command hold; `NoValue` where something there cannot be written as JSON or is
    taken by no command."""
    for key, value in keys.items():
        kind = type(value)
        if kind is not str and (kind is not int or not LEAST <= value <= MOST):
            _check(do, key, value, LEVELS)


def _check(do: str, key: str, value: Any, levels: int) -> None:
    """Looks at a value, and at those that it holds, which may have so many levels of lists and dicts."""
    if value is None or isinstance(value, (str, bool)):
        return
    if isinstance(value, int) or hasattr(value, "__index__"):
        _check_number(do, key, value)
    elif isinstance(value, float):
        if not isfinite(value):
            raise refusal(do, key, f"{value} is no number of JSON")
    elif isinstance(value, Expression):
        _check(do, key, value.form, levels)
    elif isinstance(value, (list, tuple, dict)):
        if not levels:
            raise refusal(do, key, f"it has more than {LEVELS} levels of lists and dicts in one another")
        _check_held(do, key, value, levels - 1)
    else:
        raise refusal(do, key, f"{shown(value)} is of the type {type(value).__name__}")


def _check_number(do: str, key: str, value: Any) -> None:
    """Looks at a whole number, or at what stands for one."""
    try:
        number = index(value)
    except Exception as error:
        raise refusal(do, key, f"{shown(value)} stands for no number: {error}") from error
    if not LEAST <= number <= MOST:
        raise refusal(do, key, f"{'the number' if number.bit_length() > 256 else number} is too large or too small")


def _check_held(do: str, key: str, value: Any, levels: int) -> None:
    """Looks at what a list or a dict holds."""
    if isinstance(value, dict):
        strange = [it for it in value if not isinstance(it, str)]
        if strange:
            raise refusal(do, key, f"a dict has the key {shown(strange[0])}, which is no text")
    for it in value.values() if isinstance(value, dict) else value:
        _check(do, key, it, levels)


def refusal(do: str, key: str, why: str) -> NoValue:
    """What is raised for a value at a key of a command."""
    return NoValue(f"{do} was not sent, because of the value of `{key}`: {why}; {ALLOWED}")


def as_json(value: Any) -> Any:
    """What JSON writes for a value that it does not know: the form of an expression, or the number of an object."""
    return value.form if isinstance(value, Expression) else index(value)


def shown(value: Any) -> str:
    """How a value looks in a text, cut where it is long."""
    try:
        text = repr(value)
    except Exception:
        text = f"an object of the type {type(value).__name__}"
    return text if len(text) <= SHOWN_MOST else text[:SHOWN_MOST] + ".."
