"""How sentences about lines are put together, and what the codes mean."""

from __future__ import annotations

import json
from typing import Any, Iterable, NoReturn

from common.objects import Misfit

CODES = {
    "E01": "the line is no JSON, no UTF-8, or too long",
    "E02": "the line is JSON but no command: a key or a word is missing, unknown or not what it may be",
    "E03": "there is no such class",
    "E04": "there is no such object",
    "E05": "the object has no such signal or method",
    "E06": "the text is no signature or no type",
    "E07": "the parameters of the signal and of the method do not fit",
    "E08": "the same signal and method are connected already",
    "E09": "a connection to a functor cannot be unique",
    "E10": "there is no such functor",
    "E11": "the object has no such property",
    "E12": "the parent would be the object itself or below it",
    "E13": "the object is being deleted",
    "E14": "a limit is met",
    "E15": "the session publishes something else under this name",
    "E16": "a session cannot join itself",
    "E17": "no group is open",
    "E18": "the property may not be bound, nor be read by a binding",
    "E19": "the numbers are used up",
    "E20": "the session has failed because it ran out of memory, and answers nothing else before its reset",
    "E21": "there was no memory for it; all that the session held is gone",
    "E22": "a value is of a wrong kind or form",
    "E23": "the turns are used up",
}
ERRORS = {
    "BindingLoop": "its value depends on itself, or on another one that does",
    "EvaluationError": "its binding has no value of its type, since what it reads is gone, does not fit or is in such an error",
}


def misfit() -> NoReturn:
    raise Misfit


def shown(value: Any) -> str:
    """A value as JSON."""
    return json.dumps(value, ensure_ascii=False)


def plain(text: str) -> str:
    """A text as it is, or as JSON where something in it cannot be seen."""
    return text if text.isprintable() else shown(text)


def listed(words: Iterable[Any]) -> str:
    """Words as a sentence has them: `1, 2 and 3`."""
    said = [str(it) for it in words]
    return f"{', '.join(said[:-1])} and {said[-1]}" if len(said) > 1 else "".join(said)


def counted(number: int, word: str) -> str:
    """How many there are: `no event`, `1 event`, `2 events`."""
    return f"{number or 'no'} {word}{'s' if number > 1 else ''}"


def arguments(values: list[Any]) -> str:
    if not values:
        return "no arguments"
    return f"{'arguments' if len(values) > 1 else 'argument'} {listed(map(shown, values))}"


def in_error(error: str) -> str:
    """An error of a property with what it means."""
    return f"{plain(error)}: {ERRORS.get(error, 'an error that is not known here')}"


def coded(code: str, meaning: str | None = None) -> str:
    """A code with what it means."""
    return f"{plain(code)}: {meaning or CODES.get(code, 'a code that is not known here')}"
