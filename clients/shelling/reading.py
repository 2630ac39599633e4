"""How a line is taken apart, word by word."""

from __future__ import annotations

import json
import re
from typing import Any, List, NoReturn, Optional

from explaining.held import is_deep

NAME = r"[A-Za-z_][A-Za-z0-9_]*"
NUMBER = r"[0-9]+"
OBJECT = rf"(?:{NAME}|{NUMBER})(?![A-Za-z0-9_])"
ARROW = r"->"
BRACKETS = r"\([^()]*\)"
METHOD = rf"{NAME}(?:\s*{BRACKETS})?"
TOO_DEEP = "it has more levels than metad reads"
VALUE = 'JSON: 5, true, "text" or null'


class Mistake(Exception):
    """Why a line is not sent, as a text for people."""


def no_constant(word: str) -> NoReturn:
    raise ValueError(word)


DECODER = json.JSONDecoder(parse_constant=no_constant)


class Words:
    """What is left of a line, from which words are taken."""

    def __init__(self, text: str) -> None:
        self.rest = text.strip()

    def maybe(self, pattern: str) -> Optional[str]:
        """The next word, where it is of this pattern."""
        found = re.match(pattern, self.rest)
        if found is None:
            return None
        self.rest = self.rest[found.end() :].lstrip()
        return found.group()

    def maybe_word(self, *words: str) -> Optional[str]:
        """The next word, where it is one of these."""
        return self.maybe(rf"(?:{'|'.join(words)})(?![A-Za-z0-9_])")

    def take(self, pattern: str, wanted: str) -> str:
        """The next word, which has to be of this pattern."""
        found = self.maybe(pattern)
        return self.miss(wanted) if found is None else found

    def take_word(self, word: str) -> None:
        """Passes over a word that has to be here."""
        if self.maybe_word(word) is None:
            self.miss(f"`{word}`")

    def take_value(self, wanted: str = VALUE) -> Any:
        """The next value, which is JSON."""
        try:
            value, end = DECODER.raw_decode(self.rest)
        except (ValueError, RecursionError):
            return self.miss(wanted)
        if is_deep(value):
            raise Mistake(TOO_DEEP)
        self.rest = self.rest[end:].lstrip()
        return value

    def end(self) -> None:
        """Says that the line has to end here."""
        if self.rest:
            raise Mistake(f"nothing may follow it, and there is `{shortened(self.rest)}`")

    def miss(self, wanted: str) -> NoReturn:
        """Says that something else has to be here."""
        raise Mistake(f"wanted is {wanted}, and " + (f"there is `{shortened(self.rest)}`" if self.rest else "the line ends"))


def shortened(text: str) -> str:
    """The beginning of a text."""
    return text if len(text) <= 40 else f"{text[:40]}.."


def values_in(text: str) -> List[Any]:
    """Values between brackets, with commas between them."""
    words = Words(f"[{text}]")
    try:
        values = words.take_value()
        words.end()
    except Mistake:
        raise Mistake(f"the arguments are {VALUE}, with commas between them, and not `{shortened(text)}`") from None
    assert isinstance(values, list)
    return values


def types_in(brackets: str) -> List[str]:
    """The types between the brackets of a signature."""
    inside = brackets.strip()[1:-1].strip()
    return [] if inside in ("", "void") else [it.strip() for it in inside.split(",")]
