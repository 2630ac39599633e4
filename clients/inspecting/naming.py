"""How names are ordered, and how objects are labelled."""

from __future__ import annotations

from functools import lru_cache
from typing import List, Tuple, Union

from .session import Session

Key = Tuple[Union[str, int], ...]
"""What names are ordered by: pieces of letters and numbers by turns."""


def split_digits(name: str) -> List[str]:
    """A name in pieces of letters and of digits, the first of letters."""
    pieces = [""]
    for letter in name:
        if letter.isdigit() == (len(pieces) % 2 == 0):
            pieces[-1] += letter
        else:
            pieces.append(letter)
    return pieces


@lru_cache(maxsize=16_384)
def in_order(name: str) -> Key:
    """A key that sorts c2 before c10."""
    return tuple(int(part) if part.isdecimal() and part.isascii() else part for part in split_digits(name))


def label(session: Session, number: int) -> str:
    """The class of an object, and its name if that is known."""
    name = session.objects.names.get(number)
    return f"{session.objects.classes.get(number, '?')}{f' {name}' if name else ''}"
