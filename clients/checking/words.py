"""How sentences about class files are put together."""

from __future__ import annotations

import difflib
import json
from typing import Iterable

MOST_SHOWN = 60  # characters of a text
ALIKE = 0.7  # how much of two words is the same where one may be meant by the other
FURTHER = 3  # characters, by which such words differ in length at most
MOST_COMPARED = 300  # words


def cut(text: str) -> str:
    """A text, or its beginning where it is long."""
    return text if len(text) <= MOST_SHOWN else text[:MOST_SHOWN] + "..."


def quoted(text: str) -> str:
    """A text as JSON, cut where it is long, with what cannot be seen escaped."""
    return shown_json(cut(text))


def plain(text: str) -> str:
    """A text as it is, cut where it is long, or as JSON where something in it cannot be seen."""
    return cut(text) if cut(text).isprintable() else quoted(text)


def shown_json(value: object) -> str:
    text = json.dumps(value, ensure_ascii=False)
    return text if text.isprintable() else json.dumps(value)


def listed(words: Iterable[str], last: str = "and") -> str:
    """Words as a sentence has them: `a, b and c`."""
    found = list(words)
    return f"{', '.join(found[:-1])} {last} {found[-1]}" if len(found) > 1 else "".join(found)


def counted(number: int, word: str) -> str:
    """How many there are: `no fault`, `1 fault`, `2 faults`."""
    return f"{number or 'no'} {word}{'' if number == 1 or not number else 's'}"


def alike(word: str, known: Iterable[str]) -> list[str]:
    """The known word that is most like this one, at most one."""
    words = sorted(it for it in known if it != word and abs(len(it) - len(word)) <= FURTHER)
    same = [it for it in words if it.casefold() == word.casefold()]
    return same[:1] or difflib.get_close_matches(word, words[:MOST_COMPARED], 1, ALIKE)


def meant(word: str, known: Iterable[str]) -> str:
    """What may be meant by an unknown word, to be added to a sentence; empty where nothing is like it."""
    return "".join(f"; did you mean {quoted(it)}?" for it in alike(word, known))
