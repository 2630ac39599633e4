"""What is known of the objects of a session: their names, their classes, and which have gone."""

from __future__ import annotations

from typing import Any, Dict, Iterable, Mapping

from common.changes import Done, meet
from common.objects import Met

from .reading import Mistake


class Known(Met):
    """What is known of a session."""

    def __init__(self) -> None:
        super().__init__()
        self.numbers: Dict[str, int] = {}  # of the objects that were given names

    def give(self, name: str, number: int) -> None:
        """Gives an object a name, which may have been another one's."""
        self.numbers.pop(name, None)
        self.numbers[name] = number

    def label(self, number: Any) -> str:
        """An object's latest name, or its number where it has none."""
        names = [name for name, its in self.numbers.items() if its == number]
        return names[-1] if names else str(number)

    def number_of(self, word: str) -> int:
        """The object that a name or a number stands for."""
        if word[0].isdigit():
            return int(word)
        if word not in self.numbers:
            raise Mistake(f"nothing is named {word} here; `names` lists the names")
        number = self.numbers[word]
        if number in self.gone:
            raise Mistake(f"{word} is gone: object {number} was deleted")
        return number

    def heed(self, asked: Mapping[str, Any], reply: Any) -> None:
        """Keeps what a command has told by its reply."""
        if asked.get("do") == "object":
            self.tell_class(asked["object"], reply["class"])
        elif asked.get("do") == "reset":
            self.forget()
        else:
            meet(self, Done(dict(asked), reply))

    def miss(self, numbers: Iterable[int]) -> None:
        """These objects are not there: those that were made are gone."""
        self.gone.update(self.classes.keys() & set(numbers))

    def forget(self) -> None:
        """All is as before the first command."""
        self.numbers.clear()
        self.classes.clear()
        self.gone.clear()
