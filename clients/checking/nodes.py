"""The values of a JSON text, each with its path."""

from __future__ import annotations

import re
from typing import NamedTuple, Union

from .words import cut, quoted

PLAIN_STEP = re.compile(r"[A-Za-z_][A-Za-z0-9_]*|[-+<=]", re.ASCII)

Step = Union[int, str]  # the index of an array, or the key of an object


class Member(NamedTuple):
    """A key with its value."""

    key: Node
    value: Node


class Members:
    """The members of an object. Of those with equal keys the last counts."""

    def __init__(self) -> None:
        self.counted: dict[str, Member] = {}
        self.again: list[Node] = []  # the keys that take the place of an earlier one

    def put(self, member: Member) -> None:
        name = member.key.text() or ""
        if name in self.counted:
            self.again.append(member.key)
        self.counted[name] = member


class Node:
    """A value of a JSON text, which begins at a character of it. `step` is where its array or its object holds it."""

    def __init__(self, at: int, holder: Node | None = None, step: Step = "") -> None:
        self.at = at
        self.holder = holder
        self.step = step
        self.held: None | bool | int | float | str | list[Node] | Members = None

    def text(self) -> str | None:
        return self.held if isinstance(self.held, str) else None

    def truth(self) -> bool | None:
        return self.held if isinstance(self.held, bool) else None

    def whole(self) -> int | None:
        """The whole number that it is, which is written without a point and an exponent."""
        return self.held if isinstance(self.held, int) and not isinstance(self.held, bool) else None

    def items(self) -> list[Node] | None:
        return self.held if isinstance(self.held, list) else None

    def members(self) -> dict[str, Member] | None:
        return self.held.counted if isinstance(self.held, Members) else None

    def get(self, key: str) -> Node | None:
        """What an object holds at a key; None where it has no such key, or is no object."""
        members = self.members() or {}
        return members[key].value if key in members else None

    def text_at(self, key: str) -> str | None:
        found = self.get(key)
        return None if found is None else found.text()

    def items_at(self, key: str) -> list[Node]:
        """The elements of the array at a key, none where there is no array."""
        found = self.get(key)
        return (found.items() if found is not None else None) or []

    def kind(self) -> str:
        """What kind of value it is, in words."""
        if self.held is None:
            return "null"
        if isinstance(self.held, bool):
            return "a truth"
        kinds: tuple[tuple[type, str], ...] = (
            (int, "a whole number"), (float, "a number that is not whole"), (str, "a text"), (list, "an array"),
        )
        return next((words for kind, words in kinds if isinstance(self.held, kind)), "an object")

    def above(self) -> list[Node]:
        """The values that hold it, from the outermost to itself."""
        found = [self]
        while found[-1].holder is not None:
            found.append(found[-1].holder)
        return found[::-1]

    def path(self) -> str:
        """Its path: keys and indices, as `classes[0].slots[2].body[1].to`; empty for the whole text."""
        return "".join(map(spelled, (it.step for it in self.above()[1:]))).lstrip(".")


def spelled(step: Step) -> str:
    """A step of a path."""
    if isinstance(step, int):
        return f"[{step}]"
    return f".{cut(step)}" if PLAIN_STEP.fullmatch(step) else f"[{quoted(step)}]"
