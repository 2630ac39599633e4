"""What the slots of a class file do to the objects of a session."""

from __future__ import annotations

import json
from typing import Any, Dict, Iterable, Iterator

from checking.files import checked
from common.asked import OBJECT_NAME, normal
from common.following import Called, Deed

Action = Dict[str, Any]  # of the body of a slot
FUNCTORS = ("clamp", "count")  # those that are known to write nothing but x or y
WRITES = ("emit", "set")


class Refused(Exception):
    """Why a text is no class file."""


class Slots:
    """The slots of a class file, by their classes and their normal texts."""

    def __init__(self, raw: bytes) -> None:
        found = checked(raw)
        first = found.findings.first()
        if first is not None or found.root is None:
            raise Refused(f"{first.code} at class {first.place.number}" if first else "")
        self.above: dict[str, str] = {}
        self.bodies: dict[tuple[str, str], list[Action]] = {}
        for it in json.loads(raw)["classes"]:
            self.above[it["name"]] = it["super"]
            for slot in it.get("slots", ()):
                self.bodies[it["name"], normal(slot["sig"])] = slot["body"]

    def deeds(self, class_name: str | None, call: Called) -> list[Deed] | None:
        """What a call of an object of this class does, in order, or None where it is not known."""
        if call.call in FUNCTORS:
            return [Deed("call", call, False)]
        while class_name in self.above and (class_name, call.call) not in self.bodies:
            class_name = self.above[class_name]
        body = self.bodies.get((class_name or "", call.call))
        return None if body is None else list(deeds_in(body, call, True))


def deeds_in(actions: Iterable[Action], call: Called, is_sure: bool) -> Iterator[Deed]:
    """What some actions do, in order."""
    for action in actions:
        of = action.get("of", "self")
        for key in ("then", "else"):
            yield from deeds_in(action.get(key, ()), call, False)
        if "delete" in action or "deleteLater" in action:
            word = "delete" if "delete" in action else "deleteLater"
            yield Deed(word, call, is_sure, action[word])
        elif "setParent" in action:
            yield Deed("setParent", call, is_sure, of, action["setParent"])
        elif action.get("set") == OBJECT_NAME:
            yield Deed("name", call, is_sure, of)
        elif any(word in action for word in WRITES):
            yield Deed("call", call, is_sure, of)
