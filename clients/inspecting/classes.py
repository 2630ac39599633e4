"""The classes of a server, as its class file declares them."""

from __future__ import annotations

import json
from dataclasses import dataclass, field
from pathlib import Path
from typing import Any, Dict, List, Optional, Sequence, Tuple

from common.asked import normal
from explaining.slots import Refused, Slots

DEMONSTRATION = Path(__file__).with_name("demonstration.json")
DESTROYED = "destroyed()"
DELETE_LATER = "deleteLater()"
ROOT = "QObject"
DEFAULTS: Dict[str, Any] = {"bool": False, "QString": ""}  # of other types 0
FUNCTORS: Dict[str, str] = {"clamp": "x", "count": "y"}  # the property that each of them writes
TURNS = "--turns"

Body = List[Dict[str, Any]]


@dataclass(frozen=True)
class Property:
    """A declared property, and the signal that reports its changes."""

    name: str
    kind: str
    notify: Optional[str] = None
    is_bindable: bool = False

    def default(self) -> Any:
        return DEFAULTS.get(self.kind, 0)


@dataclass
class Class:
    """What a class itself declares."""

    name: str
    above: Optional[str]
    signals: List[str] = field(default_factory=list)
    slots: Dict[str, Body] = field(default_factory=dict)
    properties: List[Property] = field(default_factory=list)


def of_qobject() -> Class:
    """The class that all others come from."""
    name = Property("objectName", "QString", "objectNameChanged(QString)", True)
    return Class(ROOT, None, [DESTROYED, "objectNameChanged(QString)"], {DELETE_LATER: [{"deleteLater": "self"}]}, [name])


def class_of(held: Dict[str, Any]) -> Class:
    """A class as a class file has it."""
    return Class(
        held["name"],
        held["super"],
        [normal(it) for it in held.get("signals", ())],
        {normal(it["sig"]): it["body"] for it in held.get("slots", ())},
        [property_of(it) for it in held.get("properties", ())],
    )


def property_of(held: Dict[str, Any]) -> Property:
    notify = normal(held["notify"]) if "notify" in held else None
    return Property(held["name"], held["type"], notify, held.get("bindable", False))


class Classes:
    """All classes of a server; without a class file only that from which all come is known."""

    def __init__(self, raw: Optional[bytes] = None) -> None:
        self.is_whole = raw is not None
        self.slots = None if raw is None else Slots(raw)
        declared = [] if raw is None else json.loads(raw)["classes"]
        self.own: Dict[str, Class] = {ROOT: of_qobject(), **{it["name"]: class_of(it) for it in declared}}
        self.chains: Dict[str, List[Class]] = {}

    def __contains__(self, name: object) -> bool:
        return name in self.own

    def chain(self, name: Optional[str]) -> List[Class]:
        """A class and those above it, the one that all come from first; nothing, where it is not known."""
        if name not in self.own or name is None:
            return []
        if name not in self.chains:
            own = self.own[name]
            self.chains[name] = [*self.chain(own.above), own]
        return self.chains[name]

    def properties(self, name: Optional[str]) -> List[Property]:
        """The declared properties, by their numbers."""
        return [it for own in self.chain(name) for it in own.properties]

    def property(self, name: Optional[str], called: str) -> Optional[Property]:
        """The declared property of this name."""
        return next((it for own in self.chain(name) for it in own.properties if it.name == called), None)

    def methods(self, name: Optional[str]) -> List[Tuple[str, str, str]]:
        """All methods by their numbers: the signature, whether it is a signal or a slot, and the class that declares it."""
        found = []
        for own in self.chain(name):
            found += [(it, "signal", own.name) for it in own.signals]
            found += [(it, "slot", own.name) for it in own.slots]
        return found

    def is_signal(self, name: Optional[str], text: str) -> Optional[bool]:
        """Whether a method is a signal, or None where it is not known."""
        if text == DELETE_LATER:
            return False
        for own in self.chain(name):
            if text in own.signals:
                return True
            if text in own.slots:
                return False
        return None

    def body(self, name: Optional[str], text: str) -> Optional[Body]:
        """What a slot does, or None where it is not known."""
        if text in FUNCTORS:
            return [{"set": FUNCTORS[text], "to": {"unknown": True}}]
        for own in reversed(self.chain(name)):
            if text in own.slots:
                return own.slots[text]
        return None


def file_in(words: Sequence[str]) -> Optional[str]:
    """The class file among the words of a server, or None where it has none."""
    rest = list(words)
    while rest:
        word = rest.pop(0)
        if word == "--":
            return rest[0] if rest else None
        if word == TURNS:
            del rest[:1]
        elif not word.startswith("-"):
            return word
    return None


def classes_of(words: Sequence[str]) -> Classes:
    """The classes that a server has by its words, the demonstration classes where they name no file; nothing is known of
    them where that cannot be read."""
    path = file_in(words)
    try:
        return Classes((DEMONSTRATION if path is None else Path(path)).read_bytes())
    except (OSError, ValueError, KeyError, TypeError, Refused):
        return Classes()
