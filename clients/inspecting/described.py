"""Classes as `describe` has told of them, for servers whose class file is not known."""

from __future__ import annotations

from typing import Any, Dict, List, Optional, Tuple

from explaining.commands import IS_DESCRIPTION

from .classes import Classes, Property

Described = Dict[str, Dict[str, Any]]
"""Replies to `describe`, by the names of the classes."""

METHODS = {"signals": "signal", "slots": "slot"}


def is_description(reply: Any) -> bool:
    """Whether a reply is in the form of a description. A program that is no `metad` may write anything."""
    return IS_DESCRIPTION(reply)


def as_meta(reply: Dict[str, Any]) -> Dict[str, Any]:
    """A description in the form of a reply to `meta`, as far as the inspector needs it."""
    methods = [it["signature"] for key in METHODS for it in reply[key]]
    return {"class": reply.get("class"), "methods": methods, "properties": [it["name"] for it in reply["properties"]]}


def walk(classes: Classes, described: Described, name: Optional[str]) -> Tuple[List[str], Optional[str]]:
    """A class and those above it that were described, and the class that comes above these."""
    found: List[str] = []
    while name is not None and name not in classes and name in described and name not in found:
        found.append(name)
        name = described[name]["super"]
    return found, name


def chain_of(classes: Classes, described: Described, name: Optional[str]) -> List[str]:
    """The names of a class and those above it, as far as they are known; nothing if the class itself is not known."""
    found, above = walk(classes, described, name)
    return found + [it.name for it in reversed(classes.chain(above))]


def unknown_in(classes: Classes, described: Described, name: Optional[str]) -> Optional[str]:
    """The first of a class and those above it that is not known, or None."""
    _, above = walk(classes, described, name)
    return None if above in classes or above in described else above


def properties_of(classes: Classes, described: Described, name: Optional[str]) -> List[Property]:
    """The declared properties of a class, by their numbers."""
    if name in classes or name is None or name not in described:
        return classes.properties(name)
    return [Property(it["name"], it["type"], it["notify"], it["bindable"]) for it in described[name]["properties"]]


def methods_of(described: Described, name: str) -> List[Tuple[str, str, str]]:
    """The methods of a described class: the signature, whether it is a signal or a slot, and the class that declares it."""
    return [(it["signature"], kind, it["class"]) for key, kind in METHODS.items() for it in described[name][key]]
