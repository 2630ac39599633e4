"""What a command names: the objects at its keys, those that an expression of a binding reads, and signatures."""

from __future__ import annotations

from functools import lru_cache
from typing import Any, Dict, Mapping

from checking.signatures import NoSignature, signature_of

OBJECT_NAME = "objectName"  # the property that every class declares
OBJECT_KEYS = ("object", "parent", "sender", "receiver", "context")  # of a command that hold the number of an object
PARTS = ("+", "-", "<", "=", "cat", "if")  # the keys of an expression that hold others

Asked = Dict[str, Any]  # what a command holds at its keys


def word_of(asked: Mapping[str, Any]) -> str:
    """What a command asks to do; empty where that is no text."""
    word = asked.get("do")
    return word if isinstance(word, str) else ""


def is_number(value: Any) -> bool:
    """Whether a value may be the number of an object."""
    return isinstance(value, int) and not isinstance(value, bool) and value > 0


def named_in(asked: Mapping[str, Any]) -> list[int]:
    """The numbers of the objects that a command names, each once, except those that an expression reads."""
    return sorted({asked[key] for key in OBJECT_KEYS if is_number(asked.get(key))})


def objects_of(form: Any) -> set[int]:
    """The numbers of the objects that an expression reads, whatever else it is."""
    if isinstance(form, list):
        return set().union(*map(objects_of, form))
    if not isinstance(form, dict):
        return set()
    own: set[int] = {form["of"]} if "prop" in form and is_number(form.get("of")) else set()
    return own.union(*(objects_of(form[key]) for key in PARTS if key in form))


def all_named_in(asked: Mapping[str, Any]) -> list[int]:
    """The numbers of all objects that a command names, each once."""
    return sorted({*named_in(asked), *objects_of(asked.get("to"))})


@lru_cache(maxsize=4_096)
def normal(text: str) -> str:
    """The normal text of a signature; any other text unchanged."""
    try:
        return signature_of(text).text()
    except NoSignature:
        return text
