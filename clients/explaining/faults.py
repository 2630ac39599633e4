"""What is wrong with a refused command, by the table of commands."""

from __future__ import annotations

import difflib
import json
import re
from typing import Any, Callable, Dict, List, Mapping, Set, Tuple

from . import held
from .commands import FORMS
from .held import are, is_list, is_priority, is_text, is_truth

NAME = re.compile(r"[A-Za-z_][A-Za-z0-9_]{0,63}")
NUMBER_MOST = 2**32 - 1
WAYS = ("auto", "direct", "queued")
OF_ALL = {"do", "session"}  # the keys of every command

Check = Tuple[str, Callable[[Any], bool]]


def is_name(value: Any) -> bool:
    return isinstance(value, str) and NAME.fullmatch(value) is not None


def is_number(value: Any) -> bool:
    return held.is_number(value) and bool(value <= NUMBER_MOST)


def is_place(value: Any) -> bool:
    return isinstance(value, dict) and value.keys() == {"object", "property"} and is_number(value["object"]) and is_name(value["property"])


A_NAME: Check = ("a name: a letter or _, then letters, digits and _, at most 64", is_name)
A_NUMBER: Check = (f"a whole number from 1 to {NUMBER_MOST}", is_number)
A_TEXT: Check = ("a text", is_text)
A_TRUTH: Check = ("true or false", is_truth)

CHECKS: Dict[str, Check] = {
    **dict.fromkeys(("session", "class", "property", "functor", "from", "name"), A_NAME),
    **dict.fromkeys(("object", "parent", "sender", "receiver", "context", "connection"), A_NUMBER),
    **dict.fromkeys(("signal", "method"), A_TEXT),
    **dict.fromkeys(("on", "unique", "single"), A_TRUTH),
    "args": ("an array", is_list),
    "types": ("an array of texts", are(is_text)),
    "type": ('"auto", "direct" or "queued"', lambda value: value in WAYS),
    "priority": ("-1, 0 or 1", is_priority),
}
OTHERWISE: Dict[Tuple[str, str], Check] = {
    **dict.fromkeys((("find", "name"), ("findAll", "name")), A_TEXT),
    ("connections", "after"): A_NUMBER,
    ("bindings", "after"): ("an object with the keys object and property: a number and a name", is_place),
    ("setParent", "parent"): (f"null or {A_NUMBER[0]}", lambda value: value is None or is_number(value)),
}


def faults_in(raw: bytes) -> List[str]:
    """What is wrong with a line that is no command, as texts for people; nothing where it is no JSON."""
    try:
        return faults_of(json.loads(raw.decode()))
    except (ValueError, RecursionError):
        return []


def faults_of(asked: Any) -> List[str]:
    """What is wrong with a line that is JSON and no command, as texts for people."""
    if not isinstance(asked, dict):
        return ["a command is a JSON object"]
    faults = [f"the key {key} is missing" for key in ("session", "do") if key not in asked]
    if "session" in asked:
        faults += fault_at("", "session", asked)
    do = asked.get("do")
    if isinstance(do, str) and do in FORMS:
        return faults + faults_of_form(do, asked)
    return faults + ([no_command(do)] if "do" in asked else [])


def no_command(do: Any) -> str:
    """That a word is not known, and which was meant."""
    near = difflib.get_close_matches(do, FORMS, 1) if isinstance(do, str) else []
    return "the key do holds no command" + (f"; is {near[0]} meant?" if near else "")


def faults_of_form(do: str, asked: Mapping[str, Any]) -> List[str]:
    """What is wrong with the keys of a command, by that of its forms that is nearest."""
    keys = asked.keys() - OF_ALL
    forms: List[Tuple[Set[str], Set[str]]] = [(set(it.keys), set(it.optional)) for it in FORMS[do]]
    required, optional = max(forms, key=lambda it: len(keys & (it[0] | it[1])))
    faults = [f"{do} has to have the key {key}" for key in sorted(required - keys)]
    faults += [f"{do} has no key {key}" for key in sorted(keys - required - optional)]
    if do == "disconnect" and "method" in keys and "receiver" not in keys:
        faults.append("disconnect has the key method only together with the key receiver")
    if "priority" in keys & optional and asked.get("type", "auto") in ("auto", "direct"):
        faults.append(f'{do} has the key priority only with the type "queued"')
    for key in sorted(keys & (required | optional)):
        faults += fault_at(do, key, asked)
    return faults


def fault_at(do: str, key: str, asked: Mapping[str, Any]) -> List[str]:
    """What is wrong with the value of a key."""
    words, holds = OTHERWISE.get((do, key)) or CHECKS.get(key) or ("any JSON", lambda value: True)
    return [] if holds(asked[key]) else [f"the key {key} has to hold {words}"]
