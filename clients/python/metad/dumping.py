"""The contents of a session, as a text for people and as commands that make them in another session.

`snapshot` reads the contents by commands that only read. It yields lists of them, and is sent their replies. The commands
of a list may be given all at once. A snapshot leaves out the events in the queue, the number of lost ones and the changes that
an open group holds back, which no command replies, and the states of functors, which no command sets.
"""

from __future__ import annotations

import json
from dataclasses import dataclass, field
from typing import Any, Callable, Dict, Generator, Iterator, List, Optional, Sequence, Tuple, TypeVar

from . import commands
from .asking import Asked
from .descriptions import BindingInfo, ClassInfo, ConnectionInfo, JoinInfo, ObjectInfo, PropertyInfo, PublicationInfo
from .errors import NotFresh
from .lines import Value

PAGE = 1_000
"""The most connections or bindings of one reply."""

Result = TypeVar("Result")
Entry = TypeVar("Entry")
Steps = Generator[List[Asked[Any]], List[Any], Result]
"""A generator that yields lists of commands to give, is sent their replies, and returns a result."""

INDENT = "    "
DEFAULTS: Dict[Optional[str], Value] = {"bool": False, "QString": ""}
NUMBER_DEFAULT = 0
NUMBERED = {"new": "object", "connect": "connection", "connectFunctor": "connection"}


@dataclass
class Snapshot:
    """What a session holds."""

    roots: List[int]
    groups: int
    objects: Dict[int, ObjectInfo] = field(default_factory=dict)
    children: Dict[int, List[int]] = field(default_factory=dict)
    properties: Dict[int, List[PropertyInfo]] = field(default_factory=dict)
    expressions: Dict[Tuple[int, str], Value] = field(default_factory=dict)
    connections: List[ConnectionInfo] = field(default_factory=list)
    publications: List[PublicationInfo] = field(default_factory=list)
    joins: List[JoinInfo] = field(default_factory=list)
    stand_ins: Dict[int, str] = field(default_factory=dict)
    """Deleted objects that bindings still read, each with a class that has the properties that they read."""


# Reading.


def snapshot() -> Steps[Snapshot]:
    """Asks for the contents of a session."""
    roots, status = yield [commands.children(), commands.status()]
    shot = Snapshot(roots, status["group"])
    level = roots
    while level:
        level = yield from one_level(shot, level)
    bound = [(number, it["name"]) for number, held in shot.properties.items() for it in held if it["bound"]]
    expressions = yield [commands.binding(number, name) for number, name in bound]
    shot.expressions = dict(zip(bound, expressions))
    shot.connections = yield from all_connections()
    shot.publications, shot.joins = yield [commands.publications(), commands.joins()]
    shot.stand_ins = yield from stand_ins(shot)
    return shot


def one_level(shot: Snapshot, level: Sequence[int]) -> Steps[List[int]]:
    """Asks for the objects of one level, and returns the numbers of their children."""
    infos = yield [commands.object_info(it) for it in level]
    properties = yield [commands.properties(it) for it in level]
    shot.objects.update(zip(level, infos))
    shot.properties.update(zip(level, properties))
    parents = [number for number, info in zip(level, infos) if info["children"]]
    children = yield [commands.children(it) for it in parents]
    shot.children.update(zip(parents, children))
    return [it for numbers in children for it in numbers]


def all_connections(object: Optional[int] = None) -> Steps[List[ConnectionInfo]]:
    """Asks for all connections, or those of an object."""

    def ask(last: Optional[ConnectionInfo]) -> Asked[List[ConnectionInfo]]:
        return commands.connections(object, None if last is None else last["connection"])

    return (yield from pages(ask))


def all_bindings() -> Steps[List[BindingInfo]]:
    """Asks for all bound properties."""
    return (yield from pages(commands.bindings))


def pages(ask: Callable[[Optional[Entry]], Asked[List[Entry]]]) -> Steps[List[Entry]]:
    """Asks for one page after another, until a page is not full."""
    found: List[Entry] = []
    while True:
        [page] = yield [ask(found[-1] if found else None)]
        found += page
        if len(page) < PAGE:
            return found


def stand_ins(shot: Snapshot) -> Steps[Dict[int, str]]:
    """Asks for classes with the properties that bindings read of deleted objects."""
    read: Dict[int, List[str]] = {}
    for expression in shot.expressions.values():
        for number, name in reads_of(expression):
            if number not in shot.objects:
                read.setdefault(number, []).append(name)
    if not read:
        return {}
    [names] = yield [commands.classes()]
    described: List[ClassInfo] = yield [commands.describe(it) for it in names]
    bindable = {it["class"]: {one["name"] for one in it["properties"] if one["bindable"]} for it in described}
    return {number: next(name for name in names if bindable[name].issuperset(of)) for number, of in read.items()}


def reads_of(form: Value) -> Iterator[Tuple[int, str]]:
    """The properties that an expression reads of objects that it names by their numbers."""
    if isinstance(form, list):
        for part in form:
            yield from reads_of(part)
    elif isinstance(form, dict) and "prop" in form:
        if isinstance(form.get("of"), int):
            yield form["of"], form["prop"]
    elif isinstance(form, dict) and "const" not in form:
        for parts in form.values():
            yield from reads_of(parts)


# As text.


def text_of(shot: Snapshot) -> str:
    """A snapshot as a text: the trees of objects with their properties, then connections, publications, joins and groups."""
    lines = [line for it in shot.roots for line in tree(shot, it, "")] or ["no objects"]
    for heading, held in (
        ("connections", [f"{it['connection']}: {connection(it)}" for it in shot.connections]),
        ("publications", [f"{it['name']}: {it['object']}.{it['signal']}" for it in shot.publications]),
        ("joins", [f"{it['from']}.{it['name']}({','.join(it['types'])}) -> {it['object']}.{it['method']}" for it in shot.joins]),
    ):
        lines += [f"{heading}:", *(INDENT + it for it in held)] if held else []
    lines += [f"groups open: {shot.groups}"] if shot.groups else []
    return "\n".join(lines) + "\n"


def tree(shot: Snapshot, number: int, front: str) -> Iterator[str]:
    """The lines of an object with its properties, and of the objects below it."""
    info = shot.objects[number]
    yield f"{front}{number} {info['class']}{', blocked' if info['blocked'] else ''}"
    for it in shot.properties[number]:
        if it["bound"] or it["type"] is None or it["value"] != default_of(it["type"]):
            yield f"{front}{INDENT}.{it['name']}{said_of(shot, number, it)}"
    for child in shot.children.get(number, ()):
        yield from tree(shot, child, front + INDENT)


def said_of(shot: Snapshot, number: int, it: PropertyInfo) -> str:
    """The value and the binding of a property. In a group the value of a bound one is left out: it is that from before the group."""
    value = "" if it["bound"] and shot.groups else f" = {compact(it['value'])}"
    if it["type"] is None:
        return f"{value}, dynamic"
    if not it["bound"]:
        return value
    error = f", in error, {it['error']}" if it["error"] is not None and not shot.groups else ""
    return f"{value}{error}, bound to {compact(shot.expressions[number, it['name']])}"


def connection(it: ConnectionInfo) -> str:
    """A connection, as the shell has it."""
    called = f"{it['functor']} for {it['context']}" if "functor" in it else f"{it['receiver']}.{it['method']}"
    way = "".join(f" {word}" for word in (it["type"], "single" if it["single"] else "auto") if word != "auto")
    return f"{it['sender']}.{it['signal']} -> {called}{way}"


def default_of(type_name: Optional[str]) -> Value:
    """The default value of a type."""
    return DEFAULTS.get(type_name, NUMBER_DEFAULT)


def compact(value: Value) -> str:
    """A value as JSON, as the server writes it."""
    return json.dumps(value, ensure_ascii=False, separators=(",", ":"), sort_keys=True)


# As commands.


def commands_of(shot: Snapshot) -> List[Dict[str, Value]]:
    """The commands that make the contents of a snapshot in a fresh session, with the same numbers."""
    placed = dict(in_place(shot))
    made = [*makings(shot, placed), *moves(shot, placed), *writings(shot), *connectings(shot.connections)]
    made += [{"do": "publish", **it} for it in shot.publications]
    made += [{"do": "join", **it} for it in shot.joins]
    return made + [{"do": "begin"}] * shot.groups


def in_place(shot: Snapshot, parent: Optional[int] = None) -> Iterator[Tuple[int, Optional[int]]]:
    """The objects that are in their places as soon as they are made in the order of their numbers, with their parents."""
    last = parent or 0
    for number in shot.roots if parent is None else shot.children.get(parent, []):
        if number < last:
            return
        last = number
        yield number, parent
        yield from in_place(shot, number)


def makings(shot: Snapshot, placed: Dict[int, Optional[int]]) -> Iterator[Dict[str, Value]]:
    """Makes the objects in the order of their numbers. The number of a deleted object is skipped by making one and deleting it."""
    for number in range(1, max([*shot.objects, *shot.stand_ins], default=0) + 1):
        if number in shot.objects:
            parent = placed.get(number)
            yield {"do": "new", "class": shot.objects[number]["class"], **({} if parent is None else {"parent": parent})}
        else:
            yield {"do": "new", "class": shot.stand_ins.get(number, "QObject")}
            if number not in shot.stand_ins:
                yield {"do": "delete", "object": number}


def moves(shot: Snapshot, placed: Dict[int, Optional[int]]) -> Iterator[Dict[str, Value]]:
    """Moves the other objects to their places: first the roots, by making each the last one in order, then the objects
    below them."""
    for number in shot.roots:
        if number not in placed:
            yield {"do": "setParent", "object": number, "parent": shot.roots[0]}
            yield {"do": "setParent", "object": number, "parent": None}
    waiting = list(reversed(shot.roots))
    while waiting:
        parent = waiting.pop()
        children = shot.children.get(parent, [])
        yield from ({"do": "setParent", "object": it, "parent": parent} for it in children if it not in placed)
        waiting += reversed(children)


def writings(shot: Snapshot) -> Iterator[Dict[str, Value]]:
    """Sets values, binds, deletes the objects that were only made for bindings to read, and blocks signals."""
    for number, held in shot.properties.items():
        for it in held:
            if not it["bound"] and (it["type"] is None or it["value"] != default_of(it["type"])):
                yield {"do": "set", "object": number, "property": it["name"], "value": it["value"]}
    for (number, name), expression in shot.expressions.items():
        yield {"do": "bind", "object": number, "property": name, "to": expression}
    yield from ({"do": "delete", "object": number} for number in shot.stand_ins)
    yield from ({"do": "block", "object": number, "on": True} for number, info in shot.objects.items() if info["blocked"])


def connectings(connections: Sequence[ConnectionInfo]) -> Iterator[Dict[str, Value]]:
    """Makes the connections in the order of their numbers. The number of a broken one is skipped by making one and breaking it."""
    number = 1
    for it in connections:
        while number < it["connection"]:
            ends = {"sender": it["sender"], "signal": "destroyed()", "receiver": it["sender"], "method": "deleteLater()"}
            yield {"do": "connect", **ends}
            yield {"do": "disconnect", "connection": number}
            number += 1
        word = "connectFunctor" if "functor" in it else "connect"
        left_out = {"connection", "state"} | ({"type"} if it["type"] == "auto" else set()) | (set() if it["single"] else {"single"})
        yield {"do": word, **{key: value for key, value in it.items() if key not in left_out}}
        number += 1


# Given again.


def replaying(given: Sequence[Dict[str, Value]]) -> Steps[None]:
    """Gives commands that `commands_of` has made. Raises `NotFresh` if an object or a connection gets another number; if the
    first command shows that, the others are not given."""
    counts = {"object": 0, "connection": 0}
    for part in (given[:1], given[1:]):
        replies = yield [Asked(it["do"], **{key: value for key, value in it.items() if key != "do"}) for it in part]
        for command, reply in zip(part, replies):
            kind = NUMBERED.get(command["do"])
            if kind is not None:
                counts[kind] += 1
                check_number(kind, counts[kind], reply)


def check_number(kind: str, wanted: int, number: int) -> None:
    """Raises `NotFresh` if a number is not the expected one."""
    if number != wanted:
        raise NotFresh(f"{kind} {wanted} got the number {number} in this session, which is not fresh")
