"""The short forms of commands, and the commands that they stand for."""

from __future__ import annotations

import difflib
import re
from dataclasses import dataclass
from typing import Any, Callable, Dict, Iterator, List, Optional, Tuple

from .form_commands import DOES, PLAIN
from .infix import expression_of
from .reading import ARROW, BRACKETS, NAME, NUMBER, VALUE, Mistake, Words, types_in, values_in
from .scene import Scene, ends, types_of

WAYS = ("queued", "direct", "auto")
TRUTHS = ("unique", "single")
OF_OBJECT = re.compile(rf"({NAME}|{NUMBER})\s*\.\s*({NAME})\s*(.*)", re.DOTALL)
LAST = re.compile(r"\((.*)\)\s*([A-Za-z]*)\s*", re.DOTALL)


@dataclass(frozen=True)
class Request:
    """A command, and the name that the object in its reply is to have."""

    do: str
    keys: Dict[str, Any]
    name: Optional[str] = None


Reader = Callable[[Words, Scene], Request]
"""Reads the words after a command's word."""


@dataclass(frozen=True)
class Form:
    """A short form: how it is written, what it does, and how the words after it are read."""

    usage: str
    does: str
    read: Reader


def given(**keys: Any) -> Dict[str, Any]:
    """The keys that have a value."""
    return {key: value for key, value in keys.items() if value is not None}


def read_new(words: Words, scene: Scene) -> Request:
    """Reads what is to be made, its parent and its name."""
    keys: Dict[str, Any] = {"class": words.take(NAME, "a class")}
    if words.maybe_word("in") is not None:
        keys["parent"] = scene.object_at(words)
    return Request("new", keys, scene.name_at(words))


def of_object(do: str, **more: Any) -> Reader:
    """Reads a command of an object, with further keys."""
    return lambda words, scene: Request(do, {"object": scene.object_at(words), **more})


def of_property(do: str) -> Reader:
    """Reads a command of a property."""

    def read(words: Words, scene: Scene) -> Request:
        number, name = scene.property_at(words)
        return Request(do, {"object": number, "property": name})

    return read


def of_nothing(do: str) -> Reader:
    """Reads a command that has nothing but its word."""
    return lambda words, scene: Request(do, {})


def of_name(do: str, key: str, wanted: str) -> Reader:
    """Reads a command that has a name."""
    return lambda words, scene: Request(do, {key: words.take(NAME, wanted)})


def read_set_parent(words: Words, scene: Scene) -> Request:
    """Reads an object and its new parent, or null."""
    number = scene.object_at(words)
    words.take_word("to")
    parent = None if words.maybe_word("null") is not None else scene.object_at(words)
    return Request("setParent", {"object": number, "parent": parent})


def read_children(words: Words, scene: Scene) -> Request:
    """Reads an object, or nothing for the roots."""
    return Request("children", {"object": scene.object_at(words)} if words.rest else {})


def read_find(words: Words, scene: Scene) -> Request:
    """Reads where to look, for what, and what the object is to be called."""
    keys = sought_at(words, scene)
    return Request("find", keys, scene.name_at(words))


def read_find_all(words: Words, scene: Scene) -> Request:
    """Reads where to look, and for what."""
    return Request("findAll", sought_at(words, scene))


def sought_at(words: Words, scene: Scene) -> Dict[str, Any]:
    """The keys that say where to look, and for what."""
    words.take_word("in")
    keys: Dict[str, Any] = {"object": scene.object_at(words)}
    if words.maybe_word("name") is not None:
        keys["name"] = words.take_value('a text, "in quotes"')
    if words.maybe_word("class") is not None:
        keys["class"] = words.take(NAME, "a class")
    return keys


def read_bind(words: Words, scene: Scene) -> Request:
    """Reads a property and its expression, in JSON or as one writes it."""
    number, name = scene.property_at(words)
    if words.maybe_word("to") is not None:
        to = words.take_value("an expression in JSON; after `=` it is one as `x + 1`")
    else:
        words.take("=", "`=` and an expression, or `to` and one in JSON")
        to = expression_of(words.rest, scene.known.number_of)
        words.rest = ""
    return Request("bind", {"object": number, "property": name, "to": to})


def ways_at(words: Words) -> Dict[str, Any]:
    """How a connection is to be, at the end of a line."""
    keys: Dict[str, Any] = {}
    word = words.maybe_word(*WAYS, *TRUTHS)
    while word is not None:
        keys["type" if word in WAYS else word] = word if word in WAYS else True
        word = words.maybe_word(*WAYS, *TRUTHS)
    return keys


def read_connect(words: Words, scene: Scene) -> Request:
    """Reads a signal, and the method or the functor that it is to call."""
    number, signal = scene.method_of_object_at(words)
    keys = ends(number, signal, ("sender", "signal"))
    functor = words.maybe(rf"{ARROW}\s*{NAME}\s+for\b")
    if functor is None:
        keys.update(ends(*scene.target_at(words), ("receiver", "method")))
        return Request("connect", {**keys, **ways_at(words)})
    keys.update(functor=functor[len(ARROW) :].split()[0], context=scene.object_at(words))
    return Request("connectFunctor", {**keys, **ways_at(words)})


def read_disconnect(words: Words, scene: Scene) -> Request:
    """Reads the number of a connection, or the ends of those that are to be broken."""
    connection = words.maybe(rf"{NUMBER}(?=\s*$)")
    if connection is not None:
        return Request("disconnect", {"connection": int(connection)})
    sender, signal = scene.end_at(words)
    keys = given(sender=sender, signal=signal)
    if words.maybe(ARROW) is not None:
        receiver, method = scene.end_at(words)
        keys.update(given(receiver=receiver, method=method))
    return Request("disconnect", keys)


def read_invoke(words: Words, scene: Scene) -> Request:
    """Reads a method by its signature, and the arguments as an array."""
    number, method = scene.method_of_object_at(words)
    args = words.take_value("the arguments as an array, `[5]`") if words.rest.startswith("[") else []
    return Request("invoke", {"object": number, "method": method, "args": args, **way_and_priority_at(words)})


def way_and_priority_at(words: Words) -> Dict[str, Any]:
    """How a method is to be called, and how soon where it is queued."""
    way = words.maybe_word(*WAYS)
    has_priority = way == "queued" and words.maybe_word("priority") is not None
    return given(type=way, priority=words.take_value("a priority: -1, 0 or 1") if has_priority else None)


def read_publish(words: Words, scene: Scene) -> Request:
    """Reads a signal and the name that it is to be published under."""
    number, signal = scene.method_of_object_at(words)
    words.take_word("as")
    return Request("publish", {"object": number, "signal": signal, "name": words.take(NAME, "a name")})


def publication_at(words: Words) -> Dict[str, Any]:
    """The session and the name of a publication."""
    session = words.take(NAME, "the name of the other session")
    words.take(r"\.", "`.` and the name of what it publishes")
    return {"from": session, "name": words.take(NAME, "the name of what it publishes")}


def read_join(words: Words, scene: Scene) -> Request:
    """Reads a publication, with its types where they are written, and the method that it is to call."""
    keys = publication_at(words)
    types = words.maybe(BRACKETS)
    number, method = scene.target_at(words)
    keys["types"] = types_of(method) if types is None else types_in(types)
    return Request("join", {**keys, **ends(number, method, ("object", "method"))})


def read_leave(words: Words, scene: Scene) -> Request:
    """Reads a publication, and the method that it is to call no more."""
    keys = publication_at(words)
    return Request("leave", {**keys, **ends(*scene.target_at(words), ("object", "method"))})


def read_connections(words: Words, scene: Scene) -> Request:
    """Reads an object, or nothing for all, and the number after which connections are asked for."""
    is_of_all = not words.rest or re.match(r"after\b", words.rest) is not None
    keys: Dict[str, Any] = {} if is_of_all else {"object": scene.object_at(words)}
    if words.maybe_word("after") is not None:
        keys["after"] = int(words.take(rf"{NUMBER}(?=\s*$)", "the number of a connection"))
    return Request("connections", keys)


def read_bindings(words: Words, scene: Scene) -> Request:
    """Reads the property after which the bound ones are asked for, or nothing for all."""
    if not words.rest:
        return Request("bindings", {})
    words.take_word("after")
    number, name = scene.property_at(words)
    return Request("bindings", {"after": {"object": number, "property": name}})


OWN_WAYS = ("get",)  # commands that are typed otherwise
PLAIN_READERS: Dict[str, Callable[[str], Reader]] = {
    "nothing": of_nothing,
    "object": of_object,
    "property": of_property,
    "class": lambda do: of_name(do, "class", "a class"),
    "name": lambda do: of_name(do, "name", "a name"),
}
SPECIAL: Dict[str, Tuple[str, Reader]] = {
    "new": ("new CLASS [in OBJECT] [as NAME]", read_new),
    "setParent": ("setParent OBJECT to OBJECT|null", read_set_parent),
    "children": ("children [OBJECT]", read_children),
    "find": ('find in OBJECT [name "TEXT"] [class CLASS] [as NAME]', read_find),
    "bind": ("bind OBJECT.PROPERTY = EXPRESSION | bind OBJECT.PROPERTY to JSON", read_bind),
    "connect": ("connect OBJECT.SIGNAL -> OBJECT.METHOD [queued] [unique] [single] | connect OBJECT.SIGNAL -> FUNCTOR for OBJECT ..", read_connect),
    "disconnect": ("disconnect NUMBER | disconnect OBJECT[.SIGNAL] [-> OBJECT[.METHOD]]", read_disconnect),
    "invoke": ("invoke OBJECT.METHOD(TYPES) [[VALUE, ..]] [queued [priority NUMBER]]", read_invoke),
    "block": ("block OBJECT", of_object("block", on=True)),
    "publish": ("publish OBJECT.SIGNAL as NAME", read_publish),
    "join": ("join SESSION.NAME[(TYPES)] -> OBJECT.METHOD", read_join),
    "leave": ("leave SESSION.NAME -> OBJECT.METHOD", read_leave),
    "findAll": ('findAll in OBJECT [name "TEXT"] [class CLASS]', read_find_all),
    "connections": ("connections [OBJECT] [after NUMBER]", read_connections),
    "bindings": ("bindings [after OBJECT.PROPERTY]", read_bindings),
}  # commands with forms of their own
FURTHER = {
    "bind": 'numbers, true, false, "texts", properties, those of other objects as `p.x`, brackets, + - < =, & for texts, and '
    "`if a < b then c else d`",
    "block": "`unblock` lets them through",
    "connect": "`p.ping` is enough where there is one ping; a functor takes the place of a slot",
    "join": "without TYPES they are those of the method",
}  # what is said in addition to what a command does


def all_forms() -> Iterator[Tuple[str, Form]]:
    """The short form of each command that has one, in the order of the protocol."""
    for word, does in DOES.items():
        said = f"{does}; {FURTHER[word]}" if word in FURTHER else does
        if word in SPECIAL:
            usage, read = SPECIAL[word]
            yield word, Form(usage, said, read)
        elif word in PLAIN and word not in OWN_WAYS:
            usage, kind = PLAIN[word]
            yield word, Form(usage, said, PLAIN_READERS[kind](word))
        if word == "block":
            yield "unblock", Form("unblock OBJECT", "lets the signals of an object through", of_object("block", on=False))


FORMS = dict(all_forms())
OWN_FORMS = {  # of the shell itself: how each is written, and what it does
    "ls": ("ls [OBJECT]", "lists the children of an object, or the roots, with their classes and names"),
    "tree": ("tree [OBJECT]", "draws the tree below an object, or all trees"),
    "show": ("show OBJECT", "shows the place, the properties and the connections of an object"),
    "session": ("session NAME", "goes on in another session of the server, where names are others"),
    "names": ("names", "lists the names that were given, and which of their objects are gone"),
    "save": ("save FILE", "writes the lines that were sent into a new file, which is input for metad"),
    "save!": ("save! FILE", "does the same where FILE exists already, and writes over it"),
    "run": ("run FILE", "sends the lines of such a file"),
    "help": ("help [COMMAND]", "says what can be written"),
    "quit": ("quit", "ends the shell"),
}
OBJECT_FORMS = {
    "OBJECT.METHOD([VALUE, ..]) [queued]": "sends a signal or calls a slot, with values in JSON",
    "OBJECT.PROPERTY = VALUE": "writes a property",
    "OBJECT.PROPERTY": "reads a property",
}


def request_of(line: str, scene: Scene) -> Request:
    """The command that a short form stands for."""
    found = OF_OBJECT.fullmatch(line)
    if found is not None:
        return of_member(scene, *found.groups())
    words = Words(line)
    word = words.maybe(r"[^\s(]+") or ""
    if word not in FORMS:
        raise Mistake(strange(word, [*FORMS, *OWN_FORMS]))
    request = FORMS[word].read(words, scene)
    words.end()
    return request


def of_member(scene: Scene, word: str, member: str, rest: str) -> Request:
    """A line that begins with an object and a method or a property of it."""
    number = scene.known.number_of(word)
    if rest.startswith("("):
        return called(scene, number, member, rest)
    keys = {"object": number, "property": member}
    words = Words(rest)
    if words.maybe("=") is None:
        words.end()
        return Request("get", keys)
    value = words.take_value()
    words.end()
    return Request("set", {**keys, "value": value})


def called(scene: Scene, number: int, name: str, rest: str) -> Request:
    """A method with its arguments, and the way of its call."""
    found = LAST.fullmatch(rest)
    if found is None or found.group(2) not in ("", *WAYS):
        raise Mistake(f"wanted is `{name}([VALUE, ..])`, and after it nothing or {', '.join(WAYS)}; a value is {VALUE}")
    values = values_in(found.group(1))
    method = scene.method_for(number, name, values)
    return Request("invoke", {"object": number, "method": method, "args": values, **given(type=found.group(2) or None)})


def strange(word: str, known: List[str]) -> str:
    """That a word is not known, and which was meant."""
    near = difflib.get_close_matches(word, known, 1)
    return f"there is no command `{word}`" + (f"; is `{near[0]}` meant?" if near else "; `help` lists the commands")
