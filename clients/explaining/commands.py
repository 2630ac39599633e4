"""The commands of metad: what each holds at its keys, what it replies, and in which words it is refused."""

from __future__ import annotations

import re
from dataclasses import dataclass, field
from typing import Any, Callable, Iterable, Iterator, Mapping

from common.asked import Asked, all_named_in, word_of

from . import reads
from . import replies as said
from .held import Holds, are, has, is_any, is_list, is_number, is_priority, is_text, is_true, is_truth, is_whole, json_object, or_null
from .known_commands import KNOWN, LINE_BYTES
from .words import ERRORS, misfit


@dataclass(frozen=True)
class Form:
    """A command: what it holds at its keys, what it replies, and what that means."""

    said: Callable[[Asked, Any], str]
    reply: Holds
    keys: Mapping[str, Holds] = field(default_factory=dict)
    optional: Mapping[str, Holds] = field(default_factory=dict)
    refused: Mapping[str, str] = field(default_factory=dict)  # a code in the words of this command

    def is_of(self, asked: Asked) -> bool:
        held = {key: holds for key, holds in self.optional.items() if key in asked}
        return has(**self.keys, **held)(asked)


COUNTS: dict[str, Holds] = {"lost": is_whole, "mismatched": is_whole}
IS_SPIN = has(events=is_whole, left=is_whole, **COUNTS)
IS_STATUS = has(objects=is_whole, connections=is_whole, queued=is_whole, **COUNTS)
IS_META = has(**{
    "class": is_text, "super": or_null(is_text), "methods": are(is_text), "methodOffset": is_whole,
    "properties": are(is_text), "propertyOffset": is_whole,
})

IS_FUNCTOR = has(name=is_text, state=is_truth, types=are(is_text))
IS_PLACE = has(object=is_number, property=is_text)
IS_PUBLICATION = has(name=is_text, object=is_number, signal=is_text)
IS_JOIN = has(**{"from": is_text, "method": is_text, "name": is_text, "object": is_number, "types": are(is_text)})
IS_OBJECT = has(**{
    **dict.fromkeys(("children", "connectionsFrom", "connectionsTo", "events"), is_whole),
    "blocked": is_truth, "class": is_text, "level": is_number, "parent": or_null(is_number),
})
IS_DECLARED = has(**{"bindable": is_truth, "class": is_text, "name": is_text, "notify": or_null(is_text), "type": is_text})
ARE_METHODS = are(has(**{"class": is_text, "signature": is_text, "types": are(is_text)}))
IS_DESCRIPTION = has(**{
    "class": is_text, "properties": are(IS_DECLARED), "signals": ARE_METHODS, "slots": ARE_METHODS, "super": or_null(is_text),
})
IS_PROPERTY = has(
    **dict.fromkeys(("notify", "type"), or_null(is_text)), bindable=is_truth, bound=is_truth, name=is_text, value=is_any,
    error=or_null(lambda error: error in ERRORS),
)  # fmt: skip
OF_ANY_CONNECTION: dict[str, Holds] = {"connection": is_number, "sender": is_number, "signal": is_text, "single": is_truth, "type": is_text}
TO_METHOD = has(**OF_ANY_CONNECTION, method=is_text, receiver=is_number)
TO_FUNCTOR = has(**OF_ANY_CONNECTION, context=is_number, functor=is_text, state=is_whole)


def is_connection(value: Any) -> bool:
    return TO_METHOD(value) or TO_FUNCTOR(value)


HOLDS: dict[str, Holds] = {
    **dict.fromkeys(("name", "text", "signature", "way"), is_text),
    "number": is_number,
    "number or null": or_null(is_number),
    "place": IS_PLACE,
    "priority": is_priority,
    "texts": are(is_text),
    "truth": is_truth,
    "value": is_any,
    "values": is_list,
}  # what a key of each kind holds
REPLIES: dict[str, Holds] = {
    "class": IS_DESCRIPTION,
    "connections": are(is_connection),
    "count": is_whole,
    "error or null": or_null(lambda reply: reply in ERRORS),
    "expression or null": or_null(lambda reply: isinstance(reply, dict)),
    "functors": are(IS_FUNCTOR),
    "joins": are(IS_JOIN),
    "meta": IS_META,
    "names": are(is_text),
    "number": is_number,
    "number or null": or_null(is_number),
    "numbers": are(is_number),
    "object": IS_OBJECT,
    "places": are(IS_PLACE),
    "properties": are(IS_PROPERTY),
    "publications": are(IS_PUBLICATION),
    "spun": IS_SPIN,
    "status": IS_STATUS,
    "true": is_true,
    "truth": is_truth,
    "value": is_any,
}  # what a reply of each kind is
NO_CLASS = {"E03": "there is no class {class}"}
NO_PROPERTY = {"E11": "the class of object {object} declares no property {property}"}
NO_SIGNATURE = {"E06": "the text of a signal or a method is no signature"}
NO_METHOD = {"E05": "the sender has no such signal, or the receiver no such method"}
NO_SUCH_METHOD = {"E05": "object {object} has no method {method}"}
NO_MORE_CONNECTIONS = {
    "E14": "the session has as many connections as it may",
    "E19": "the numbers of the session's connections are used up",
}
REFUSED: dict[str, dict[str, str]] = {
    "new": {
        "E14": "the session has as many objects as it may, or the parent is on the last level",
        "E19": "the numbers of the session's objects are used up",
    },
    "deleteLater": {"E14": "the session has as many events as it may"},
    "setParent": {
        "E12": "object {parent} is object {object} or below it, and cannot be its parent",
        "E14": "an object would be below the last level",
        "E19": "the moves of the session are used up",
    },
    "set": {
        "E14": "the text is too long, or the object has as many dynamic properties as it may",
        "E22": "the value is not of the property's type, or of no type at all",
    },
    "bind": {
        "E11": "the class of object {object} declares no property {property}, or one that the expression reads is not declared",
        "E14": "the expression is too large or has too long a text, or the session has as many bindings as it may",
        "E18": "the property {property} of object {object}, or one that the expression reads, is not bindable",
        "E22": "this is no expression of a binding",
    },
    "begin": {"E14": "as many groups are open as may be"},
    "connect": {**NO_SIGNATURE, **NO_METHOD, **NO_MORE_CONNECTIONS},
    "connectFunctor": {
        "E05": "object {sender} has no signal {signal}",
        "E06": "the text of the signal is no signature",
        "E07": "the parameters of the signal {signal} and of the functor {functor} do not fit",
        "E10": "there is no functor {functor}",
        **NO_MORE_CONNECTIONS,
    },
    "disconnect": {**NO_SIGNATURE, **NO_METHOD},
    "invoke": {
        "E06": "the text of the method is no signature",
        "E14": "a text is too long, or the session has as many events as it may",
        "E22": "the arguments are not as many as the method has, or one is no value of its parameter's type",
    },
    "publish": {
        "E05": "object {object} has no signal {signal}",
        "E06": "the text of the signal is no signature",
        "E14": "the session has as many publications as it may",
        "E15": "the session publishes something as {name} already",
    },
    "join": {
        **NO_SUCH_METHOD,
        "E06": "the text of the method is no signature, there are too many types, or one of them is not a type",
        "E07": "the types of the parameters of {method} are not the first of those that are joined",
        "E14": "the session has as many joins as it may",
    },
    "leave": {**NO_SUCH_METHOD, "E06": "the text of the method is no signature"},
}  # codes in the words of a command, where these say more than those of the code


def form_of(word: str, required: Mapping[str, str], optional: Mapping[str, str], reply: str, codes: Iterable[str]) -> Form:
    """A form of a command, of whose keys and reply the kinds are given, and the codes for which it may be refused."""
    name = "said_of_" + re.sub("(?=[A-Z])", "_", word).lower()
    said_of = getattr(reads, name, None) or getattr(said, name)
    words = {**NO_CLASS, **(NO_PROPERTY if "property" in required else {}), **REFUSED.get(word, {})}
    needed, other = ({key: HOLDS[kind] for key, kind in kinds.items()} for kinds in (required, optional))
    return Form(said_of, REPLIES[reply], needed, other, {code: words[code] for code in codes if code in words})


FORMS = {word: [form_of(word, *form) for form in forms] for word, forms in KNOWN.items()}


@dataclass
class Command:
    """A line of the input, and what it asks where it is a JSON object."""

    number: int
    raw: bytes
    asked: Asked

    @property
    def session(self) -> Any:
        return self.asked.get("session")

    @property
    def word(self) -> str:
        return word_of(self.asked)

    def form(self) -> Form | None:
        """The form of it, or None where its word is not known here."""
        if self.word not in FORMS:
            return None
        fitting = [form for form in FORMS[self.word] if form.is_of(self.asked)]
        return fitting[0] if fitting else misfit()

    def objects(self) -> list[int]:
        """The numbers of all objects that it names, each once."""
        return all_named_in(self.asked)


def commands_in(file: Iterable[bytes]) -> Iterator[Command]:
    """The commands of an input: all lines but blank ones."""
    for number, raw in enumerate(file, 1):
        if raw.strip(b" \t\r\n") or len(raw.rstrip(b"\n")) > LINE_BYTES:
            yield Command(number, raw, json_object(raw) or {})
