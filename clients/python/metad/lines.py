"""The lines between a client and a server: what is written, and what is read."""

from __future__ import annotations

import json
from dataclasses import dataclass
from typing import Any, Callable, Dict, List, Optional, Tuple, TypedDict, Union, cast

from .codes import meaning_of
from .errors import StrangeLine
from .values import LEAST, MOST, as_json, check_values

Value = Any
"""Whatever JSON can say."""

NOBODY = "-"
"""The session of the answer to a line that cannot be attributed to any session."""

ENCODER = json.JSONEncoder(ensure_ascii=False, separators=(",", ":"), default=as_json, allow_nan=False)
scan: Callable[[str, int], Tuple[Value, int]] = getattr(json.JSONDecoder(), "scan_once")
"""Reads a value in a text from a place on: the value, and where it ends. The types of `json` do not name this."""

FORMS: Dict[Tuple[str, ...], str] = {}
"""The lines of commands without their values, by the session, the word and the names of the keys."""

FORMS_MOST = 1_000
quoted: Callable[[str], str] = getattr(json.encoder, "encode_basestring")
"""Writes a text as JSON. The types of `json` do not name this."""

NO_COMMAND = b"{}\n"
"""A line that is no command: it is answered by `E02` for nobody, and enters no session."""


@dataclass(frozen=True)
class Call:
    """A slot of an object was called, or a functor for it."""

    object: int
    """The number of the object that the slot belongs to, or that is the functor's context."""
    method: str
    """The signature of the slot, or the name of the functor."""
    args: List[Value]
    """What it was called with."""
    sender: int
    """The number of the object whose signal called it; 0 where a command or another session's post called the slot."""


@dataclass(frozen=True)
class Warned:
    """An action was refused, a signal was nested too deep, the turns are used up, or a bound property is in error."""

    code: str
    """The code of the warning, as `E04`, or the error of the property, as `BindingLoop`."""
    object: Optional[int]
    """The number of the object; None for `E23`."""
    property_name: Optional[str]
    """The name of the property that is in error; None where the warning has a code."""
    line: Dict[str, Value]
    """The whole line, with keys that have no field here."""

    @property
    def meaning(self) -> str:
        """What the code or the error means."""
        return meaning_of(self.code)


class Spun(TypedDict):
    """What came of `spin`."""

    events: int
    left: int
    lost: int
    mismatched: int


Told = Union[Call, Warned, Spun]
"""The lines that a session receives besides answers: `Spun` for each `spin` that a front has given automatically."""


class Status(TypedDict):
    """How much there is in a session."""

    bindings: int
    connections: int
    group: int
    joins: int
    lost: int
    mismatched: int
    objects: int
    publications: int
    queued: int


Meta = TypedDict(
    "Meta",
    {
        "class": str,
        "methodOffset": int,
        "methods": List[str],
        "properties": List[str],
        "propertyOffset": int,
        "super": Optional[str],
    },
)
"""What there is in a class."""


def named(keys: Dict[str, Value]) -> Dict[str, Value]:
    """The keys of a command by their names in the protocol: in Python, those that are words of Python end with an
    underscore."""
    if "_" not in "".join(keys):
        return keys
    return {key[:-1] if key[-1:] == "_" else key: value for key, value in keys.items()}


def command_line(session: str, do: str, keys: Dict[str, Value]) -> bytes:
    """The line of a command, in which a value that is no JSON and has an `__index__`, as a proxy, is that number.
    `NoValue` where a command cannot take a value."""
    if type(do) is not str:
        return any_command_line(session, do, keys)
    written: List[Value] = []
    for value in keys.values():
        kind = type(value)
        if kind is str:
            written.append(quoted(value))
        elif kind is int and LEAST <= value <= MOST:
            written.append(value)
        else:
            return any_command_line(session, do, keys)
    form = FORMS.get((session, do, *keys))
    if form is None:
        form = form_of(session, do, keys)
    line = form % tuple(written)
    return line.encode() if line.isascii() else line.encode("utf-8", "surrogatepass")


def form_of(session: str, do: str, keys: Dict[str, Value]) -> str:
    """The line of a command with these keys, in which `%s` stands for each value. It is kept for the next such command."""
    if len(FORMS) > FORMS_MOST:
        FORMS.clear()
    names = (quoted(key).replace("%", "%%") for key in named(keys))
    ends = f'"do":{encoded(do)},"session":{encoded(session)}'.replace("%", "%%")
    form = "{" + "".join(f"{name}:%s," for name in names) + ends + "}\n"
    return FORMS.setdefault((session, do, *keys), form)


def any_command_line(session: str, do: str, keys: Dict[str, Value]) -> bytes:
    """The line of a command with any values."""
    given = {**named(keys), "do": do, "session": session}
    check_values(do, given)
    return line_with(given)


def line_with(keys: Dict[str, Value]) -> bytes:
    """A line with these keys, in their order."""
    return encoded(keys).encode("utf-8", "surrogatepass") + b"\n"


def encoder() -> Callable[[Value], str]:
    """What writes JSON as `ENCODER` does: faster where Python has its fast encoder, which is made once then."""
    make = getattr(json.encoder, "c_make_encoder", None)
    if make is None:
        return ENCODER.encode
    encode = make(None, as_json, quoted, None, ":", ",", False, False, False)
    return lambda value: "".join(encode(value, 0))


encoded = encoder()


def line_of(text: bytes) -> Dict[str, Value]:
    """A line that the server wrote."""
    try:
        whole = text.decode()
        line: Dict[str, Value]
        line, end = scan(whole, 0)
    except (ValueError, RecursionError, StopIteration):
        raise StrangeLine(text) from None
    if end + 1 != len(whole) or type(line) is not dict or type(line.get("session")) is not str:
        raise StrangeLine(text)
    return line


REPLY = b'{"reply":'


def ending_of(name: str) -> str:
    """How a reply to the session of this name ends, after its value."""
    return f',"session":{quoted(name)}}}\n'


def plain_reply(text: bytes, ending: Optional[str]) -> Optional[Tuple[Value, int]]:
    """The value of a reply, and where it ends, if a text is one reply with this ending and nothing else. Only the value is read,
    because a server writes all replies in the same form."""
    if text[:9] != REPLY:
        return None
    try:
        whole = text.decode()
        found: Tuple[Value, int] = scan(whole, 9)
    except (ValueError, RecursionError, StopIteration):
        return None
    value, end = found
    if whole[end:] != ending or (isinstance(value, (list, dict)) and "\n" in whole[:end]):
        return None
    return found


def is_answer(line: Dict[str, Value]) -> bool:
    """Whether a line answers a command."""
    return "reply" in line or "error" in line


def is_of_front(line: Dict[str, Value]) -> bool:
    """Whether a line is marked as a front's own: it answers no command of a client, whatever else it holds."""
    return "front" in line


def spun_by(line: Dict[str, Value], text: bytes) -> Spun:
    """The result of a `spin` that the front has given automatically."""
    spun = line.get("reply")
    if line["front"] != "spin" or not isinstance(spun, dict):
        raise StrangeLine(text)
    return cast(Spun, spun)


def told_by(line: Dict[str, Value], text: bytes) -> Optional[Told]:
    """The call or warning that a line reports; None for a line of another kind. A line that is a command
    comes from a program that repeats its input."""
    if "do" in line:
        raise StrangeLine(text)
    try:
        if "call" in line:
            return Call(line["object"], line["call"], line["args"], line["sender"])
        if "warning" in line:
            return Warned(line["warning"], line.get("object"), line.get("property"), line)
    except KeyError:
        raise StrangeLine(text) from None
    return None
