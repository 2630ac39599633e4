"""The lines of the plain program, byte for byte: what a line of input asks of it, and the text of what it answers.

The keys of the commands are those of the table in docs/PROTOCOL.md. A line is read by Python's `json`. What that takes
and `serde_json` does not is refused here: NaN and infinities, numbers beyond all floats, surrogates without their pair,
and what is nested too deep.
"""

import json
import math
import re
from collections import defaultdict
from itertools import accumulate

from tests.support import protocol
from tests.support.lines import LINE_BYTES, is_blank, lines_of
from tests.support.program import ROWS

from .classes import Classes
from .session import TURNS
from .values import NUMBERS, is_known_by, is_name, is_text
from .world import Server

DEPTH = 127
DIGITS = 20  # of a whole number of 64 bits, with its sign
TYPES = ("auto", "direct", "queued")
NOBODY = "-"
DEMONSTRATION = ROWS / "class_file_of_the_demonstration_classes" / "classes.json"

TEXT_OR_BRACKET = re.compile(r'"(?:[^"\\]|\\.)*"|[][{}]')
SURROGATE = re.compile(r"\\(?:u[dD][89abAB]..\\u[dD][c-fC-F]|(u[dD][89a-fA-F])|.)")  # one alone is the group


# JSON.


def no_json(what):
    raise ValueError(what)


def real_number(digits):
    number = float(digits)
    return number if math.isfinite(number) else no_json(digits)


def whole_number(digits):
    """A number without a point and an exponent, which is no whole one where it is -0 or has more than 64 bits."""
    if digits != "-0" and len(digits) <= DIGITS and NUMBERS[0] <= int(digits) <= NUMBERS[1]:
        return int(digits)
    return real_number(digits)


DECODER = json.JSONDecoder(parse_int=whole_number, parse_float=real_number, parse_constant=no_json)


def depth_of(text):
    """How deep lists and objects are nested, up to the first fault."""
    steps = ((token in "[{") - (token in "]}") for token in TEXT_OR_BRACKET.findall(text))
    return max(accumulate(steps), default=0)


def json_of(line):
    """The JSON that a line is; raises `ValueError` where a line may not be such JSON."""
    text = line.decode()
    is_deep = text.count("[") + text.count("{") > DEPTH and depth_of(text) > DEPTH
    if len(line) > LINE_BYTES or is_deep or any(SURROGATE.findall(text)):
        no_json(text)
    return DECODER.decode(text)


# The form of commands.


def is_truth(value):
    return isinstance(value, bool)


def is_priority(value):
    return type(value) is int and -1 <= value <= 1


def are_texts(value):
    return isinstance(value, list) and all(map(is_text, value))


def is_place(value):
    """Whether a value says a property of an object."""
    keys = {"object", "property"}
    return isinstance(value, dict) and value.keys() == keys and is_known_by(value["object"]) and is_name(value["property"])


HOLDS = {
    **dict.fromkeys(("class", "property", "functor", "from", "name"), is_name),
    **dict.fromkeys(("signal", "method"), is_text),
    **dict.fromkeys(("object", "parent", "sender", "receiver", "context", "connection"), is_known_by),
    **dict.fromkeys(("unique", "single", "on"), is_truth),
    "type": lambda value: value in TYPES,
    "priority": is_priority,
    "args": lambda value: isinstance(value, list),
    "types": are_texts,
    **dict.fromkeys(("value", "to"), lambda value: True),
}


OTHERWISE = {
    **dict.fromkeys((("find", "name"), ("findAll", "name")), is_text),
    ("connections", "after"): is_known_by,
    ("bindings", "after"): is_place,
    ("setParent", "parent"): lambda value: value is None or is_known_by(value),
}  # keys of one command that hold something else than elsewhere


def all_forms():
    """The forms of each command by its word: the keys that have to be there, and those that may."""
    forms = defaultdict(list)
    for word, needed, further, _ in protocol.commands():
        forms[word].append((needed, further))
    return forms


FORMS = all_forms()


def may_hold(word, key, value):
    return OTHERWISE.get((word, key), HOLDS.get(key))(value)


def is_command(given):
    """Whether an object has the keys of its command, each with what it may hold."""
    word, keys = given.get("do"), given.keys() - {"do", "session"}
    forms = FORMS.get(word, ()) if is_text(word) else ()
    if not any(needed <= keys <= needed | further for needed, further in forms):
        return False
    if word == "disconnect" and "method" in keys and "receiver" not in keys:
        return False
    if "priority" in keys and given.get("type") != "queued":
        return False
    return all(may_hold(word, key, given[key]) for key in keys)


# Lines.


def error(code, session):
    return [{"error": code, "session": session}]


def told(server, line):
    """The answers to a line that is not blank."""
    try:
        given = json_of(line)
    except ValueError:
        return error("E01", NOBODY)
    session = given.get("session") if isinstance(given, dict) else None
    if not is_name(session):
        return error("E02", NOBODY)
    return server.step(given) if is_command(given) else error("E02", session)


def command_of(line):
    """The command that a line is, or None."""
    try:
        given = json_of(line)
    except ValueError:
        return None
    return given if isinstance(given, dict) and is_name(given.get("session")) and is_command(given) else None


def answer(server, line):
    """The text that is written for a line, which has no LF."""
    return lines_of([] if is_blank(line) else told(server, line))


def server_with(path=DEMONSTRATION, turns=TURNS, kind=Server):
    """A server with the classes of a file."""
    return kind(Classes(json.loads(path.read_text())["classes"]), turns)


def server_of(row, kind=Server):
    """A server with the classes and the turns that a row starts with."""
    words = list(row.words)
    turns = int(words.pop(words.index("--turns") + 1)) if "--turns" in words else TURNS
    paths = [row.folder / word for word in words if word != "--turns"]
    return server_with(paths[0] if paths else DEMONSTRATION, turns, kind)
