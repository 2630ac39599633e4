"""The lines that cost most, which worst.txt describes: the states of a session, and the lines that are counted in each.

A line costs most where the session is full of what it has nothing to do with, or of what is its own.
Expressions of worst.txt may name the sizes (`calls` and `classes` as `calls_most` and `classes_most`), the entries of
`NAMES_OF_LINES`, and the names that the description itself gives to values.
"""

from __future__ import annotations

import re
from dataclasses import asdict, dataclass, field
from functools import partial
from pathlib import Path
from typing import Any, Callable, Dict, Iterable, Iterator, List, Tuple

from lines import ENCODE, called, class_file, command, refusal, reply, sum_of

DESCRIBED = Path(__file__).with_name("worst.txt")

Line = Tuple[str, str]
Lines = Iterator[Line]
Names = Dict[str, Any]

ACTIONS = 32  # as many as a body may have
LONG = "a" * 50  # what the names of a class with much in it begin with


@dataclass(frozen=True)
class Sizes:
    """How much there is of each kind: as much as a session may have, where nothing else is said."""

    objects: int = 4_096
    levels: int = 64
    connections: int = 16_384
    events: int = 16_384
    bindings: int = 1_024
    publications: int = 1_024
    joins: int = 1_024
    sessions: int = 1_000  # that join one signal
    classes: int = 1_024
    calls: int = 10_000  # of a slot that does as much as it may
    turns: int = 1_000_000


@dataclass(frozen=True)
class Worst:
    """A line that is counted, or some lines that are counted together, with the expected output.

    By its meaning it looks at so many rows, and does so much: itself, and each action, call, event, evaluation of a binding,
    end of an object and post that arrives of all that it brings about. Where it needs much memory for what it keeps, that is
    so many bytes.
    """

    name: str
    line: str
    told: str
    rows: int = 0
    does: int = 1
    keeps: int = 0


@dataclass(frozen=True)
class State:
    """A state of a session, and lines that are each counted alone after it."""

    name: str
    before: Callable[[], Iterable[Line]]
    worst: list[Worst]
    classes: Callable[[], str]


# The classes.


def sums(leaves: int) -> dict:
    """So many numbers added up."""
    half = leaves // 2
    return {"+": [sums(half), sums(leaves - half)]} if half else {"const": 1}


def as_large_as_may_be(leaf: dict) -> dict:
    """An expression of 64 forms whose value is 30 more than that of one of them."""
    return {"if": [{"const": True}, {"+": [sums(30), leaf]}, {"const": 0}]}


OTHER = {"of": 1, "to": "self", "method": "heed(int)"}
TIE = [{"connect": "rang(int)", "unique": True, **OTHER}, {"disconnect": "rang(int)", **OTHER}]
CHILD = {"block": False, "of": {"child": "last"}}
EACH = [
    {"set": "y", "to": {"arg": 0}},
    {"emit": "other(int)", "args": [{"prop": "y"}]},
    {"connect": "rang(int)", **OTHER},
    {"disconnect": None, "of": 1},
    {"block": False},
    {"setParent": 1},
    {"deleteLater": "self"},
    {"when": {"const": True}, "then": [{"delete": 4_294_967_295}]},
]
NODE = {
    "name": "Node",
    "super": "QObject",
    "signals": ["rang(int)", "other(int)", "xChanged(int)"],
    "slots": [
        {"sig": "hear(int)", "body": []},
        {"sig": "heed(int)", "body": []},
        {"sig": "pass(int)", "body": [{"emit": "other(int)", "args": [{"arg": 0}]}]},
        {"sig": "cut(int)", "body": [TIE[1]] * ACTIONS},
        {"sig": "tie(int)", "body": TIE * (ACTIONS // 2)},
        {"sig": "seek(int)", "body": [CHILD] * ACTIONS},
        {"sig": "look()", "body": [CHILD]},
        {"sig": "step(int)", "body": [{"set": "x", "to": {"+": [{"prop": "x"}, {"const": 1}]}}]},
        {"sig": "flip(int)", "body": [{"set": "x", "to": {"-": [{"const": 1}, {"prop": "x"}]}}]},
        {"sig": "work(int)", "body": [{"set": "x", "to": as_large_as_may_be({"arg": 0})}] * ACTIONS},
        {"sig": "all(int)", "body": EACH},
    ],
    "properties": [
        {"name": "x", "type": "int", "notify": "xChanged(int)", "bindable": True},
        {"name": "y", "type": "int", "bindable": True},
    ],
}
TEXTS = f"({','.join(['QString'] * 10)})"  # as many parameters as there may be
FRESH = {"cat": [{"prop": "objectName"}, {"const": "end"}]}
TALKER = {
    "name": "Talker",
    "super": "QObject",
    "signals": [f"said{TEXTS}"],
    "slots": [{"sig": "say(int)", "body": [{"emit": f"said{TEXTS}", "args": [FRESH] * 10}]}, {"sig": f"hear{TEXTS}", "body": []}],
}
SIGNALS = [f"{LONG}{number:03}(int)" for number in range(100)]
SLOTS = [f"{LONG}{number:03}(int)" for number in range(100, 253)]
NAMES = [f"{LONG}{number:03}" for number in range(63)]
HUB = {
    "name": "Hub",
    "super": "QObject",
    "signals": SIGNALS,
    "slots": [{"sig": it, "body": []} for it in SLOTS],
    "properties": [{"name": name, "type": "int", "notify": signal, "bindable": True} for name, signal in zip(NAMES, SIGNALS)],
}
HUB_DESCRIBED = {
    "class": "Hub",
    "methodOffset": 3,
    "methods": ["destroyed()", "objectNameChanged(QString)", "deleteLater()", *SIGNALS, *SLOTS],
    "properties": ["objectName", *NAMES],
    "propertyOffset": 1,
    "super": "QObject",
}
OF_QOBJECT = {"bindable": True, "class": "QObject", "name": "objectName", "notify": "objectNameChanged(QString)", "type": "QString"}
NAME_CHANGED = {"class": "QObject", "signature": "objectNameChanged(QString)", "types": ["QString"]}
DESTROYED, DELETE_LATER = ({"class": "QObject", "signature": it, "types": []} for it in ("destroyed()", "deleteLater()"))
HUB_MEMBERS = {
    "class": "Hub",
    "properties": [
        OF_QOBJECT,
        *({"bindable": True, "class": "Hub", "name": it, "notify": signal, "type": "int"} for it, signal in zip(NAMES, SIGNALS)),
    ],
    "signals": [DESTROYED, NAME_CHANGED, *({"class": "Hub", "signature": it, "types": ["int"]} for it in SIGNALS)],
    "slots": [DELETE_LATER, *({"class": "Hub", "signature": it, "types": ["int"]} for it in SLOTS)],
    "super": "QObject",
}
HUB_PROPERTIES = [
    {**{key: it[key] for key in it if key != "class"}, "bound": False, "error": None, "value": "" if it is OF_QOBJECT else 0}
    for it in HUB_MEMBERS["properties"]
]


def usual_classes() -> str:
    return class_file(map(ENCODE, (NODE, HUB, TALKER)))


def deep_classes(count: int) -> str:
    """The maximum of classes, each the superclass of the next, except the last; some have a method each."""
    slots = [[{"sig": f"m{number}(int)", "body": []}] if number < 250 else [] for number in range(1, count)]
    above = ["QObject", *(f"C{number}" for number in range(1, count))]
    rows = [{"name": f"C{number}", "super": above[number - 1], "slots": it} for number, it in enumerate(slots, 1)]
    return class_file(map(ENCODE, [*rows, {"name": "Other", "super": "QObject"}]))


# What the description may name.


@dataclass(frozen=True)
class Refused:
    """An error, in place of a reply."""

    code: str


@dataclass(frozen=True)
class After:
    """A reply, after the lines that come before it."""

    told: str
    answer: Any


def calls(slot: str, receivers: Iterable[int], *args: Any, sender: int = 1) -> str:
    """The lines of calls of a slot of each receiver, with the argument 5 where the slot takes one."""
    return called("a", slot, receivers, *(args or ((5,) if slot.endswith("(int)") else ())), sender=sender)


def ran(number: int, method: str) -> After:
    """What a slot that a command calls is answered by."""
    return After(calls(method, [number], sender=0), True)


def warns(code: str, number: int) -> str:
    """The line of a warning for an object."""
    return ENCODE({"object": number, "session": "a", "warning": code}) + "\n"


def errors(error: str, numbers: Iterable[int]) -> str:
    """Warnings of an error of the property x of some objects."""
    return "".join(ENCODE({"object": it, "property": "x", "session": "a", "warning": error}) + "\n" for it in numbers)


def spun(events: int) -> dict:
    """The reply to `spin` after so many events, and none left."""
    return {"events": events, "left": 0, "lost": 0, "mismatched": 0}


def ends(sender: int, receiver: int, method: str = "hear(int)", signal: str = "rang(int)") -> dict:
    """The keys of a connection."""
    return {"sender": sender, "signal": signal, "receiver": receiver, "method": method}


def to(number: int, method: str, **how: Any) -> dict:
    """The keys of an `invoke` with the argument 5."""
    return {"object": number, "method": method, "args": [5], **how}


def joined(method: str = "hear(int)", number: int = 1) -> dict:
    """The keys that a `join` and its `leave` have in common."""
    return {"from": "b", "name": "level", "object": number, "method": method}


# Trees, each a list of the parents of the objects from number 1 on; 0 for no parent.


def star(count: int) -> List[int]:
    """A root and its children."""
    return [0] + [1] * (count - 1)


def chains(count: int, levels: int) -> List[int]:
    """Chains below one root, as deep as may be."""
    return [0] + [number - 1 if (number - 2) % (levels - 1) else 1 for number in range(2, count + 1)]


def binary(count: int) -> List[int]:
    """A tree of two children each."""
    return [number // 2 for number in range(1, count + 1)]


def children_of(parents: List[int], top: int) -> List[int]:
    """The children of an object."""
    return [number for number, parent in enumerate(parents, 1) if parent == top]


def below(parents: List[int], top: int) -> int:
    """How many objects are below another one."""
    found = {top}
    found.update(number for number, parent in enumerate(parents, 1) if parent in found)
    return len(found) - 1


BUILT_IN = (int, len, list, min, range, set, sorted, sum)
OF_LINES = (After, Refused, below, binary, calls, chains, children_of, deep_classes, ends, errors, joined, ran, spun, star, sum_of, to, warns)
NAMES_OF_LINES: Names = {
    **{it.__name__: it for it in (*BUILT_IN, *OF_LINES)},
    **{"after": After, "large": as_large_as_may_be, "refused": Refused, "__builtins__": {}},
    **{"ACTIONS": ACTIONS, "EACH": EACH, "HUB_DESCRIBED": HUB_DESCRIBED, "HUB_MEMBERS": HUB_MEMBERS, "HUB_PROPERTIES": HUB_PROPERTIES, "LONG": LONG},
    **{"NAMES": NAMES, "SIGNALS": SIGNALS, "SLOTS": SLOTS, "TEXTS": TEXTS},
}


# How the description is read.

EACH_OF = re.compile(r"(\w+) in (.*?): (.*)")
GIVEN = re.compile(r"(?:(\w|\{.+?\}): )?(\w+) (.+)")
SESSION = re.compile(r"\{(.+)\}")
IN_NAME = re.compile(r"\{([^{}]+?)(:,)?\}")


def compiled(text: str) -> Any:
    """An expression of the description."""
    return compile(text.strip(), str(DESCRIBED), "eval")


@dataclass(frozen=True)
class Given:
    """A command of the description with its answer, for the values of its names."""

    session: Any
    word: str
    keys: Any
    answer: Any

    @classmethod
    def read(cls, given: str, answer: str) -> Given:
        found = GIVEN.fullmatch(given)
        if found is None:
            raise ValueError(f"no command: {given}")
        computed = SESSION.fullmatch(found[1] or "a")
        session = computed[1] if computed else repr(found[1] or "a")
        return cls(compiled(session), found[2], compiled(found[3]), compiled(answer))

    def line(self, names: Names, **more: Any) -> Line:
        """The line, and its output."""
        session, keys, answer = (eval(it, names, more) for it in (self.session, self.keys, self.answer))
        told = ""
        if isinstance(answer, After):
            told, answer = answer.told, answer.answer
        if isinstance(answer, Refused):
            told += refusal(session, answer.code)
        else:
            told += reply(session, answer)
        return command(session, self.word, **keys), told


def made(parents: List[int]) -> Lines:
    """Objects of Node with these parents."""
    for number, parent in enumerate(parents, 1):
        yield command("a", "new", **{"class": "Node"}, **({"parent": parent} if parent else {})), reply("a", number)


def done(given: Given, names: Names) -> Lines:
    """One command."""
    yield given.line(names)


def repeated(name: str, values: Any, given: Given, names: Names) -> Lines:
    """A command for each value of a name."""
    return (given.line(names, **{name: value}) for value in eval(values, names))


@dataclass
class Reading:
    """A state as far as its description is read."""

    names: Names
    parts: Dict[str, List[str]]
    steps: List[Callable[[], Iterable[Line]]] = field(default_factory=list)
    worst: List[Worst] = field(default_factory=list)
    classes: Callable[[], str] = usual_classes

    def value(self, text: str) -> Any:
        return eval(text, self.names)

    def named(self, text: str) -> str:
        """A name with its values put in."""
        return IN_NAME.sub(lambda it: f"{self.value(it[1]):,}" if it[2] else str(self.value(it[1])), text)

    def take(self, lines: Iterable[str]) -> None:
        """Reads lines of the description."""
        for line in lines:
            word, _, rest = line.partition(" ")
            if word == "use":
                self.take(self.parts[rest])
            elif word == "let":
                name, _, text = rest.partition(" = ")
                self.names[name] = self.value(text)
            elif word == "classes":
                self.classes = partial(eval, rest, self.names)
            else:
                self.take_line(word, rest, line)

    def take_line(self, word: str, rest: str, line: str) -> None:
        """Reads a line that gives commands."""
        if word == "tree":
            self.steps.append(partial(made, self.value(rest)))
        elif word == "first":
            self.steps.append(partial(done, Given.read(*rest.split(" | ")), self.names))
        elif word == "each":
            found = EACH_OF.fullmatch(rest)
            if found is None:
                raise ValueError(f"no repeated command: {line}")
            name, values, given = found.groups()
            self.steps.append(partial(repeated, name, values, Given.read(*given.split(" | ")), self.names))
        else:
            name, _, lines = line.partition(" | ")
            self.worst.append(self.counted(self.named(name), lines.split(" && ")))

    def counted(self, name: str, lines: List[str]) -> Worst:
        """Lines that are counted together; the last of them has the numbers."""
        *first, (given, answer, *numbers) = (it.split(" | ") for it in lines)
        made = [Given.read(*it).line(self.names) for it in (*first, (given, answer))]
        return Worst(name, *map("".join, zip(*made)), *map(self.value, numbers))

    def before(self) -> Lines:
        """The commands before the counted one."""
        for step in self.steps:
            yield from step()


def blocks(text: str) -> Iterator[Tuple[str, str, List[str]]]:
    """The states and parts of a description, each with its name and its lines."""
    lines: List[str] = []
    for line in text.splitlines():
        word, _, name = line.partition(" ")
        if word in ("state", "part"):
            lines = []
            yield word, name, lines
        elif line.strip() and not line.startswith("#"):
            lines.append(line)


def states(sizes: Sizes) -> Iterator[State]:
    """All states, each with its lines."""
    described = list(blocks(DESCRIBED.read_text()))
    parts = {name: lines for word, name, lines in described if word == "part"}
    own = asdict(sizes)
    own.update(calls_most=own.pop("calls"), classes_most=own.pop("classes"))
    for word, name, lines in described:
        if word == "state":
            reading = Reading({**NAMES_OF_LINES, **own}, parts)
            reading.take(lines)
            yield State(reading.named(name), reading.before, reading.worst, reading.classes)
