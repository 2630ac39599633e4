"""What is said about a class file: its faults (metad names the first that it finds), and what is surely not meant."""

from __future__ import annotations

from enum import Enum
from typing import NamedTuple

from .nodes import Node
from .signatures import NoSignature, signature_of

BRANCHES = ("then", "else")


class Step(Enum):
    """The steps of metad's reading in their order, each with the kind of its fault."""

    BYTES = (0, "C09")
    JSON = (1, "C01")
    FORM = (2, "C02")
    CLASSES = (3, "C09")
    NAME = (4, "C03")
    SUPERCLASS = (5, "C04")
    SIGNATURE = (6, "C05")
    TWICE = (7, "C06")
    NUMBER = (8, "C09")
    NOTIFY = (9, "C07")
    BODY = (10, "C08")
    BODY_SIZE = (11, "C09")


class Mistake(Enum):
    """What loads and is surely not meant, each with what it means."""

    KEY = ("W01", "a key occurs twice in an object, and only the last one counts")
    METHOD = ("W02", "no object that is meant has such a signal or method: E05 whenever the action is done")
    PROPERTY = ("W03", "no class declares the property, so that a dynamic one is meant, which tells nothing")
    VALUE = ("W04", "a value is of another kind or number than is asked for: E22 whenever the action is done")
    FIT = ("W05", "a signal and a method do not fit: E07 whenever the action is done")
    PARENT = ("W06", "an object is put below itself: E12 whenever the action is done")
    CASE = ("W07", "a property differs from another one of its class only by the case of letters")


class Place(NamedTuple):
    """The class, the slot and the action of a finding, as far as they are known. Numbers count from 1."""

    number: int = 0  # of the class; 0 is the file as a whole
    class_name: str | None = None
    slot: int = 0  # 0 outside slots
    signature: str | None = None
    action: str | None = None


class Finding(NamedTuple):
    """A fault or a mistake. `order` is when metad finds a fault; a mistake has no order."""

    node: Node
    code: str
    words: str
    place: Place
    order: tuple[int, ...] | None = None

    @property
    def is_fault(self) -> bool:
        return self.order is not None


def place_of(node: Node) -> Place:
    """The path of a value through the arrays and objects that hold it."""
    above = node.above()
    steps = [it.step for it in above]
    if len(above) < 3 or steps[1] != "classes" or not isinstance(steps[2], int):
        return Place()
    place = Place(int(steps[2]) + 1, above[2].text_at("name"))
    if len(above) < 5 or steps[3] != "slots" or not isinstance(steps[4], int):
        return place
    place = place._replace(slot=int(steps[4]) + 1, signature=normal(above[4].text_at("sig")))
    if len(above) < 7 or steps[5] != "body" or not isinstance(steps[6], int):
        return place
    return place._replace(action=action_of(above[6:]))


def normal(text: str | None) -> str | None:
    """The normal text of a signature, or the text itself if it is not a signature."""
    try:
        return None if text is None else signature_of(text).text()
    except NoSignature:
        return text


def action_of(above: list[Node]) -> str:
    """Which action of a body it is: `2`, or `2, then 1` in a branch."""
    words = [str(int(above[0].step) + 1)]
    for branch, item in zip(above[1::2], above[2::2]):
        if branch.step not in BRANCHES or not isinstance(item.step, int):
            break
        words.append(f"{branch.step} {item.step + 1}")
    return ", ".join(words)


class Findings:
    """All that is found in a file."""

    def __init__(self) -> None:
        self.found: list[Finding] = []

    def fault(self, step: Step, node: Node, words: str) -> None:
        place = place_of(node)
        order, code = step.value
        slot = place.slot if step in (Step.BODY, Step.BODY_SIZE) else 0
        at = (place.number, min(order, Step.BODY.value[0]), slot, order, node.at)
        self.found.append(Finding(node, code, words, place, at))

    def mistake(self, mistake: Mistake, node: Node, words: str) -> None:
        self.found.append(Finding(node, mistake.value[0], words, place_of(node)))

    def faults(self) -> list[Finding]:
        return [it for it in self.found if it.is_fault]

    def first(self) -> Finding | None:
        """The fault that metad names, where it refuses the file."""
        found = self.faults()
        return min(found, key=lambda it: it.order or ()) if found else None

    def in_order(self) -> list[Finding]:
        """All that is found, by its place in the text."""
        return sorted(self.found, key=lambda it: (it.node.at, not it.is_fault, it.code))
