"""What the calls of a command are known to have done to the objects of a session, by the bodies of their slots."""

from __future__ import annotations

from dataclasses import dataclass
from typing import Collection, Iterable, Protocol

from .objects import ROOT, Objects

DELETE_LATER = "deleteLater()"  # the slot that every object has, and no class can declare another of this name
DIRECT = ("set", "invoke", "bind", "unbind", "end")  # commands that delete nothing but by what they call
MOVES = ("delete", "setParent")
CALLS = ("delete", "name", "call")  # what may call further slots before it is done


class Called(Protocol):
    """A call of a slot or of a functor: what is called, for an object, and the object that has sent the signal, or 0."""

    @property
    def call(self) -> str: ...

    @property
    def object(self) -> int: ...

    @property
    def sender(self) -> int: ...


@dataclass(frozen=True)
class Deed:
    """What an action of a call does: one of `MOVES`, `deleteLater`, `name` where it writes the name of an object, or `call`
    where it may only call others. It is sure outside branches."""

    word: str
    call: Called
    is_sure: bool
    target: object = None
    parent: object = None


class Bodies(Protocol):
    """What the slots of a server do."""

    def deeds(self, class_name: str | None, call: Called) -> list[Deed] | None:
        """What a call of an object of this class does, in order, or None where it is not known."""


def is_prompt(deeds: list[Deed]) -> bool:
    """Whether a call has moved what it moves before it calls any other slot."""
    moves = [at for at, it in enumerate(deeds) if it.word in MOVES]
    calls = [at for at, it in enumerate(deeds) if it.word in CALLS]
    return not moves or not calls or moves[-1] < calls[0]


def followed(slots: Bodies, session: Objects, word: str, calls: Iterable[Called], warned: Collection[int]) -> list[Deed] | None:
    """What the calls of a command did, in order, where it is known.

    A call begins after its line, and the calls that it makes follow, so the lines do not say what an action did before a
    further call and what after it. That is known if no action of the slots that move or delete was refused, none of them is
    in a branch, and each except the last has moved what it moves before it calls others.
    """
    done: list[list[Deed]] = []
    for call in calls:
        deeds = [] if call.call == DELETE_LATER else slots.deeds(session.classes.get(call.object), call)
        if deeds is None:
            return None
        done.append(deeds)
    moving = [deeds for deeds in done if any(it.word in MOVES for it in deeds)]
    if moving and word not in DIRECT or not all(map(is_prompt, moving[:-1])):
        return None
    moves = [it for deeds in moving for it in deeds if it.word in MOVES]
    if any(not it.is_sure or it.call.object in warned for it in moves):
        return None
    return [it for deeds in done for it in deeds]


def post(session: Objects, deeds: Iterable[Deed], warned: Collection[int]) -> None:
    """Deletions that were asked for later."""
    for it in deeds:
        if it.word != "deleteLater":
            continue
        number = target_of(it.target, it.call, session, False)
        if number is None or not it.is_sure or it.call.object in warned:
            session.may_wait = True
        else:
            session.posted.add(number)


def move(session: Objects, deeds: list[Deed]) -> None:
    """What was moved, deleted and named, in order, up to what is not known."""
    are_named = any(it.word == "name" for it in deeds)
    for it in deeds:
        number = target_of(it.target, it.call, session, not are_named)
        if it.word == "name":
            session.forget_name(number)
        elif it.word in MOVES:
            parent = ROOT if it.parent is None else target_of(it.parent, it.call, session, not are_named)
            if number is None or parent is None:
                return session.shake()
            session.delete(number) if it.word == "delete" else session.put(number, parent)


def target_of(target: object, call: Called, objects: Objects, are_names_known: bool = True) -> int | None:
    """The object that a target of an action means, or None where it is not known."""
    if target == "self":
        return call.object
    if target == "sender":
        return call.sender or None
    if isinstance(target, dict):
        return objects.child(call.object, target.get("child", "")) if are_names_known else None
    return target if isinstance(target, int) else None
