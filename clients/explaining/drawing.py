"""How what is known of the objects of a session is drawn."""

from __future__ import annotations

from typing import Iterator

from .objects import ROOT, Objects
from .words import plain, shown

MARKS = {"?": "it may be gone", "...": "there may be more below it"}  # what follows an object that is drawn


def node(objects: Objects, number: int, may_have_more: bool) -> str:
    """An object with its class, its name and its marks."""
    name = objects.names.get(number)
    parts = [str(number), plain(objects.classes[number]), shown(name) if name else None]
    parts.append(None if number in objects.sure else "?")
    parts.append("..." if may_have_more and number not in objects.whole else None)
    return " ".join(filter(None, parts))


def branches(objects: Objects, number: int, may_have_more: bool, front: str = "") -> Iterator[str]:
    """The lines below an object."""
    children = objects.below.get(number, [])
    for it in children:
        is_last = it == children[-1]
        yield f"{front}{'`-- ' if is_last else '|-- '}{node(objects, it, may_have_more)}"
        yield from branches(objects, it, may_have_more, front + ("    " if is_last else "|   "))


def tree(objects: Objects, root: int) -> list[str]:
    """The lines of a tree, which may have further objects where the place of some is not known."""
    may_have_more = any(it != root for it in objects.adrift())
    return [node(objects, root, may_have_more), *branches(objects, root, may_have_more)]


def drawn(objects: Objects) -> list[str]:
    """The lines of all that is known."""
    if objects.failed:
        return ["none: it has failed, and holds nothing"]
    if objects.has_earlier:
        return ["not known, since it had objects before the first of the commands"]
    roots, adrift = objects.below.get(ROOT, []), objects.adrift()
    known, lost = ([line for root in them for line in tree(objects, root)] for them in (roots, adrift))
    return known + (["the place of these is not known:"] + lost if lost else []) or ["none"]
