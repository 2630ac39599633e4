"""What replies to commands that only read make known of a session. They hold whatever was known before."""

from __future__ import annotations

from typing import Any, Callable, Dict

from .asked import OBJECT_NAME
from .changes import Done
from .connections import Connection, connection_of
from .holding import Held, Join
from .values import ANY, Binding, Cell, Spot, reads_of

PAGE = 1_000  # the most connections or bindings of one reply
WHOLE = ("bindings", "publications", "joins")  # lists of a whole session
ROOTS = "children"  # the roots of a session


def know_object(held: Held, done: Done) -> None:
    """The class of an object, and whether its signals are blocked."""
    number, objects = done.asked["object"], held.objects
    if number not in objects.classes:
        objects.tell_class(number, done.reply["class"])
        held.doubted[ANY] = max(held.doubted.get(ANY, 0), number)  # it may have other values than at first
    held.blocked[number] = done.reply["blocked"]


def know_properties(held: Held, done: Done) -> None:
    """All properties of an object: their values, whether they are bound, and their errors."""
    number = done.asked["object"]
    for it in done.reply:
        know_property(held, done, (number, it["name"]), it)
    names = {it["name"] for it in done.reply}
    for name in [it for it in held.of_object.get(number, ()) if it not in names]:
        held.of_object[number].discard(name)
        held.cells.pop((number, name), None)


def know_property(held: Held, done: Done, spot: Spot, it: Dict[str, Any]) -> None:
    """A property of an object."""
    if not it["bound"]:
        held.unbind(spot)
    elif spot not in held.bindings or spot in held.loose:
        held.unread.add(spot)
    held.put(spot, it["value"], done.number)
    if it["error"] is None:
        held.errors.pop(spot, None)
    else:
        held.errors[spot] = Cell(it["error"], done.number, True)
    if it["name"] == OBJECT_NAME and it["bound"]:
        held.objects.bind(spot[0])
    elif it["name"] == OBJECT_NAME:
        held.objects.unbind(spot[0])
        held.objects.name(spot[0], it["value"])


def know_binding(held: Held, done: Done) -> None:
    """The expression of a property, or that it is not bound."""
    spot = (done.asked["object"], done.asked["property"])
    held.unread.discard(spot)
    if done.reply is None:
        held.unbind(spot)
        return
    known, error = held.bindings.get(spot), held.errors.get(spot)
    if known is None or reads_of(known.form, spot[0]) != reads_of(done.reply, spot[0]) or spot in held.loose:
        held.bind(spot, Binding(done.reply, reads_of(done.reply, spot[0]), done.number))
        if error is not None:
            held.errors[spot] = error


def know_bindings(held: Held, done: Done) -> None:
    """Which properties are bound, if one reply has all of them."""
    told = {(it["object"], it["property"]) for it in done.reply}
    if "after" not in done.asked and len(done.reply) < PAGE:
        for spot in [it for it in held.bindings if it not in told]:
            held.unbind(spot)
    held.unread.update(spot for spot in told if spot not in held.bindings)


def know_connections(held: Held, done: Done) -> None:
    """The connections of a session or of an object, as far as one reply has them."""
    asked, told = done.asked, {it["connection"]: it for it in done.reply}
    after, number = asked.get("after", 0), asked.get("object")
    is_whole = len(done.reply) < PAGE
    last = None if is_whole else done.reply[-1]["connection"]

    def is_told(it: Connection) -> bool:
        """Whether the reply would have a connection."""
        if number not in (None, it.sender, it.receiver):
            return False
        return not after and is_whole if it.number is None else it.number > after and (last is None or it.number <= last)

    kept = [it for it in held.connections.values() if not is_told(it) or it.number in told]
    known = {it.number for it in kept}
    new = [connection_of(it, done.number) for it in done.reply if it["connection"] not in known]
    if new or len(kept) != len(held.connections):
        held.replace(kept, new)
    if number is None and not after and is_whole:
        held.are_connections_sure = True


def know_publications(held: Held, done: Done) -> None:
    """What a session publishes."""
    held.publications = {it["name"]: (it["object"], it["signal"]) for it in done.reply}


def know_joins(held: Held, done: Done) -> None:
    """What a session listens to."""
    held.joins = [Join(it["from"], it["name"], tuple(it["types"]), it["object"], it["method"]) for it in done.reply]


def know_queue(held: Held, done: Done) -> bool:
    """How many events wait; whether the reply has told it."""
    reply = done.reply if isinstance(done.reply, dict) else {}
    left = reply.get("left" if done.word == "spin" else "queued")
    if done.word not in ("spin", "status") or not isinstance(left, int):
        return False
    held.queued, held.is_queue_sure = left, True
    return True


def know_read(held: Held, done: Done) -> None:
    """What of a session one reply has as a whole: nothing of that was missed then, even if lines were left out before."""
    if done.error is None and isinstance(done.reply, list) and len(done.reply) < PAGE:
        if done.word in WHOLE and "after" not in done.asked:
            held.read.add(done.word)
        elif done.word == "children" and done.asked.get("object") is None:
            held.read.add(ROOTS)


BY_WORD: Dict[str, Callable[[Held, Done], None]] = {
    "object": know_object,
    "properties": know_properties,
    "binding": know_binding,
    "bindings": know_bindings,
    "connections": know_connections,
    "publications": know_publications,
    "joins": know_joins,
}
