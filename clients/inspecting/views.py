"""What the page receives, as JSON: of sessions, of trees, and of objects. What is not known is null, or said not to be."""

from __future__ import annotations

from dataclasses import dataclass
from functools import partial
from typing import Any, Callable, Dict, List, Optional, Sequence, Set, Tuple, Union

from common.connections import Connection
from common.objects import ROOT
from common.told import ROOTS
from common.values import UNKNOWN, Cell, Spot

from . import described
from .described import chain_of, properties_of
from .effects import cell_of
from .evaluating import settle_errors
from .forms import formula
from .naming import Key, in_order, label
from .session import Session
from .world import BEHIND, MILLION, World

ROWS_MOST = 500  # that are sent at once
LISTED_MOST = 500  # connections of an object that are sent

Json = Dict[str, Any]


def summary(world: World) -> Json:
    """What the top of the page shows, and what the page receives at each moment."""
    return {
        "version": world.version,
        "sessions": sum(not it.is_gone for it in world.sessions.values()),
        "commands": world.entries.count,
        "lines": world.lines,
        "rate": world.total_rates.rate(world.clock() // MILLION),
        "left_out": world.left_out,
        "behind": world.lag if world.is_live and world.lag > BEHIND else 0,
        "waiting": len(world.under_way),
    }


# ---- sessions ----


def counts(session: Session) -> Json:
    """How much a session has, each with whether that is known."""
    objects, read = session.objects, session.read
    are_known = is_tree_known(session)
    return {
        "objects": [len(objects.classes), are_known and len(objects.sure) == len(objects.classes)],
        "connections": [len(session.connections), session.are_connections_sure],
        "queued": [session.queued, session.is_queue_sure],
        "bindings": [len(session.bindings), session.is_known or "bindings" in read],
        "joins": [len(session.joins), session.is_known or "joins" in read],
        "publications": [len(session.publications), session.is_known or "publications" in read],
    }


def is_tree_known(session: Session) -> bool:
    """Whether all objects of a session are known, since all its lines were seen or since it was asked."""
    objects = session.objects
    return session.is_known and not objects.has_earlier or ROOTS in session.read and is_whole(session)


def is_whole(session: Session) -> bool:
    """Whether all children of all known objects are known."""
    return session.objects.whole.issuperset(session.objects.tree_below(ROOT))


def session_row(session: Session, second: int) -> Json:
    return {
        "name": session.name,
        **counts(session),
        "rate": session.rate(second),
        "lines": session.lines,
        "commands": session.commands,
        "failed": session.failed,
        "gone": session.is_gone,
        "group": session.groups,
        "since": session.since,
    }


SORTS: Dict[str, Callable[[Session, int], Union[Key, int]]] = {
    "name": lambda it, _second: in_order(it.name),
    "objects": lambda it, _second: -len(it.objects.classes),
    "connections": lambda it, _second: -len(it.connections),
    "queued": lambda it, _second: -it.queued,
    "rate": lambda it, second: -it.rate(second),
    "lines": lambda it, _second: -it.lines,
}
FILTERS: Dict[str, Callable[[Session, int], bool]] = {
    "failed": lambda it, _second: it.failed,
    "busy": lambda it, second: it.rate(second) > 0,
    "waiting": lambda it, _second: it.queued > 0,
}


@dataclass(frozen=True)
class Part:
    """Which part of a list is wanted: from which row on, how many rows, and the chosen one."""

    start: int
    count: int
    chosen: Any

    def of(self, rows: Sequence[Any], row_of: Callable[[Any], Json], key_of: Callable[[Any], Any]) -> Json:
        """These rows, and the chosen one with its place, wherever it is."""
        shown = rows[self.start : self.start + min(self.count, ROWS_MOST)]
        at = next((at for at, it in enumerate(rows) if key_of(it) == self.chosen), -1) if self.chosen else -1
        chosen = {"at": at, "row": row_of(rows[at])} if at >= 0 else None
        return {"total": len(rows), "from": self.start, "rows": [row_of(it) for it in shown], "chosen": chosen}


def sessions(
    world: World, start: int, count: int, sought: str, order: str, only: Sequence[str] = (), chosen: Optional[str] = None
) -> Json:
    """Some of the sessions, in an order. Sessions whose clients have left are not listed."""
    second = world.clock() // MILLION
    found = [it for it in world.sessions.values() if sought in it.name and not it.is_gone]
    counted = {name: sum(test(it, second) for it in found) for name, test in FILTERS.items()}
    tests = [FILTERS[it] for it in only if it in FILTERS]
    if tests:
        found = [it for it in found if any(test(it, second) for test in tests)]
    key = SORTS.get(order, SORTS["name"])
    if order != "first":
        found.sort(key=lambda it: key(it, second))
    rows = Part(start, count, chosen).of(found, lambda it: session_row(it, second), lambda it: it.name)
    return {**rows, "counted": counted}


def place(world: World, name: str, number: Optional[int]) -> Json:
    """Where a session and an object are, for the line that shows what is chosen."""
    session = world.sessions.get(name)
    if session is None or session.is_gone:
        return {"is_there": False}
    objects = session.objects
    found: Json = {"is_there": True, "failed": session.failed}
    if number is not None:
        found["object"] = {
            "is_there": number in objects.classes,
            "class": objects.classes.get(number),
            "name": objects.names.get(number),
            "above": ancestors(session, number),
        }
    return found


def ancestors(session: Session, number: int) -> List[int]:
    """The known parents of an object, the nearest first."""
    found: List[int] = []
    above = session.objects.parents.get(number)
    while above and above not in found:
        found.append(above)
        above = session.objects.parents.get(above)
    return found


# ---- trees ----


def flattened(session: Session, closed: Set[int]) -> List[Tuple[int, int]]:
    """The objects of a session with their levels, as the tree shows them; last, on level -1, those whose place is not
    known."""
    objects, found = session.objects, []
    waiting = [(it, 0) for it in reversed(objects.below.get(ROOT, []))]
    while waiting:
        number, level = waiting.pop()
        found.append((number, level))
        if number not in closed:
            waiting += [(it, level + 1) for it in reversed(objects.below.get(number, []))]
    return found + [(it, -1) for it in objects.adrift()]


def tree_row(session: Session, row: Tuple[int, int]) -> Json:
    objects = session.objects
    number, level = row
    return {
        "object": number,
        "level": level,
        "class": objects.classes.get(number),
        "name": objects.names.get(number),
        "below": len(objects.below.get(number, ())),
        "blocked": session.blocked.get(number, False),
        "sure": number in objects.sure,
        "whole": number in objects.whole,
    }


def tree(
    world: World, name: str, start: int, count: int, closed: Set[int], sought: str, class_name: str = "", chosen: Optional[int] = None
) -> Optional[Json]:
    """Some of the rows of a session's tree; with a class only its objects."""
    session = world.sessions.get(name)
    if session is None:
        return None
    rows = flattened(session, closed if not class_name else set())
    if sought:
        rows = [it for it in rows if is_sought(session, it[0], sought)]
    if class_name:
        rows = [(number, 0) for number, _ in rows if session.objects.classes.get(number) == class_name]
    known = is_tree_known(session)
    whole = known and is_whole(session)
    shown = Part(start, count, chosen).of(rows, partial(tree_row, session), lambda it: it[0])
    return {**shown, "known": known, "whole": whole, "failed": session.failed}


def is_sought(session: Session, number: int, sought: str) -> bool:
    """Whether the number, the class or the name of an object has a text in it."""
    texts = (f"#{number}", session.objects.classes.get(number) or "", session.objects.names.get(number) or "")
    return any(sought in it for it in texts)


# ---- objects ----


def moment(world: World, number: int) -> Optional[Json]:
    """When a command was given: its number, and the time in milliseconds since 1970 if that is known."""
    entry = world.entries.get(number)
    time = (world.epoch + (entry.ended or entry.given)) // 1_000 if entry and world.epoch else None
    return {"entry": number, "time": time} if number else None


def value_of(cell: Cell) -> Json:
    """A value as the page receives it: null where it is not known, as no property has that value. Whole numbers beyond what
    a browser can tell apart are texts of digits."""
    if cell.value is UNKNOWN:
        return {"value": None, "sure": False, "entry": cell.entry}
    return {"value": told(cell.value), "sure": cell.is_sure, "entry": cell.entry}


def told(value: Any) -> Any:
    """A value that a browser reads as it is."""
    is_large = isinstance(value, int) and not isinstance(value, bool) and abs(value) >= 2**53
    return {"large": str(value)} if is_large else value


def property_row(world: World, session: Session, spot: Spot) -> Json:
    classes, class_name = world.classes, session.objects.classes.get(spot[0])
    declared = next((it for it in properties_of(classes, world.described, class_name) if it.name == spot[1]), None)
    binding, error = session.bindings.get(spot), session.errors.get(spot)
    cell = cell_of(classes, session, spot)
    return {
        "name": spot[1],
        "type": declared.kind if declared else None,
        "notify": declared.notify if declared else None,
        "bindable": declared.is_bindable if declared else None,
        "dynamic": declared is None and (class_name in classes or class_name in world.described),
        **value_of(cell),
        "since": None if cell.is_sure else moment(world, cell.since),
        "binding": formula(binding.form, spot[0]) if binding else None,
        "bound_by": binding.entry if binding else None,
        "bound": spot in session.bindings or spot in session.unread,
        "error": [error.value, error.is_sure, error.entry, moment(world, error.since)] if error else None,
        "readers": [list(it) for it in sorted(session.readers.get(spot, ()))[:20]],
    }


def connection_row(session: Session, it: Connection) -> Json:
    return {
        "number": it.number,
        "sender": it.sender,
        "signal": it.signal,
        "receiver": it.receiver,
        "method": it.method,
        "queued": it.is_queued,
        "single": it.is_single,
        "functor": it.is_functor,
        "entry": it.entry,
        "calls": it.calls,
        "sender_label": label(session, it.sender),
        "receiver_label": label(session, it.receiver),
    }


def object_of(world: World, name: str, number: int) -> Optional[Json]:
    """All that is known of an object."""
    session = world.sessions.get(name)
    if session is None:
        return None
    objects, classes = session.objects, world.classes
    settle_errors(classes, session, world.entries.count)
    class_name = objects.classes.get(number)
    declared = [it.name for it in properties_of(classes, world.described, class_name)]
    names = [*declared, *sorted(set(session.of_object.get(number, ())).difference(declared))]
    rows = [property_row(world, session, (number, it)) for it in names]
    keys = sorted(session.by_end.get(number, ()))
    ends = [session.connections[it] for it in keys]
    return {
        "session": name,
        "object": number,
        "is_there": number in objects.classes,
        "sure": number in objects.sure,
        "class": class_name,
        "chain": chain_of(classes, world.described, class_name),
        "class_known": class_name in classes or class_name in world.described,
        "name": objects.names.get(number),
        "parent": objects.parents.get(number),
        "children": objects.below.get(number, [])[:LISTED_MOST],
        "blocked": session.blocked.get(number, False),
        "properties": [it for it in rows if it["type"] is not None or it["value"] is not None or it["entry"]],
        "methods": methods_of(world, class_name),
        "out": [connection_row(session, it) for it in ends if it.sender == number][:LISTED_MOST],
        "in": [connection_row(session, it) for it in ends if it.receiver == number][:LISTED_MOST],
        "connections_known": session.are_connections_sure,
        "connections_since": moment(world, session.since.get("connections", 0)),
        "published": [[it, spot[1]] for it, spot in session.publications.items() if spot[0] == number],
        "joins": [[it.source, it.name, it.method] for it in session.joins if it.object == number],
        "version": session.version,
    }


def methods_of(world: World, class_name: Optional[str]) -> List[Json]:
    """The methods of a class: of the class file, or as `describe` or `meta` has told them."""
    found = world.classes.methods(class_name)
    if class_name is not None and class_name not in world.classes and class_name in world.described:
        told_of = described.methods_of(world.described, class_name)
        return [{"text": text, "kind": kind, "of": of, "body": None} for text, kind, of in told_of]
    if class_name in world.classes or class_name not in world.met:
        return [{"text": text, "kind": kind, "of": of, "body": world.classes.body(of, text)} for text, kind, of in found]
    texts = world.met[class_name or ""].get("methods", [])
    return [{"text": text, "kind": None, "of": None, "body": None} for text in texts]
