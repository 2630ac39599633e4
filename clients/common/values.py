"""The values of the properties of a session's objects, their bindings and errors, as far as they are known."""

from __future__ import annotations

from dataclasses import dataclass, field
from typing import Any, Dict, Iterable, List, NamedTuple, Set, Tuple

from .objects import Living

UNKNOWN: Any = object()  # stands for a value that is not known
ANY = "*"  # stands for the properties of all names

Spot = Tuple[int, str]  # an object, and the name of a property or the normal text of a signal


class Cell(NamedTuple):
    """The value of a property: the last one that is known, the command that showed it, and whether it is known to be unchanged; if
    not, since which command."""

    value: Any
    entry: int
    is_sure: bool
    since: int = 0


class Binding(NamedTuple):
    """The expression that a property is bound to."""

    form: Any
    reads: Tuple[Spot, ...]
    entry: int


@dataclass(eq=False)
class Values:
    """The values, bindings and errors of the properties of a session's objects."""

    objects: Living = field(default_factory=Living)
    cells: Dict[Spot, Cell] = field(default_factory=dict)
    of_object: Dict[int, Set[str]] = field(default_factory=dict)  # the properties whose cells there are
    bindings: Dict[Spot, Binding] = field(default_factory=dict)
    readers: Dict[Spot, Set[Spot]] = field(default_factory=dict)
    errors: Dict[Spot, Cell] = field(default_factory=dict)  # of bound properties
    errors_before: Dict[Spot, Cell] = field(default_factory=dict)  # those when the group began that is open
    in_doubt: Set[Spot] = field(default_factory=set)  # those that the command that is learnt from may have ended
    loose: Set[Spot] = field(default_factory=set)  # bound properties that a slot may have written, and so may not be bound
    unread: Set[Spot] = field(default_factory=set)  # bound properties whose expressions are not known
    doubted: Dict[str, int] = field(default_factory=dict)  # up to which object a property may have been written unseen
    doubted_at: Dict[str, int] = field(default_factory=dict)  # the command that a doubt of all such properties comes from
    changes: List[Tuple[Spot, Any]] = field(default_factory=list)  # values that the command that is learnt from has made known
    at: int = 0  # the newest command that was learnt from

    def put(self, spot: Spot, value: Any, entry: int, is_sure: bool = True) -> None:
        """A property has a value."""
        before = self.cells.get(spot)
        if is_sure and (before is None or not before.is_sure or before.value != value or type(before.value) is not type(value)):
            self.changes.append((spot, value))
        self.cells[spot] = Cell(value, entry, is_sure, 0 if is_sure else self.at)
        self.of_object.setdefault(spot[0], set()).add(spot[1])

    def doubt(self, spot: Spot) -> None:
        """It is not known any more what value a property has, nor whether it is in error."""
        if spot not in self.cells:
            self.put(spot, UNKNOWN, 0, False)
        doubt_in(self.cells, spot, self.at)
        self.doubt_error(spot)

    def doubt_error(self, spot: Spot) -> None:
        """It is not known any more whether a property is in error."""
        if spot in self.errors:
            doubt_in(self.errors, spot, self.at)
            self.in_doubt.add(spot)

    def loosen(self, spot: Spot) -> None:
        """A slot may have written a property, which then is neither bound nor in error any more."""
        if spot in self.bindings:
            self.loose.add(spot)
            self.doubt_error(spot)

    def doubt_all(self, name: str = ANY) -> None:
        """It is not known any more which values the properties of this name have, or any."""
        self.doubted[name], self.doubted_at[name] = self.objects.last, self.at
        self.loose.update(spot for spot in self.bindings if name in (ANY, spot[1]))
        for spot in [*self.cells, *self.errors]:
            if name in (ANY, spot[1]):
                self.doubt(spot)

    def doubted_since(self, name: str) -> int:
        """The command since which properties of this name may have been written unseen, or 0."""
        return max(self.doubted_at.get(name, 0), self.doubted_at.get(ANY, 0))

    def has_default(self, spot: Spot) -> bool:
        """Whether a declared property that no line has shown has the value that it had at first."""
        return spot not in self.bindings and spot[0] > max(self.doubted.get(spot[1], 0), self.doubted.get(ANY, 0))

    def bind(self, spot: Spot, binding: Binding) -> None:
        """A property is bound. Where it was in an error it may still be: no line reports an error that stays the same."""
        error = self.errors.get(spot)
        self.unbind(spot)
        self.bindings[spot] = binding
        if error is not None:
            self.errors[spot] = error
            self.doubt_error(spot)
        for read in binding.reads:
            self.readers.setdefault(read, set()).add(spot)

    def unbind(self, spot: Spot) -> None:
        """A property is not bound any more."""
        binding = self.bindings.pop(spot, None)
        self.errors.pop(spot, None)
        self.loose.discard(spot)
        self.unread.discard(spot)
        for read in binding.reads if binding else ():
            without(self.readers, read, spot)

    def bring_back_errors(self) -> None:
        """A group has ended. What was in an error when it began, and was bound again in it, may be in the same one now: that
        is no change, so that no line reports it."""
        for spot, cell in self.errors_before.items():
            if spot in self.bindings and spot not in self.errors:
                self.errors[spot] = cell
                self.doubt_error(spot)
        self.errors_before = {}

    def depending(self, spots: Iterable[Spot]) -> Set[Spot]:
        """The bound properties that read one of these, or one that does."""
        found: Set[Spot] = set()
        level = list(spots)
        while level:
            level = [it for spot in level for it in self.readers.get(spot, ()) if it not in found]
            found.update(level)
        return found


def doubt_in(table: Dict[Spot, Cell], spot: Spot, since: int) -> None:
    """What a table says of a property is not known for certain any more, since a command."""
    cell = table.get(spot)
    if cell is not None and cell.is_sure:
        table[spot] = cell._replace(is_sure=False, since=since)


def without(table: Any, place: Any, key: Any) -> None:
    """Takes a key out of the entry of a table, and drops the entry if nothing is left in it."""
    held = table.get(place)
    if held is not None and key in held:
        held.remove(key)
        if not held:
            del table[place]


def reads_of(form: Any, own: int) -> Tuple[Spot, ...]:
    """The properties that an expression reads, each once, in the order in which they are written."""
    found = {}
    waiting = [form]
    while waiting:
        it = waiting.pop(0)
        if isinstance(it, list):
            waiting = it + waiting
        elif isinstance(it, dict) and isinstance(it.get("prop"), str):
            of = it.get("of", "self")
            found[own if of == "self" else of, it["prop"]] = True
        elif isinstance(it, dict) and "const" not in it:
            waiting = list(it.values()) + waiting
    return tuple(spot for spot in found if isinstance(spot[0], int))
