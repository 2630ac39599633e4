"""What a session of a server holds, as far as it is known: objects, values, bindings, connections, publications, joins, events
and groups. `heeding` and `telling` say what each command changes of it, by its reply."""

from __future__ import annotations

from dataclasses import dataclass, field
from typing import Any, Dict, List, NamedTuple, Optional, Set, Tuple

from .connections import Connections
from .values import Spot, Values


class Join(NamedTuple):
    """What a session listens to."""

    source: str
    name: str
    types: Tuple[str, ...]
    object: int
    method: str


@dataclass(eq=False)
class Held(Connections, Values):
    """What a session holds."""

    blocked: Dict[int, Optional[bool]] = field(default_factory=dict)
    publications: Dict[str, Spot] = field(default_factory=dict)
    joins: List[Join] = field(default_factory=list)
    queued: int = 0
    is_queue_sure: bool = True
    groups: int = 0
    counts: Dict[str, int] = field(default_factory=dict)  # as `status` has told them
    failed: bool = False
    is_known: bool = True  # whether all its lines were seen
    read: Set[str] = field(default_factory=set)  # what was read as a whole

    def forget_gone(self) -> None:
        """Forgets what objects had that have gone."""
        gone = set(self.objects.lost)
        self.objects.lost.clear()
        for number in gone:
            self.drop(list(self.by_end.get(number, ())))
            self.blocked.pop(number, None)
            for name in self.of_object.pop(number, ()):
                self.cells.pop((number, name), None)
        if gone:
            for spot in [it for it in self.bindings if it[0] in gone]:
                self.unbind(spot)
            self.errors = {spot: cell for spot, cell in self.errors.items() if spot[0] not in gone}
            self.loose = {spot for spot in self.loose if spot[0] not in gone}
            self.unread = {spot for spot in self.unread if spot[0] not in gone}
            self.publications = {name: spot for name, spot in self.publications.items() if spot[0] not in gone}
            self.joins = [it for it in self.joins if it.object not in gone]

    def shake(self) -> None:
        """Unknown slots were called, which may have changed anything."""
        self.doubt_all()
        self.are_connections_sure, self.is_queue_sure = False, False
        self.last_connection = None
        self.blocked = {number: None for number in self.objects.classes}

    def fail(self) -> None:
        """The session has found no memory: all that it held is gone."""
        self.drop(list(self.connections))
        tables: List[Dict[Any, Any]] = [
            self.cells, self.of_object, self.bindings, self.readers, self.errors, self.errors_before, self.publications,
        ]  # fmt: skip
        for table in tables:
            table.clear()
        self.loose.clear()
        self.unread.clear()
        self.joins, self.failed, self.queued, self.is_queue_sure = [], True, 0, True
