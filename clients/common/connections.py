"""The connections of a session, as far as they are known."""

from __future__ import annotations

from dataclasses import dataclass, field
from typing import Any, Dict, Iterable, List, Optional, Set, Tuple

from .values import Spot, without


@dataclass(eq=False)
class Connection:
    """A connection: what it leads from and to, and its number where that is known. `method` may be a functor."""

    number: Optional[int]
    sender: int
    signal: str
    receiver: int
    method: str
    is_queued: bool = False
    is_single: bool = False
    is_functor: bool = False
    entry: int = 0  # the command that made it
    calls: int = 0  # that it has made, as far as is known


@dataclass(eq=False)
class Connections:
    """The connections of a session, by keys of our own in the order in which they were made."""

    connections: Dict[int, Connection] = field(default_factory=dict)
    by_signal: Dict[Spot, List[int]] = field(default_factory=dict)
    by_call: Dict[Tuple[int, int, str], List[int]] = field(default_factory=dict)  # by sender, receiver and method
    by_number: Dict[int, int] = field(default_factory=dict)
    last_connection: Optional[int] = 0  # the highest number that was given, or None where it is not known
    by_end: Dict[int, Set[int]] = field(default_factory=dict)  # keys of those that begin or end at an object
    are_connections_sure: bool = True
    next_key: int = 0

    def add(self, connection: Connection) -> None:
        """A connection was made, or is known now."""
        key, self.next_key = self.next_key, self.next_key + 1
        self.connections[key] = connection
        self.by_signal.setdefault((connection.sender, connection.signal), []).append(key)
        self.by_call.setdefault((connection.sender, connection.receiver, connection.method), []).append(key)
        if connection.number is not None:
            self.by_number[connection.number] = key
        for end in {connection.sender, connection.receiver}:
            self.by_end.setdefault(end, set()).add(key)

    def drop(self, keys: Iterable[int]) -> None:
        """These connections are broken."""
        for key in keys:
            it = self.connections.pop(key, None)
            if it is None:
                continue
            without(self.by_signal, (it.sender, it.signal), key)
            without(self.by_call, (it.sender, it.receiver, it.method), key)
            self.by_number.pop(it.number or 0, None)
            for end in {it.sender, it.receiver}:
                without(self.by_end, end, key)

    def matching(self, sender: int, signal: Optional[str], receiver: Optional[int], method: Optional[str]) -> List[int]:
        """The connections of a sender that match where the rest is given."""
        return [key for key in self.by_end.get(sender, ()) if self.is_match(self.connections[key], sender, signal, receiver, method)]

    @staticmethod
    def is_match(it: Connection, sender: int, signal: Optional[str], receiver: Optional[int], method: Optional[str]) -> bool:
        """Whether a connection is of this sender, and of what else is given."""
        is_method = method is None or (method == it.method and not it.is_functor)
        return it.sender == sender and signal in (None, it.signal) and receiver in (None, it.receiver) and is_method

    def from_signal(self, spot: Spot) -> List[Connection]:
        """The connections of a signal, in the order in which they were made."""
        return [self.connections[key] for key in self.by_signal.get(spot, ())]

    def replace(self, kept: List[Connection], new: List[Connection]) -> None:
        """The session has these connections, in the order of their numbers. Those whose numbers are not known come last, as
        they were."""
        if not new:
            held = set(map(id, kept))
            return self.drop([key for key, it in self.connections.items() if id(it) not in held])
        self.drop(list(self.connections))
        for it in sorted([*kept, *new], key=lambda it: (it.number is None, it.number or 0)):
            self.add(it)


def connection_of(it: Dict[str, Any], entry: int) -> Connection:
    """A connection as a reply has it."""
    how = (it["type"] == "queued", it["single"], "functor" in it)
    ends = (it["context"], it["functor"]) if "functor" in it else (it["receiver"], it["method"])
    return Connection(it["connection"], it["sender"], it["signal"], *ends, *how, entry)
