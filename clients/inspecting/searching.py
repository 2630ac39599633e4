"""Search across all sessions: by session, object, class, name, value and publication."""

from __future__ import annotations

import time
from dataclasses import dataclass
from itertools import islice
from typing import Any, Callable, Dict, FrozenSet, Iterator, List, Optional, Tuple

from common.values import UNKNOWN

from .naming import in_order
from .session import Session
from .world import World

KINDS = ("session", "object", "class", "name", "value", "publication")
FOUND_MOST = 200  # rows of one answer
SECONDS_MOST = 2.0  # after which a search ends early

Json = Dict[str, Any]
Match = Tuple[str, Optional[int], str]  # the kind, the object, and the text that matches


@dataclass(frozen=True)
class Query:
    """A text, and where to look for it. Capital and small letters are the same."""

    text: str
    kinds: FrozenSet[str] = frozenset(KINDS)

    @property
    def needle(self) -> str:
        return self.text.strip().casefold()

    def is_in(self, text: str) -> bool:
        """Whether a text contains the one that is looked for."""
        return self.needle in text.casefold()

    def number(self) -> Optional[int]:
        """The number of an object, with or without `#`, or None."""
        digits = self.needle.lstrip("#")
        return int(digits) if digits.isascii() and digits.isdecimal() and len(digits) < 16 else None


def query_of(text: str, kind: str) -> Query:
    """A query for one kind, or for all kinds."""
    return Query(text[:1_000], frozenset((kind,) if kind in KINDS else KINDS))


# ---- one session ----


def by_session(session: Session, query: Query) -> Iterator[Match]:
    """The session, if its name matches."""
    if query.is_in(session.name):
        yield "session", None, session.name


def by_object(session: Session, query: Query) -> Iterator[Match]:
    """The object of this number."""
    number = query.number()
    if number in session.objects.classes:
        yield "object", number, f"#{number}"


def by_class(session: Session, query: Query) -> Iterator[Match]:
    """The objects whose class matches."""
    for number, name in session.objects.classes.items():
        if query.is_in(name):
            yield "class", number, name


def by_name(session: Session, query: Query) -> Iterator[Match]:
    """The objects whose name matches."""
    for number, name in session.objects.names.items():
        if name and query.is_in(name) and number in session.objects.classes:
            yield "name", number, name


def by_value(session: Session, query: Query) -> Iterator[Match]:
    """The properties whose value is the one that is looked for, or a text that contains it."""
    for (number, name), cell in session.cells.items():
        if cell.value is not UNKNOWN and name != "objectName" and is_value(cell.value, query):
            yield "value", number, f"{name} = {text_of(cell.value)}"


def is_value(value: Any, query: Query) -> bool:
    """Whether a value matches: a text in part, a number or a truth value as a whole."""
    return query.is_in(value) if isinstance(value, str) else query.needle == text_of(value)


def text_of(value: Any) -> str:
    """A value in the words of the protocol."""
    return str(value).lower() if isinstance(value, bool) else str(value)


def by_publication(session: Session, query: Query) -> Iterator[Match]:
    """The publications whose name matches."""
    for name, (number, signal) in session.publications.items():
        if query.is_in(name):
            yield "publication", number, f"{name}: {signal}"


BY_KIND: Dict[str, Callable[[Session, Query], Iterator[Match]]] = {
    "session": by_session, "object": by_object, "publication": by_publication, "name": by_name, "value": by_value, "class": by_class,
}  # fmt: skip


def matches(session: Session, query: Query) -> Iterator[Json]:
    """What matches in a session. An object is listed once, for the first kind that matches."""
    listed = set()
    for kind, find in BY_KIND.items():
        if kind in query.kinds:
            for found, number, text in find(session, query):
                if found in ("value", "publication") or number not in listed:
                    listed.add(number)
                    yield row_of(session, found, number, text)


def row_of(session: Session, kind: str, number: Optional[int], text: str) -> Json:
    """A row of the answer."""
    objects = session.objects
    return {
        "session": session.name,
        "object": number,
        "class": None if number is None else objects.classes.get(number),
        "name": None if number is None else objects.names.get(number),
        "kind": kind,
        "match": text[:300],
    }


# ---- all sessions ----


def search(world: World, query: Query, clock: Callable[[], float] = time.monotonic) -> Json:
    """Looks through all sessions in the order of their names. The world is locked for one session at a time, so that a long
    search does not delay what the front sends."""
    until, looked_at = clock() + SECONDS_MOST, 0
    rows: List[Json] = []
    with world.lock:
        names = sorted(world.sessions, key=in_order)
    for name in names if query.needle else ():
        if len(rows) > FOUND_MOST or clock() > until:
            break
        with world.lock:
            session = world.sessions.get(name)
            if session is not None and not session.is_gone:
                rows += islice(matches(session, query), FOUND_MOST + 1 - len(rows))
        looked_at += 1
    return {"rows": rows[:FOUND_MOST], "more": len(rows) > FOUND_MOST, "looked_at": looked_at, "sessions": len(names)}
