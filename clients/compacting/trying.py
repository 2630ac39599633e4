"""Whether two servers are in the same state: both are asked the same, and then given the same commands, which change what their
sessions hold. Nobody else uses these servers, so they may be changed."""

from __future__ import annotations

import json
from itertools import islice
from typing import Any, Dict, Iterator, List, Sequence

from .contents import Contents, contents_of, line_of, numbers_of
from .serving import Server

TRIED_MOST = 20_000
"""The most commands by which a state is tried."""


def other_value(kind: str, value: Any) -> Any:
    """Another value of a type."""
    if kind == "bool":
        return not value
    if kind == "QString":
        return "" if value else "another"
    return 0 if value else 1


def changes(held: Contents) -> Iterator[bytes]:
    """Commands that change the properties of a session and back, which calls slots and evaluates bindings."""
    for number, properties in held.shot.properties.items():
        for it in properties:
            if it["type"] is not None and not it["bound"]:
                for value in (other_value(it["type"], it["value"]), it["value"]):
                    yield line_of(held.session, "set", object=number, property=it["name"], value=value)


def told_by(server: Server, all_held: Sequence[Contents]) -> List[bytes]:
    """What a server writes for commands that deliver events, end groups, change properties, and delete all objects.

    Groups are ended before properties are changed, because an open group announces nothing."""
    spins = [line_of(it.session, "spin") for it in all_held]
    ends = [line_of(it.session, "end") for it in all_held for _ in range(it.shot.groups)]
    lines = [*spins, *ends, *islice((line for held in all_held for line in changes(held)), TRIED_MOST), *spins]
    told = [line for answer in server.ask(lines) for line in answer]
    for held in all_held:
        deletions = [line_of(held.session, "delete", object=root) for root in held.shot.roots]
        told += [line for answer in server.ask([*deletions, *spins[:TRIED_MOST]]) for line in answer] if deletions else []
    return told + [line for answer in server.ask([line_of(it.session, "status") for it in all_held]) for line in answer]


def state_of(server: Server, sessions: Sequence[str]) -> Dict[str, Any]:
    """Everything that is found out about the state of a server. The server is of no use afterwards."""
    held = [contents_of(server, name) for name in sessions]
    numbers = {it.session: numbers_of(server, it.session) for it in held}
    return {"held": held, "numbers": numbers, "told": told_by(server, held)}


def has_events(held: Contents) -> bool:
    """Whether events of a session wait, or some were lost, which no command makes again."""
    statuses = (json.loads(line)["reply"] for line in held.told if b'"queued":' in line)
    return any(it["queued"] or it["lost"] or it["mismatched"] for it in statuses if isinstance(it, dict))
