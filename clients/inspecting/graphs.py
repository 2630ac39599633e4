"""Graphs of bindings, of connections, and of who listens to whom."""

from __future__ import annotations

from typing import Any, Dict, Hashable, Iterable, List, Mapping, Optional, Sequence, Set, Tuple, TypeVar

from common.values import Spot

from .forms import formula
from .naming import label
from .session import Session
from .world import World

NODES_MOST = 400  # that are drawn
TEXTS_MOST = 8  # of an edge
Node = TypeVar("Node", bound=Hashable)
Json = Dict[str, Any]


def in_loops(reads: Mapping[Node, Sequence[Node]]) -> Set[Node]:
    """The nodes that lead to themselves. Nodes that lead nowhere, or that nothing leads to, are removed until there are no
    more; a walk from each node left sorts out what lies between loops."""
    left = {node: {it for it in ends if it in reads} for node, ends in reads.items()}
    left = without_ends(left)
    return {node for node in left if node in reached(left, left[node])}


def without_ends(left: Dict[Node, Set[Node]]) -> Dict[Node, Set[Node]]:
    """Removes the nodes that lead nowhere, until every node leads somewhere."""
    into: Dict[Node, List[Node]] = {}
    for node, ends in left.items():
        for it in ends:
            into.setdefault(it, []).append(node)
    waiting = [node for node, ends in left.items() if not ends]
    while waiting:
        node = waiting.pop()
        left.pop(node, None)
        for it in into.get(node, ()):
            if it in left:
                left[it].discard(node)
                if not left[it]:
                    waiting.append(it)
    return left


def reached(leads: Mapping[Node, Iterable[Node]], starts: Iterable[Node]) -> Set[Node]:
    """All nodes to which some lead, these among them."""
    found, waiting = set(starts), list(starts)
    while waiting:
        for it in leads.get(waiting.pop(), ()):
            if it not in found:
                found.add(it)
                waiting.append(it)
    return found


def near(start: Iterable[Hashable], ends: Iterable[Sequence[Hashable]], steps: int) -> Set[Hashable]:
    """What is so many steps from some nodes at most, whichever way the edges lead."""
    nexts: Dict[Hashable, Set[Hashable]] = {}
    for one, other in ends:
        nexts.setdefault(one, set()).add(other)
        nexts.setdefault(other, set()).add(one)
    found = set(start)
    level = set(found)
    for _ in range(steps):
        level = {it for node in level for it in nexts.get(node, ())} - found
        found |= level
    return found


class Drawing:
    """Nodes by what they stand for, and edges between them."""

    def __init__(self) -> None:
        self.nodes: Dict[Hashable, Json] = {}
        self.edges: Dict[Tuple[Hashable, Hashable, str], List[Any]] = {}  # with whether it is in a loop, its texts, and its calls

    def edge(self, start: Hashable, end: Hashable, signal: str, text: str = "", calls: int = 0, is_loop: bool = False) -> None:
        """Adds to the edge between two nodes that has a signal: there is one for each signal."""
        edge = self.edges.setdefault((start, end, signal), [is_loop, [], 0])
        if text:
            edge[1].append(text)
        edge[2] += calls

    def told(self, start: Iterable[Hashable], steps: int) -> Json:
        """The graph as the page is given it, or what of it is near to some nodes."""
        keys = list(self.nodes)
        if steps:
            close = near(start, ((one, other) for one, other, _ in self.edges), steps)
            keys = [it for it in keys if it in close]
        shown = keys[:NODES_MOST]
        places = {key: at for at, key in enumerate(shown)}
        edges = [
            [places[one], places[other], is_loop, "\n".join([signal, *texts[:TEXTS_MOST]]), calls or len(texts), signal]
            for (one, other, signal), (is_loop, texts, calls) in self.edges.items() if one in places and other in places
        ]  # fmt: skip
        return {"nodes": [self.nodes[it] for it in shown], "edges": edges, "left": len(keys) - len(shown)}


def bindings(session: Session, number: Optional[int] = None, steps: int = 0) -> Json:
    """Which property reads which."""
    reads: Dict[Spot, Sequence[Spot]] = {spot: it.reads for spot, it in session.bindings.items()}
    loops, drawing = in_loops(reads), Drawing()
    for spot in dict.fromkeys([*reads, *(it for ends in reads.values() for it in ends)]):
        drawing.nodes[spot] = binding_node(session, spot, spot in loops)
    for spot, ends in reads.items():
        for it in ends:
            drawing.edge(it, spot, f"#{it[0]}.{it[1]}", is_loop=it in loops and spot in loops)
    return drawing.told([spot for spot in drawing.nodes if number == spot[0]], steps)  # type: ignore[index]


def binding_node(session: Session, spot: Spot, is_in_loop: bool) -> Json:
    """A property as it is drawn."""
    binding, error = session.bindings.get(spot), session.errors.get(spot)
    return {
        "object": spot[0],
        "name": f"#{spot[0]}.{spot[1]}",
        "label": label(session, spot[0]),
        "under": formula(binding.form, spot[0]) if binding else "",
        "lines": 3,
        "loop": is_in_loop,
        "error": error.value if error else None,
        "error_sure": bool(error and error.is_sure),
        "is_there": spot[0] in session.objects.classes,
    }


def connections(world: World, session: Session, number: Optional[int] = None, steps: int = 0) -> Json:
    """Which object calls which, by which signal; and the sessions that it listens to, and that listen to it."""
    drawing = Drawing()
    for it in session.connections.values():
        for end in (it.sender, it.receiver):
            drawing.nodes[end] = object_node(session, end)
        drawing.edge(it.sender, it.receiver, it.signal, f"→ {it.method}{' (queued)' if it.is_queued else ''}", it.calls)
    for join in session.joins:
        other_session(drawing, join.source)
        drawing.nodes[join.object] = object_node(session, join.object)
        drawing.edge(("session", join.source), join.object, join.name, f"→ {join.method} (joined)")
    for name in world.listeners.get(session.name, ()):
        for join in world.sessions[name].joins if name in world.sessions else ():
            published = session.publications.get(join.name)
            if join.source == session.name and published:
                other_session(drawing, name)
                drawing.nodes[published[0]] = object_node(session, published[0])
                drawing.edge(published[0], ("session", name), published[1], f"published as {join.name}, → #{join.object} {join.method}")
    return drawing.told([number] if number is not None else [], steps)


def object_node(session: Session, number: int) -> Json:
    """An object as it is drawn."""
    return {"object": number, "name": f"#{number}", "under": label(session, number), "lines": 2, "is_there": True}


def other_session(drawing: Drawing, name: str) -> None:
    """Adds a session that is linked to the one that is drawn."""
    drawing.nodes["session", name] = {"session": name, "name": name, "under": "a session", "lines": 2, "is_there": True, "outside": True}


def listening(world: World, chosen: str, steps: int = 0) -> Json:
    """Who listens to whom; of a session that is chosen, who can reach it by its joins and those of others."""
    sources: Dict[str, Set[str]] = {}
    drawing = Drawing()
    there = [it for it in world.sessions.values() if not it.is_gone]
    for session in there:
        for join in session.joins:
            sources.setdefault(session.name, set()).add(join.source)
            drawing.edge(join.source, session.name, join.name, f"→ #{join.object} {join.method}")
    linked = list(dict.fromkeys([*sources, *(it for ends in sources.values() for it in sorted(ends))]))
    known = set(linked)
    others = [it.name for it in there if it.name not in known]
    shown = dict.fromkeys([*([chosen] if chosen else []), *linked, *others])
    reaching = reached(sources, [chosen]) if chosen else set(shown)
    for name in shown:
        drawing.nodes[name] = listening_node(world, name, name in reaching)
    return {**drawing.told([chosen] if chosen else [], steps), "linked": len(linked)}


def listening_node(world: World, name: str, can_reach: bool) -> Json:
    """A session as it is drawn."""
    session = world.sessions.get(name)
    under = "no command yet" if session is None else f"{len(session.publications)} published, {len(session.joins)} joined"
    return {"session": name, "name": name, "under": under, "lines": 2, "reaches": can_reach, "is_there": session is not None}
