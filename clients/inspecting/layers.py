"""A layered layout of a graph: nodes in columns from left to right, edges routed between them and never under them.

Each node is one column to the right of all that lead to it; edges against that direction, in loops, are turned for the layout.
A long edge passes a column through a gap of its own between the boxes there, and edges change their height only between two
columns, where there are no boxes. So no edge can cross a box. Edges of one bundle, which leave a node with the same signal,
share their way as long as they go to the right together.
"""

from __future__ import annotations

from dataclasses import dataclass, field
from typing import Dict, Hashable, Iterator, List, NamedTuple, Sequence, Tuple

Point = Tuple[float, float]

GAP, THIN, EDGE = 12.0, 6.0, 20.0  # between boxes; the height of an edge that passes a column; the border of the drawing
BETWEEN, FOR_EACH, BETWEEN_MOST = 70.0, 2.0, 260.0  # between columns, and more for each edge there
SWEEPS, MOVES = 8, 6


class Link(NamedTuple):
    """An edge, and the bundle that it belongs to."""

    start: int
    end: int
    bundle: Hashable = None


@dataclass
class Laid:
    """Where everything is: the left upper corners of nodes, and for each edge the points of its cubic curves."""

    spots: List[Point]
    ways: List[List[Point]]
    width: float
    height: float


@dataclass(eq=False)
class Item:
    """Something in a column: a node, or the place where edges pass."""

    rank: int
    height: float
    node: int = -1
    before: List["Item"] = field(default_factory=list)
    after: List["Item"] = field(default_factory=list)
    order: float = 0.0
    middle: float = 0.0


# ---- which column ----


def topological(count: int, links: Sequence[Link]) -> List[int]:
    """The nodes so that edges lead forward, except those that close a loop."""
    out: List[List[int]] = [[] for _ in range(count)]
    for it in links:
        if it.start != it.end:
            out[it.start].append(it.end)
    seen, found = [False] * count, []
    for root in range(count):
        waiting = [] if seen[root] else [(root, iter(out[root]))]
        seen[root] = True
        while waiting:
            node, rest = waiting[-1]
            following = next((it for it in rest if not seen[it]), None)
            if following is None:
                found.append(node)
                waiting.pop()
            else:
                seen[following] = True
                waiting.append((following, iter(out[following])))
    return found[::-1]


def ranks_of(count: int, links: Sequence[Link]) -> List[int]:
    """The column of each node. Those that nothing leads to are moved next to what they lead to."""
    order = topological(count, links)
    place = {node: at for at, node in enumerate(order)}
    out: Dict[int, List[int]] = {}
    has_before = set()
    for it in links:
        if it.start != it.end:
            start, end = sorted((it.start, it.end), key=place.__getitem__)
            out.setdefault(start, []).append(end)
            has_before.add(end)
    rank = [0] * count
    for node in order:
        for end in out.get(node, ()):
            rank[end] = max(rank[end], rank[node] + 1)
    for node in order:
        if node in out and node not in has_before:
            rank[node] = min(rank[it] for it in out[node]) - 1
    return rank


# ---- the layout ----


class Layers:
    """Lays out the nodes that have edges."""

    def __init__(self, sizes: Sequence[Point], links: Sequence[Link]) -> None:
        self.sizes, self.links = sizes, links
        self.width = max((width for width, _ in sizes), default=0.0)
        self.rank = ranks_of(len(sizes), links)
        linked = sorted({end for it in links for end in (it.start, it.end)})
        self.items = {node: Item(self.rank[node], sizes[node][1], node) for node in linked}
        self.columns: List[List[Item]] = [[] for _ in range(max(self.rank, default=0) + 1)]
        for it in self.items.values():
            self.columns[it.rank].append(it)
        self.passing: Dict[Hashable, Item] = {}
        self.chains = [self.chain(at, it) for at, it in enumerate(links)]
        self.put_in_order()
        self.put_in_place()
        self.left = self.lefts()

    def is_turned(self, link: Link) -> bool:
        return self.rank[link.start] > self.rank[link.end]

    def chain(self, at: int, link: Link) -> List[Item]:
        """What an edge passes, from its left end to its right one."""
        if link.start == link.end:
            return [self.items[link.start]]
        low, high = (link.end, link.start) if self.is_turned(link) else (link.start, link.end)
        bundle: Hashable = ("turned", at) if self.is_turned(link) or link.bundle is None else (low, link.bundle)
        found = [self.items[low]]
        for rank in range(self.rank[low] + 1, self.rank[high]):
            key = (bundle, rank)
            if key not in self.passing:
                self.passing[key] = Item(rank, THIN)
                self.columns[rank].append(self.passing[key])
            found.append(self.passing[key])
        found.append(self.items[high])
        for one, other in zip(found, found[1:]):
            if other not in one.after:
                one.after.append(other)
                other.before.append(one)
        return found

    def put_in_order(self) -> None:
        """Orders each column by the middle of the neighbours, from the left and from the right by turns."""
        for column in self.columns:
            for at, it in enumerate(column):
                it.order = at
        for sweep in range(SWEEPS):
            is_right = sweep % 2 == 0
            for column in self.columns if is_right else self.columns[::-1]:
                sought = {it: barycentre([one.order for one in (it.before if is_right else it.after)], it.order) for it in column}
                column.sort(key=sought.__getitem__)
                for at, it in enumerate(column):
                    it.order = at

    def put_in_place(self) -> None:
        """Gives each item a height near those of its neighbours, without changing the order."""
        for column in self.columns:
            spread(column, [0.0] * len(column))
        for move in range(MOVES):
            is_right = move % 2 == 0
            for column in self.columns if is_right else self.columns[::-1]:
                spread(column, [barycentre([one.middle for one in (it.before if is_right else it.after)], it.middle) for it in column])
        top = min((it.middle - it.height / 2 for column in self.columns for it in column), default=0.0)
        for column in self.columns:
            for it in column:
                it.middle += EDGE - top

    def lefts(self) -> List[float]:
        """The left border of each column, with more room between columns where many edges pass."""
        found = [EDGE]
        for column in self.columns[:-1]:
            edges = sum(len(it.after) for it in column)
            found.append(found[-1] + self.width + min(BETWEEN_MOST, BETWEEN + FOR_EACH * edges))
        return found

    # ---- edges ----

    def ports(self) -> Dict[Tuple[int, Hashable], float]:
        """The heights at which edges leave and reach nodes, in the order in which they go on."""
        wanted: Dict[Tuple[int, bool], Dict[Hashable, float]] = {}
        for at, (link, chain) in enumerate(zip(self.links, self.chains)):
            if len(chain) > 1:
                leaving = self.key_of(at, link)
                wanted.setdefault((chain[0].node, True), {}).setdefault(leaving, chain[1].middle)
                wanted.setdefault((chain[-1].node, False), {})[at] = chain[-2].middle
        found: Dict[Tuple[int, Hashable], float] = {}
        for (node, is_right), heights in wanted.items():
            item = self.items[node]
            for number, key in enumerate(sorted(heights, key=heights.__getitem__), 1):
                share = number / (len(heights) + 1) - 0.5
                found[node, (is_right, key)] = item.middle + share * (item.height - 8)
        return found

    def key_of(self, at: int, link: Link) -> Hashable:
        """What edges have in common that leave a node at the same height."""
        return at if self.is_turned(link) or link.bundle is None else ("bundle", link.bundle)

    def ways(self) -> Iterator[List[Point]]:
        """The points of the curves of each edge, from its start to its end."""
        ports = self.ports()
        for at, (link, chain) in enumerate(zip(self.links, self.chains)):
            if len(chain) == 1:
                yield self.loop(chain[0])
                continue
            first, last = chain[0], chain[-1]
            here = (self.left[first.rank] + self.width, ports[first.node, (True, self.key_of(at, link))])
            way = [here]
            for it in chain[1:-1]:
                way += bend(way[-1], (self.left[it.rank], it.middle))
                way += straight(way[-1], (self.left[it.rank] + self.width, it.middle))
            way += bend(way[-1], (self.left[last.rank], ports[last.node, (False, at)]))
            yield way[::-1] if self.is_turned(link) else way

    def loop(self, item: Item) -> List[Point]:
        """The way of an edge from a node to itself, at its right."""
        x, y, reach = self.left[item.rank] + self.width, item.middle, 28.0
        return [(x, y - 8), (x + reach, y - 14), (x + reach, y + 14), (x, y + 8)]

    def spots(self) -> Dict[int, Point]:
        return {node: (self.left[it.rank], it.middle - it.height / 2) for node, it in self.items.items()}


def barycentre(values: Sequence[float], otherwise: float) -> float:
    return sum(values) / len(values) if values else otherwise


def spread(column: Sequence[Item], wanted: Sequence[float]) -> None:
    """Places the items of a column as near as can be to where they are wanted, one under the other: the smallest squares, by
    joining neighbours that would overlap."""
    offsets, at = [], 0.0
    for number, it in enumerate(column):
        at += it.height / 2 + (column[number - 1].height / 2 + GAP if number else 0.0)
        offsets.append(at)
    blocks: List[Tuple[float, int]] = []  # the mean of what a block wants, and how many it has
    for height, offset in zip(wanted, offsets):
        mean, count = height - offset, 1
        while blocks and blocks[-1][0] > mean:
            before, number = blocks.pop()
            mean, count = (mean * count + before * number) / (count + number), count + number
        blocks.append((mean, count))
    means = [mean for mean, count in blocks for _ in range(count)]
    for it, mean, offset in zip(column, means, offsets):
        it.middle = mean + offset


def bend(start: Point, end: Point) -> List[Point]:
    """A curve that begins and ends level, and never leaves the strip between its ends."""
    middle = (start[0] + end[0]) / 2
    return [(middle, start[1]), (middle, end[1]), end]


def straight(start: Point, end: Point) -> List[Point]:
    return [start, end, end]


def laid_out(sizes: Sequence[Point], links: Sequence[Link]) -> Laid:
    """A layout of all nodes. Those without edges are in a grid below the others."""
    layers = Layers(sizes, links)
    spots = layers.spots()
    right = max((x + layers.width for x, _ in spots.values()), default=0.0)
    low = max((it.middle + it.height / 2 for column in layers.columns for it in column), default=0.0) + EDGE
    return with_lone(sizes, spots, list(layers.ways()), (right, low))


def with_lone(sizes: Sequence[Point], spots: Dict[int, Point], ways: List[List[Point]], corner: Point) -> Laid:
    """Adds the nodes without edges below those that have a place, which end at this corner."""
    width = max((it for it, _ in sizes), default=0.0) + GAP
    across = max(4, int(corner[0] // width))
    lone = [node for node in range(len(sizes)) if node not in spots]
    for at, node in enumerate(lone):
        spots[node] = (EDGE + at % across * width, corner[1] + at // across * (sizes[node][1] + GAP))
    ends = [(spots[node][0] + sizes[node][0], spots[node][1] + sizes[node][1]) for node in range(len(sizes))]
    reach = max((x for way in ways for x, _ in way), default=0.0)
    return Laid(
        [spots[node] for node in range(len(sizes))], ways,
        max([reach, *(x for x, _ in ends)]) + EDGE, max([corner[1], *(y for _, y in ends)]) + EDGE,
    )  # fmt: skip
