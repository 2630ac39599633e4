"""Layouts of graphs: by Graphviz's `dot` if it is installed here, otherwise by the layers of our own."""

from __future__ import annotations

import shutil
import subprocess
import threading
from collections import OrderedDict
from typing import Any, Dict, Hashable, Iterator, List, Optional, Sequence, Tuple

from .layers import EDGE, Laid, Link, Point, laid_out, with_lone

WIDTH, LINE = 168.0, 13.0  # of a node, and of each line of text in it
SECONDS_OF_DOT = 4
INCH = 72.0
KEPT = 16  # layouts
SAMPLES = 12  # points of each curve that are checked
HEAD = "digraph{rankdir=LR;ranksep=1.1;nodesep=0.17;nslimit=2;nslimit1=2;mclimit=0.5;node[shape=box,fixedsize=true];edge[arrowhead=none];"

Json = Dict[str, Any]


def drawn(graph: Json, layouts: "Layouts") -> Json:
    """A graph with places for its nodes, and as the last of each edge the points of its cubic curves."""
    sizes = [(WIDTH, 8 + LINE * it["lines"]) for it in graph["nodes"]]
    links = [Link(start, end, signal) for start, end, _, _, _, signal in graph["edges"]]
    laid = layouts.of(tuple(sizes), tuple(links))
    nodes = [{**it, "x": round(x, 1), "y": round(y, 1), "width": w, "height": h} for it, (x, y), (w, h) in zip(graph["nodes"], laid.spots, sizes)]
    edges = [[*it, [[round(x, 1), round(y, 1)] for x, y in way]] for it, way in zip(graph["edges"], laid.ways)]
    return {**graph, "nodes": nodes, "edges": edges, "width": round(laid.width), "height": round(laid.height)}


class Layouts:
    """Makes layouts, one at a time, and keeps the newest."""

    def __init__(self, dot: Optional[str] = None) -> None:
        self.dot = shutil.which("dot") if dot is None else dot
        self.kept: "OrderedDict[Hashable, Laid]" = OrderedDict()
        self.lock = threading.Lock()

    def of(self, sizes: Tuple[Point, ...], links: Tuple[Link, ...]) -> Laid:
        with self.lock:
            key = (sizes, links)
            if key not in self.kept:
                self.kept[key] = self.made(sizes, links)
            self.kept.move_to_end(key)
            while len(self.kept) > KEPT:
                self.kept.popitem(last=False)
            return self.kept[key]

    def made(self, sizes: Sequence[Point], links: Sequence[Link]) -> Laid:
        """A layout by `dot`, if that is there, ends in time, and draws no edge across a box; otherwise by layers."""
        found = by_dot(self.dot, sizes, links) if self.dot and links else None
        return found if found is not None and not crossings(found, sizes, links) else laid_out(sizes, links)


# ---- Graphviz ----


def by_dot(program: str, sizes: Sequence[Point], links: Sequence[Link]) -> Optional[Laid]:
    """The layout that `dot` makes, or None. It is given numbers alone: no text of a client reaches it."""
    linked = sorted({end for it in links for end in (it.start, it.end)})
    tails = {key: at for at, key in enumerate(dict.fromkeys((it.start, it.bundle) for it in links))}
    nodes = "".join(f"{at}[width={sizes[at][0] / INCH:.3f},height={sizes[at][1] / INCH:.3f}];" for at in linked)
    edges = "".join(f"{it.start}->{it.end}[sametail={tails[it.start, it.bundle]}];" for it in links)
    text = HEAD + nodes + edges + "}"
    try:
        ran = subprocess.run([program, "-Tplain"], input=text.encode(), stdout=subprocess.PIPE, stderr=subprocess.DEVNULL, timeout=SECONDS_OF_DOT)
        return read_plain(ran.stdout.decode(), sizes, links) if ran.returncode == 0 else None
    except (OSError, subprocess.SubprocessError, ValueError, LookupError):
        return None


def read_plain(text: str, sizes: Sequence[Point], links: Sequence[Link]) -> Laid:
    """What `dot -Tplain` has written: a line for the whole, for each node, and for each edge with the points of its curves."""
    spots: Dict[int, Point] = {}
    ways: Dict[Tuple[int, int], List[List[Point]]] = {}
    right = low = 0.0
    for line in text.splitlines():
        kind, *words = line.split()
        if kind == "graph":
            right, low = float(words[1]) * INCH, float(words[2]) * INCH
        elif kind == "node":
            node = int(words[0])
            x, y = float(words[1]) * INCH, low - float(words[2]) * INCH
            spots[node] = (EDGE + x - sizes[node][0] / 2, EDGE + y - sizes[node][1] / 2)
        elif kind == "edge":
            count = int(words[2])
            numbers = [float(it) * INCH for it in words[3 : 3 + 2 * count]]
            way = [(EDGE + x, EDGE + low - y) for x, y in zip(numbers[::2], numbers[1::2])]
            ways.setdefault((int(words[0]), int(words[1])), []).append(way)
    found = [ways[it.start, it.end].pop(0) for it in links]
    return with_lone(sizes, spots, found, (right + EDGE, low + 2 * EDGE))


# ---- what is wrong with a layout ----


def points_of(way: Sequence[Point]) -> Iterator[Point]:
    """Points on cubic curves."""
    for at in range(0, len(way) - 3, 3):
        (ax, ay), (bx, by), (cx, cy), (dx, dy) = way[at : at + 4]
        for step in range(SAMPLES + 1):
            t = step / SAMPLES
            a, b, c, d = (1 - t) ** 3, 3 * t * (1 - t) ** 2, 3 * t * t * (1 - t), t**3
            yield a * ax + b * bx + c * cx + d * dx, a * ay + b * by + c * cy + d * dy


def crossings(laid: Laid, sizes: Sequence[Point], links: Sequence[Link]) -> List[Tuple[int, int]]:
    """The edges that cross a box that is not their end, each with that box. Boxes are looked up by strips of the drawing."""
    strips: Dict[int, List[int]] = {}
    for node, ((x, _), (width, _)) in enumerate(zip(laid.spots, sizes)):
        for strip in range(int(x // WIDTH), int((x + width) // WIDTH) + 1):
            strips.setdefault(strip, []).append(node)
    found = []
    for at, (link, way) in enumerate(zip(links, laid.ways)):
        hit = {node for x, y in points_of(way) for node in strips.get(int(x // WIDTH), ()) if is_in(x, y, laid.spots[node], sizes[node])}
        found += [(at, node) for node in hit - {link.start, link.end}]
    return found


def is_in(x: float, y: float, spot: Point, size: Point) -> bool:
    """Whether a point is inside of a box, its border aside."""
    return spot[0] + 1 < x < spot[0] + size[0] - 1 and spot[1] + 1 < y < spot[1] + size[1] - 1
