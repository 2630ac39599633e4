"""Proxies of existing objects, and their bindings."""

from __future__ import annotations

from typing import Any, Callable, Dict, List, Sequence, TypeVar

from . import commands
from .dumping import Steps
from .lines import Value
from .shapes import Shape

ProxyKind = TypeVar("ProxyKind")


def proxies_of(session: Any, make: Callable[[Any, int, Shape], ProxyKind], numbers: Sequence[int]) -> Steps[List[ProxyKind]]:
    """Asks for the classes of objects and for the members of these classes, and makes a proxy of each object. A class is
    asked for once."""
    infos = yield [commands.object_info(it) for it in numbers]
    shapes: Dict[str, Shape] = session.server.shapes
    unknown = [it for it in dict.fromkeys(info["class"] for info in infos) if it not in shapes]
    described = yield [commands.describe(it) for it in unknown]
    shapes.update({it["class"]: Shape.described(it) for it in described})
    return [make(session, number, shapes[info["class"]]) for number, info in zip(numbers, infos)]


def expressions_of(number: int) -> Steps[Dict[str, Value]]:
    """Asks for the bindings of an object: the expressions of its bound properties, by their names."""
    [properties] = yield [commands.properties(number)]
    names = [it["name"] for it in properties if it["bound"]]
    expressions = yield [commands.binding(number, name) for name in names]
    return dict(zip(names, expressions))
