"""The types of the replies of commands that only read."""

from __future__ import annotations

from typing import Any, List, Optional, TypedDict

PublicationInfo = TypedDict("PublicationInfo", {"name": str, "object": int, "signal": str})
"""A signal that is published, and its name."""

JoinInfo = TypedDict("JoinInfo", {"from": str, "method": str, "name": str, "object": int, "types": List[str]})
"""A join: the session, the name and the types of a publication, and the method that it calls."""

FunctorInfo = TypedDict("FunctorInfo", {"name": str, "state": bool, "types": List[str]})
"""A functor: the types of its parameters, and whether its connections keep a state."""

ObjectInfo = TypedDict(
    "ObjectInfo",
    {
        "blocked": bool,
        "children": int,
        "class": str,
        "connectionsFrom": int,
        "connectionsTo": int,
        "events": int,
        "level": int,
        "parent": Optional[int],
    },
)
"""The class, the parent, the level and the counts of an object."""

DeclaredInfo = TypedDict("DeclaredInfo", {"bindable": bool, "class": str, "name": str, "notify": Optional[str], "type": str})
"""A property that a class declares."""

MethodInfo = TypedDict("MethodInfo", {"class": str, "signature": str, "types": List[str]})
"""A signal or a slot, and the class that declares it."""

ClassInfo = TypedDict(
    "ClassInfo",
    {
        "class": str,
        "properties": List[DeclaredInfo],
        "signals": List[MethodInfo],
        "slots": List[MethodInfo],
        "super": Optional[str],
    },
)
"""The members of a class, those of its superclasses first."""

PropertyInfo = TypedDict(
    "PropertyInfo",
    {
        "bindable": bool,
        "bound": bool,
        "error": Optional[str],
        "name": str,
        "notify": Optional[str],
        "type": Optional[str],
        "value": Any,
    },
)
"""A property of an object; the type of a dynamic one is None."""


class ConnectionInfo(TypedDict, total=False):
    """A connection. One to a functor has `context`, `functor` and `state`, and any other one `receiver` and `method`."""

    connection: int
    context: int
    functor: str
    method: str
    receiver: int
    sender: int
    signal: str
    single: bool
    state: int
    type: str


BindingInfo = TypedDict("BindingInfo", {"object": int, "property": str})
"""A bound property."""
