"""What objects of a server are as objects of Python, whether their commands are waited for or awaited: what there is in a
class, and which of its methods is meant.

The members of a class are asked for once, by `describe`, so that no class file is needed: by `meta` of a server that does not
know `describe`. What a proxy does not have is an `AttributeError`; the server refuses what else does not fit.
"""

from __future__ import annotations

from difflib import get_close_matches
from typing import Any, Callable, Dict, Generic, Iterable, List, Optional, Sequence, Tuple, TypeVar, cast

from .descriptions import ClassInfo
from .errors import Ambiguous, OtherSession, printable
from .hearing import Hearing, OnCall
from .lines import Call, Meta, Value

RELAY = "Relay"
"""The name of the class whose slots tell functions of signals."""

HEAR = "hear"
"""The name of its slots. There is one slot for each list of parameters."""

NO_COMMAND = "E02"
"""The code of a word that is no command of the server."""

NEAR_MOST, NEAR = 3, 0.75
"""So many names are named in place of one that is not there, and how alike they have to be, from 0 to 1."""

OF_QOBJECT = ["destroyed()", "objectNameChanged(QString)"]

SessionKind = TypeVar("SessionKind", bound=Hearing)
OwnerKind = TypeVar("OwnerKind", bound="BaseProxy[Any]")
MethodKind = TypeVar("MethodKind", bound="BaseMethod[Any]")


def types_of(signature: str) -> List[str]:
    """The types of the parameters of a signature, which is given in its normal text."""
    inside = signature[signature.index("(") + 1 : -1]
    return inside.split(",") if inside else []


def name_of(signature: str) -> str:
    """The name in a signature."""
    return signature.split("(", 1)[0]


def with_relay(classes: Dict[str, Value]) -> Dict[str, Value]:
    """What a class file holds, followed by the class `Relay`, by which functions are called for all its signals."""
    signals = [it for described in classes["classes"] for it in described.get("signals", [])]
    lists = dict.fromkeys(_normal_types(it) for it in [*OF_QOBJECT, *signals])
    slots = [{"sig": f"{HEAR}({types})", "body": []} for types in lists]
    return {**classes, "classes": [*classes["classes"], {"name": RELAY, "super": "QObject", "slots": slots}]}


def _normal_types(signature: str) -> str:
    """The types of a signature in their normal text, without white space, constants and references."""
    parts = signature[signature.find("(") + 1 : signature.rfind(")")].replace("&", " ").split(",")
    types = [" ".join(word for word in part.split() if word != "const") for part in parts]
    return "" if types == ["void"] else ",".join(types)


class Shape:
    """What there is in a class."""

    def __init__(self, meta: Meta) -> None:
        self.name = meta["class"]
        """The name of the class."""
        self.properties = tuple(meta["properties"])
        """The names of its properties."""
        self.methods: Dict[str, Tuple[str, ...]] = {}
        """The signatures of its methods, by their names."""
        for signature in meta["methods"]:
            self.methods[name_of(signature)] = (*self.methods.get(name_of(signature), ()), signature)

    @classmethod
    def described(cls, described: ClassInfo) -> Shape:
        """The shape of a class, from a reply to `describe`."""
        methods = [it["signature"] for it in (*described["signals"], *described["slots"])]
        names = [it["name"] for it in described["properties"]]
        return cls(cast(Meta, {"class": described["class"], "properties": names, "methods": methods}))

    def fitting(self, which: str) -> Tuple[str, ...]:
        """The signatures of the methods of a name, or of a signature; `Ambiguous` where no method fits."""
        fitting = tuple(it for it in self.methods.get(name_of(which), ()) if which in (it, name_of(it)))
        if not fitting:
            raise Ambiguous(f"{self.name} has no method {which}{meant(name_of(which), self.methods)}")
        return fitting


def meant(name: str, names: Iterable[str]) -> str:
    """Which of some names may be meant by one that is not there, as the end of a sentence; empty where none is like it."""
    near = [f"`{it}`" for it in get_close_matches(name, list(names), NEAR_MOST, NEAR)]
    return f"; did you mean {' or '.join(near)}?" if near else ""


class BaseProxy(Generic[SessionKind]):
    """An object of a server, by its session and its number."""

    WRITTEN = ""
    """How a property is written that is no attribute, with its name in the place of `{}`."""

    session: SessionKind
    """The session that the object is of."""
    number: int
    """The object's number."""
    shape: Shape
    """What there is in its class."""

    def __init__(self, session: SessionKind, number: int, shape: Shape) -> None:
        self.__dict__.update(session=session, number=number, shape=shape)

    def property(self, name: str) -> Any:
        """A property, declared or dynamic, by its name."""
        raise NotImplementedError

    def method(self, which: str) -> Any:
        """A signal or a slot, by its name, or by its signature in its normal text where several have the name."""
        raise NotImplementedError

    def _read(self, name: str) -> Any:
        """What the attribute is that has the name of a property."""
        return self.property(name)

    def __getattr__(self, name: str) -> Any:
        shape = cast(Optional[Shape], self.__dict__.get("shape"))
        if shape and name in shape.properties:
            return self._read(name)
        if shape and name in shape.methods:
            return self.method(name)
        if not shape or name.startswith("__"):
            raise AttributeError(f"{type(self).__name__} has no {name}")
        near = meant(name, [*shape.properties, *shape.methods])
        raise AttributeError(printable(f"{shape.name} declares no {name}{near}"))

    def _not_written(self, name: str) -> AttributeError:
        """What is raised where an attribute of this name is written, and no declared property is meant by it."""
        shape, written = self.shape, f"write `{self.WRITTEN.format(name)}`"
        if name in shape.properties:
            why = f"the property `{name}` of {shape.name} is not written as an attribute: {written}"
        elif name in shape.methods:
            why = f"`{name}` is a method of {shape.name}, and cannot be written"
        elif hasattr(type(self), name) or name in self.__dict__:
            why = f"`{name}` is an attribute of every proxy, and cannot be written; for a property of this name {written}"
        else:
            near = meant(name, shape.properties)
            why = f"{shape.name} declares no property `{name}`{near or '.'} For a dynamic property {written}"
        return AttributeError(printable(why))

    def __dir__(self) -> Iterable[str]:
        return [*super().__dir__(), *self.shape.properties, *self.shape.methods]

    def __index__(self) -> int:
        return self.number

    def __eq__(self, other: object) -> bool:
        return isinstance(other, BaseProxy) and (self.session, self.number) == (other.session, other.number)

    def __hash__(self) -> int:
        return hash((id(self.session), self.number))

    def __repr__(self) -> str:
        return f"<{self.shape.name} {self.number} of {self.session.name}>"


class BaseMethod(Generic[OwnerKind]):
    """A signal or a slot of an object, or several of one name."""

    def __init__(self, owner: OwnerKind, name: str, signatures: Sequence[str]) -> None:
        self.owner = owner
        """The object that it is of."""
        self.name = name
        """Its name."""
        self.signatures = tuple(signatures)
        """The signatures of this name."""

    def signature(self) -> str:
        """Its signature; `Ambiguous` where several have its name."""
        return self._only(self.signatures, "is meant")

    def taking(self: MethodKind, types: Sequence[str], of: str) -> MethodKind:
        """That of the methods of this name that takes the most of arguments of these types."""
        lists = [(len(types_of(it)), it) for it in self.signatures]
        found = [it for count, it in sorted(lists, reverse=True) if types_of(it) == list(types[:count])]
        return type(self)(self.owner, self.name, [self._only(found[:1], f"fits {of}({','.join(types)})")])

    def _of_count(self, count: int) -> str:
        """The signature of this name that has so many parameters."""
        fitting = [it for it in self.signatures if len(types_of(it)) == count]
        return self._only(fitting, f"takes {count} arguments")

    def _fit(self, to: MethodKind) -> MethodKind:
        """That of the methods of a name that takes the most of the signal's arguments."""
        if to.owner.session is not self.owner.session:
            raise OtherSession(f"{to.owner!r} and {self.owner!r} are of two sessions: publish the signal, and join it")
        return to.taking(types_of(self.signature()), self.name)

    def _only(self, fitting: Sequence[str], what: str) -> str:
        if len(fitting) == 1:
            return fitting[0]
        fault = f"{len(fitting) or 'none'} of {', '.join(self.signatures)} of {self.owner.shape.name} {what}"
        raise Ambiguous(f"{fault}; name one by `method`" if fitting else fault)


def calls_of(sender: int, told: Callable[..., object]) -> OnCall:
    """A callback for the calls of a slot, which has a function called with the arguments of those that this sender sends."""

    def tell(call: Call) -> None:
        if call.sender == sender:
            told(*call.args)

    return tell


def no_relay() -> str:
    """Why a function cannot be called for a signal, where the server has no relay."""
    return f"the server has no class {RELAY}, which `with_relay` adds; or name a slot by `via`"
