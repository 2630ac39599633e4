"""Objects of a server as objects of Python: their properties, signals and slots by their names.

    player = session.create("Player")
    player.title = "Aria"
    player.finished.connect(other.play)
    player.play()

A function of Python cannot be connected: the server calls slots, functors and signals, and reports calls of slots and
functors alone. So to have a function called for a signal, connect the signal to a slot whose calls are reported, and which
does nothing else. That is a slot of a class `Relay`, which `with_relay` adds to a class file, or another one that is
named by `via`. Without either there is no way: no class that every server has comes with a slot that takes arguments
and does nothing. A function is called by the thread that waits: for the answer to a command, or by `wait_for`,
`SignalSpy.wait` or `calls` of a session for what comes later. Where the session is live, events come unasked; in any other
one somebody has to `spin`, as these waits do.
"""

from __future__ import annotations

import builtins
from typing import TYPE_CHECKING, Any, Callable, Dict, List, Optional, Sequence

from .descriptions import ConnectionInfo, PropertyInfo
from .errors import MetadError, NoRelay, NotAnswered, Refused
from .finding import expressions_of, proxies_of
from .lines import Value
from .shapes import HEAR, RELAY, BaseMethod, BaseProxy, calls_of, name_of, no_relay, types_of
from .waiting import wait_until

if TYPE_CHECKING:
    from .client import Session
    from .hearing import Listener


class Proxy(BaseProxy["Session"]):
    """An object of a server. It is made by `create`, `object` and `proxy` of a session.

    Properties that its class declares are read and written as attributes; methods are attributes that can be called.
    What has the name of something here, or a name that Python cannot write, is reached by `property` and `method`.
    """

    WRITTEN = '.property("{}").value = ..'

    def property(self, name: str) -> Property:
        """A property, declared or dynamic, by its name."""
        return Property(self, name)

    def method(self, which: str) -> Method:
        """A signal or a slot, by its name, or by its signature in its normal text where several have the name."""
        return Method(self, name_of(which), self.shape.fitting(which))

    def delete(self) -> None:
        """Deletes the object and all below it."""
        self.session.delete(self.number)

    @builtins.property
    def parent(self) -> Optional[Proxy]:
        """Its parent; None where it is a root."""
        number = self.session.parent(self.number)
        return None if number is None else self.session.object(number)

    def find_all(self, name: Optional[str] = None, class_: Optional[str] = None) -> List[Proxy]:
        """All objects below it that have this `objectName` and class, by depth."""
        found = self.session.find_all(self.number, name, class_)
        return self.session._gathered(proxies_of(self.session, Proxy, found))

    def properties(self) -> List[PropertyInfo]:
        """Its properties, declared and dynamic, with their types and values."""
        return self.session.properties(self.number)

    def bindings(self) -> Dict[str, Value]:
        """The expressions of its bound properties, by their names."""
        return self.session._gathered(expressions_of(self.number))

    def connections(self) -> List[ConnectionInfo]:
        """All connections that have it as their sender, receiver or context."""
        return self.session.all_connections(self.number)

    def _read(self, name: str) -> Value:
        return self.property(name).value

    def __setattr__(self, name: str, value: Value) -> None:
        if name not in self.shape.properties or hasattr(Proxy, name) or name in self.__dict__:
            raise self._not_written(name)
        self.property(name).value = value


class Property:
    """A property of an object. It is made by `Proxy.property`."""

    def __init__(self, owner: Proxy, name: str) -> None:
        self.owner = owner
        """The object that it is of."""
        self.name = name
        """Its name."""

    @property
    def value(self) -> Value:
        """Its value; None where no property has this name. Writing None removes a dynamic property."""
        return self.get()

    @value.setter
    def value(self, value: Value) -> None:
        self.set(value)

    def get(self) -> Value:
        """Its value."""
        return self.owner.session.get(self.owner.number, self.name)

    def set(self, value: Value) -> None:
        """Writes it."""
        self.owner.session.set(self.owner.number, self.name, value)

    @property
    def error(self) -> Optional[str]:
        """Its error, where it is bound and has no value; None where it is in none."""
        return self.owner.session.binding_error(self.owner.number, self.name)

    def bind(self, to: Value) -> None:
        """Binds it to an expression, which is given as JSON, where a proxy stands for its object."""
        self.owner.session.bind(self.owner.number, self.name, to)

    def unbind(self) -> bool:
        """Leaves it the value that it has; says whether it was bound."""
        return self.owner.session.unbind(self.owner.number, self.name)


class Connected:
    """A connection of a signal. It is made by `Method.connect`."""

    def __init__(self, session: Session, number: int) -> None:
        self.session = session
        self.number = number
        """The connection's number."""

    def disconnect(self) -> bool:
        """Breaks it; says whether it was still connected."""
        return bool(self.session.disconnect(self.number))


class Heard(Connected):
    """A function that is called for a signal, or for what another session publishes."""

    def __init__(self, session: Session, number: int, listener: Listener, relay: Optional[Proxy]) -> None:
        super().__init__(session, number)
        self._listener = listener
        self._relay = relay

    def disconnect(self) -> bool:
        """Has the function called no more, and deletes its relay; says whether it was still connected."""
        self._listener.stop()
        stood = super().disconnect() if self.number else True
        return _deleted(self._relay) and stood


class Method(BaseMethod[Proxy]):
    """A signal or a slot of an object, or several of one name. It is made by `Proxy.method`.

    `method(..)` sends the signal or calls the slot, and so does `emit`; where several have the name, that which has as
    many parameters as there are arguments.
    """

    def __call__(self, *args: Value, type: Optional[str] = None, priority: Optional[int] = None) -> None:
        """Sends the signal or calls the slot; with the type `queued` it is posted as an event, with a priority if one is given."""
        self.owner.session.invoke(self.owner.number, self._of_count(len(args)), args, type=type, priority=priority)

    emit = __call__
    """Sends the signal, as a call does."""

    def connect(
        self, to: Any, *, via: Optional[Method] = None, type: Optional[str] = None, unique: Optional[bool] = None, single: Optional[bool] = None
    ) -> Connected:
        """Connects the signal to a method of an object, or has a function called with its arguments.

        A function needs a slot whose calls are reported: that of a `Relay`, made as a child of the sender, or `via`.
        It is called for what this object sends through `via`, whichever of its signals that was.
        """
        how: Dict[str, Any] = {"type": type, "unique": unique, "single": single}
        if isinstance(to, Method):
            return Connected(self.owner.session, self._connect(self._fit(to), how))
        if not callable(to):
            raise TypeError(f"{to!r} is no method of an object, and no function")
        if via:
            slot = self._fit(via)
            return _heard(slot, to, self.owner.number, None, lambda: self._connect(slot, how))
        types = types_of(self.signature())
        relay = _relay(self.owner.session, self.owner)
        hear = relay.method(HEAR).taking(types, self.name)
        return _heard(hear, to, self.owner.number, relay, lambda: self._connect(hear, how))

    def publish(self, name: str) -> None:
        """Publishes the signal under a name; `unpublish` of the session takes it back."""
        self.owner.session.publish(self.owner.number, self.signature(), name)

    def join(self, from_: str, name: str, types: Optional[Sequence[str]] = None) -> None:
        """Has the method called for what another session publishes under a name: as it comes in a live session, otherwise
        when this one spins.

        `types` are those of the published signal; without them those of the method.
        """
        signature = self.signature()
        given = types_of(signature) if types is None else types
        self.owner.session.join(from_, name, given, self.owner.number, signature)

    def _connect(self, to: Method, how: Dict[str, Any]) -> int:
        """Connects the signal to a method; returns the connection's number."""
        own = self.owner
        return own.session.connect(own.number, self.signature(), to.owner.number, to.signature(), **how)


class SignalSpy(List[List[Value]]):
    """The lists of arguments that a signal was sent with since, the newest last, as `QSignalSpy` of Qt.

    As a context manager it stops at the end.
    """

    def __init__(self, signal: Method, via: Optional[Method] = None) -> None:
        super().__init__()
        self._session = signal.owner.session
        self._heard = signal.connect(lambda *args: self.append(list(args)), via=via)

    def __enter__(self) -> SignalSpy:
        return self

    def __exit__(self, *_error: object) -> None:
        self.stop()

    def wait(self, timeout: Optional[float] = 5.0) -> bool:
        """Waits at most so many seconds until the signal is sent once more; returns whether it was. A session that is not live
        spins meanwhile."""
        before = len(self)
        return wait_until(self._session, lambda: len(self) > before, timeout)

    def stop(self) -> None:
        """Hears no more of the signal."""
        self._heard.disconnect()


def wait_for(signal: Method, timeout: Optional[float] = 5.0, via: Optional[Method] = None) -> List[Value]:
    """Waits until a signal is sent, and returns its arguments; raises `NotAnswered` if that takes too long.

    In a live session it waits for the line that reports the signal; in any other one it spins.
    """
    with SignalSpy(signal, via) as spy:
        if not spy and not spy.wait(timeout):  # it may have been sent before the wait begins
            raise NotAnswered(f"{signal.name} was not sent in {timeout} seconds")
        return spy[0]


def hear_post(session: Session, from_: str, name: str, types: Sequence[str], told: Callable[..., object]) -> Heard:
    """Has a function called with what another session publishes."""
    relay = _relay(session, None)
    slot = relay.method(HEAR).taking(types, name)

    def join() -> int:
        session.join(from_, name, types, relay.number, slot.signature())
        return 0

    return _heard(slot, told, 0, relay, join)


def _heard(
    slot: Method, told: Callable[..., object], sender: int, relay: Optional[Proxy], connect: Callable[[], int]
) -> Heard:
    """Has a function called through a slot, which is then connected; where that is refused, nothing is left of it."""
    listener = slot.owner.session.on(slot.owner.number, slot.signature(), calls_of(sender, told))
    try:
        return Heard(slot.owner.session, connect(), listener, relay)
    except MetadError:
        listener.stop()
        _deleted(relay)
        raise


def _relay(session: Session, parent: Optional[Proxy]) -> Proxy:
    """A new object whose slots tell functions of signals."""
    try:
        return session.create(RELAY, parent)
    except Refused as refused:
        if refused.code != "E03":
            raise
        raise NoRelay(no_relay()) from None


def _deleted(relay: Optional[Proxy]) -> bool:
    """Deletes a relay; False where it had gone already, with what it was connected to."""
    try:
        if relay is not None:
            relay.delete()
        return True
    except Refused as refused:
        if refused.code != "E04":
            raise
        return False
