"""Objects of a server for asyncio: the same names as in `proxies`, and what waits there is awaited here.

    player = await session.create("Player")
    await player.title.set("Aria")
    print(await player.title)
    await player.finished.connect(other.play)
    await player.play()

The attribute of a property is the property itself, as an assignment cannot be awaited: awaited it is the value. A
function is called by way of a relay, as it is without asyncio. It is a plain function, which may make tasks.
"""

from __future__ import annotations

import builtins
from typing import TYPE_CHECKING, Any, Awaitable, Callable, Coroutine, Dict, Generator, List, Optional, Sequence

from .aio_waiting import wait_until
from .descriptions import ConnectionInfo, PropertyInfo
from .errors import NoRelay, NotAnswered, Refused
from .finding import expressions_of, proxies_of
from .lines import Value
from .shapes import HEAR, RELAY, BaseMethod, BaseProxy, calls_of, name_of, no_relay, types_of

if TYPE_CHECKING:
    from .aio import Session
    from .hearing import Listener


class Proxy(BaseProxy["Session"]):
    """An object of a server. It is made by `create`, `object` and `proxy` of a session.

    Properties that its class declares are attributes, and so are its methods, which can be called. What has the name of
    something here, or a name that Python cannot write, is reached by `property` and `method`.
    """

    WRITTEN = 'await .property("{}").set(..)'

    def property(self, name: str) -> Property:
        """A property, declared or dynamic, by its name."""
        return Property(self, name)

    def method(self, which: str) -> Method:
        """A signal or a slot, by its name, or by its signature in its normal text where several have the name."""
        return Method(self, name_of(which), self.shape.fitting(which))

    async def delete(self) -> None:
        """Deletes the object and all below it."""
        await self.session.delete(self.number)

    @builtins.property
    def parent(self) -> Coroutine[Any, Any, Optional[Proxy]]:
        """Its parent, which is awaited; None where it is a root."""
        return self._parent()

    async def _parent(self) -> Optional[Proxy]:
        number = await self.session.parent(self.number)
        return None if number is None else await self.session.object(number)

    async def find_all(self, name: Optional[str] = None, class_: Optional[str] = None) -> List[Proxy]:
        """All objects below it that have this `objectName` and class, by depth."""
        found = await self.session.find_all(self.number, name, class_)
        return await self.session._gathered(proxies_of(self.session, Proxy, found))

    async def properties(self) -> List[PropertyInfo]:
        """Its properties, declared and dynamic, with their types and values."""
        return await self.session.properties(self.number)

    async def bindings(self) -> Dict[str, Value]:
        """The expressions of its bound properties, by their names."""
        return await self.session._gathered(expressions_of(self.number))

    async def connections(self) -> List[ConnectionInfo]:
        """All connections that have it as their sender, receiver or context."""
        return await self.session.all_connections(self.number)

    def __setattr__(self, name: str, value: Value) -> None:
        raise self._not_written(name)


class Property:
    """A property of an object. It is made by `Proxy.property`; awaited it is the property's value."""

    def __init__(self, owner: Proxy, name: str) -> None:
        self.owner = owner
        """The object that it is of."""
        self.name = name
        """Its name."""

    def __await__(self) -> Generator[Any, None, Value]:
        return self.get().__await__()

    @property
    def value(self) -> Awaitable[Value]:
        """Its value; None where no property has this name."""
        return self.get()

    async def get(self) -> Value:
        """Its value."""
        return await self.owner.session.get(self.owner.number, self.name)

    async def set(self, value: Value) -> None:
        """Writes it. None takes a dynamic property away."""
        await self.owner.session.set(self.owner.number, self.name, value)

    @property
    def error(self) -> Awaitable[Optional[str]]:
        """Its error, where it is bound and has no value; None where it is in none."""
        return self.owner.session.binding_error(self.owner.number, self.name)

    async def bind(self, to: Value) -> None:
        """Binds it to an expression, which is given as JSON, where a proxy stands for its object."""
        await self.owner.session.bind(self.owner.number, self.name, to)

    async def unbind(self) -> bool:
        """Leaves it the value that it has; says whether it was bound."""
        return await self.owner.session.unbind(self.owner.number, self.name)


class Connected:
    """A connection of a signal. It is made by `Method.connect`."""

    def __init__(self, session: Session, number: int) -> None:
        self.session = session
        self.number = number
        """The connection's number."""

    async def disconnect(self) -> bool:
        """Breaks it; says whether it was still connected."""
        return bool(await self.session.disconnect(self.number))


class Heard(Connected):
    """A function that is called for a signal, or for what another session publishes."""

    def __init__(self, session: Session, number: int, listener: Listener, relay: Optional[Proxy]) -> None:
        super().__init__(session, number)
        self._listener = listener
        self._relay = relay

    async def disconnect(self) -> bool:
        """Has the function called no more, and deletes its relay; says whether it was still connected."""
        self._listener.stop()
        stood = await super().disconnect() if self.number else True
        return await _deleted(self._relay) and stood


class Method(BaseMethod[Proxy]):
    """A signal or a slot of an object, or several of one name. It is made by `Proxy.method`.

    `await method(..)` sends the signal or calls the slot, and so does `emit`; where several have the name, that which has
    as many parameters as there are arguments.
    """

    async def __call__(self, *args: Value, type: Optional[str] = None, priority: Optional[int] = None) -> None:
        """Sends the signal or calls the slot; with the type `queued` it is posted as an event, with a priority if one is given."""
        await self.owner.session.invoke(self.owner.number, self._of_count(len(args)), args, type=type, priority=priority)

    emit = __call__
    """Sends the signal, as a call does."""

    async def connect(
        self, to: Any, *, via: Optional[Method] = None, type: Optional[str] = None, unique: Optional[bool] = None, single: Optional[bool] = None
    ) -> Connected:
        """Connects the signal to a method of an object, or has a function called, as `metad.proxies.Method.connect` does."""
        how: Dict[str, Any] = {"type": type, "unique": unique, "single": single}
        if isinstance(to, Method):
            return Connected(self.owner.session, await self._connect(self._fit(to), how))
        if not callable(to):
            raise TypeError(f"{to!r} is no method of an object, and no function")
        if via:
            slot = self._fit(via)
            return await _heard(slot, to, self.owner.number, None, lambda: self._connect(slot, how))
        types = types_of(self.signature())
        relay = await _relay(self.owner.session, self.owner)
        hear = relay.method(HEAR).taking(types, self.name)
        return await _heard(hear, to, self.owner.number, relay, lambda: self._connect(hear, how))

    async def publish(self, name: str) -> None:
        """Publishes the signal under a name; `unpublish` of the session takes it back."""
        await self.owner.session.publish(self.owner.number, self.signature(), name)

    async def join(self, from_: str, name: str, types: Optional[Sequence[str]] = None) -> None:
        """Has the method called for what another session publishes under a name: as it comes in a live session, otherwise
        when this one spins.

        `types` are those of the published signal; without them those of the method.
        """
        signature = self.signature()
        given = types_of(signature) if types is None else types
        await self.owner.session.join(from_, name, given, self.owner.number, signature)

    async def _connect(self, to: Method, how: Dict[str, Any]) -> int:
        """Connects the signal to a method; returns the connection's number."""
        own = self.owner
        return await own.session.connect(own.number, self.signature(), to.owner.number, to.signature(), **how)


class SignalSpy(List[List[Value]]):
    """The lists of arguments that a signal was sent with since, the newest last, as `QSignalSpy` of Qt.

    It listens once it is awaited. As an asynchronous context manager it listens from the beginning and stops at the end.
    """

    def __init__(self, signal: Method, via: Optional[Method] = None) -> None:
        super().__init__()
        self._signal = signal
        self._via = via
        self._heard: Optional[Connected] = None

    def __await__(self) -> Generator[Any, None, SignalSpy]:
        return self._listen().__await__()

    async def __aenter__(self) -> SignalSpy:
        return await self

    async def __aexit__(self, *_error: object) -> None:
        await self.stop()

    async def _listen(self) -> SignalSpy:
        if self._heard is None:
            self._heard = await self._signal.connect(lambda *args: self.append(list(args)), via=self._via)
        return self

    async def wait(self, timeout: Optional[float] = 5.0) -> bool:
        """Waits at most so many seconds until the signal is sent once more; returns whether it was. A session that is not live
        spins meanwhile."""
        before = len(self)
        return await wait_until(self._signal.owner.session, lambda: len(self) > before, timeout)

    async def stop(self) -> None:
        """Hears no more of the signal."""
        if self._heard is not None:
            await self._heard.disconnect()


async def wait_for(signal: Method, timeout: Optional[float] = 5.0, via: Optional[Method] = None) -> List[Value]:
    """Waits until a signal is sent, and returns its arguments; raises `NotAnswered` if that takes too long.

    In a live session it waits for the line that reports the signal; in any other one it spins.
    """
    async with SignalSpy(signal, via) as spy:
        if not spy and not await spy.wait(timeout):  # it may have been sent before the wait begins
            raise NotAnswered(f"{signal.name} was not sent in {timeout} seconds")
        return spy[0]


async def hear_post(
    session: Session, from_: str, name: str, types: Sequence[str], told: Callable[..., object]
) -> Heard:
    """Has a function called with what another session publishes."""
    relay = await _relay(session, None)
    slot = relay.method(HEAR).taking(types, name)

    async def join() -> int:
        await session.join(from_, name, types, relay.number, slot.signature())
        return 0

    return await _heard(slot, told, 0, relay, join)


async def _heard(
    slot: Method,
    told: Callable[..., object],
    sender: int,
    relay: Optional[Proxy],
    connect: Callable[[], Coroutine[Any, Any, int]],
) -> Heard:
    """Has a function called through a slot, which is then connected; where that is refused, nothing is left of it."""
    listener = slot.owner.session.on(slot.owner.number, slot.signature(), calls_of(sender, told))
    try:
        return Heard(slot.owner.session, await connect(), listener, relay)
    except BaseException as error:
        listener.stop()
        if isinstance(error, Refused):
            await _deleted(relay)
        raise


async def _relay(session: Session, parent: Optional[Proxy]) -> Proxy:
    """A new object whose slots tell functions of signals."""
    try:
        return await session.create(RELAY, parent)
    except Refused as refused:
        if refused.code != "E03":
            raise
        raise NoRelay(no_relay()) from None


async def _deleted(relay: Optional[Proxy]) -> bool:
    """Deletes a relay; False where it had gone already, with what it was connected to."""
    try:
        if relay is not None:
            await relay.delete()
        return True
    except Refused as refused:
        if refused.code != "E04":
            raise
        return False
