"""The sessions of `metad` for asyncio: the same names as in `metad`, and what waits there is awaited here.

    import asyncio
    from metad import aio

    async def main():
        async with await aio.start("bin/metad") as server:
            session = server.session("a", on_call=print)
            probe = await session.new("Probe")
            await session.invoke(probe, "note()")

    asyncio.run(main())

Callbacks are plain functions. They are called in the thread of the event loop, by the task that waits for an answer,
before it gets that; they may `send` commands and make tasks, and cannot wait for answers. In a live session, which a
front offers, a task of the server calls them as lines come, also while no task waits. A task that is cancelled while it
waits leaves its command under way. Objects by their names are in `aio_proxies`, and reached from here too.
"""

from __future__ import annotations

import asyncio
from contextlib import suppress
from tempfile import TemporaryDirectory
from types import TracebackType
from typing import Any, Callable, Dict, Generator, List, Optional, Sequence, Type, TypeVar, Union, cast, overload

from . import commands
from .aio_monitors import Monitor, monitor
from .aio_proxies import Connected, Heard, Method, Property, Proxy, SignalSpy, hear_post, wait_for
from .aio_waiting import Calls, Done, came, tell_on, wait_until
from .asking import Asked
from .batches import AioBatch
from .connection import Connection
from .descriptions import BindingInfo, ConnectionInfo
from .dumping import Result, Steps, all_bindings, all_connections, commands_of, replaying, snapshot, text_of
from .errors import ClassFileRefused, NotAnswered, OtherSession, Refused
from .finding import proxies_of
from .hearing import Hearing, Listening, OnCall, OnWarning
from .holding import START_SECONDS, Holder, class_words
from .inside import TURNS, opened
from .lines import Value
from .pairing import Answer, reply_of
from .pending import BasePending
from .programs import ProgramConnection, Word
from .reaching import Making
from .session_commands import Awaiting
from .shapes import NO_COMMAND, Shape, with_relay
from .tls import Tls
from .tools import fault_in
from .waiting import not_in_time

Replied = TypeVar("Replied")

__all__ = [
    "Calls",
    "Connected",
    "Heard",
    "Method",
    "Monitor",
    "Pending",
    "Property",
    "Proxy",
    "Server",
    "Session",
    "SignalSpy",
    "connect",
    "inside",
    "monitor",
    "start",
    "wait_for",
    "with_relay",
]


class Pending(BasePending["Session"]):
    """The answer to a command that was sent. It is made by `Session.send`, and can be awaited itself."""

    async def result(self) -> Value:
        """Waits for the answer; returns the value of the reply, or raises `Refused`.

        Callbacks first receive all that came before the answer. It can be asked for again, after a wait that was
        cancelled too, and says the same however often it is asked.
        """
        await came(self._answer)
        line = self._session.server.connection.settled(self._answer)
        return reply_of(line, self._asked.do, self._asked.keys)

    def __await__(self) -> Generator[Any, None, Value]:
        return self.result().__await__()


class Session(Awaiting, Hearing):
    """A session of a server, by its name. It is made by `Server.session`.

    All is as it is of `metad.Session`, but that each method is awaited.
    """

    def __init__(self, server: Server, name: str) -> None:
        super().__init__(name)
        self.server = server
        """The server that it is of."""
        self.auto_spin = False
        """Whether each command is followed by a `spin`; may be set at any time."""

    def send(self, do: str, **keys: Value) -> Pending:
        """Sends a command by its word and its keys, and does not wait for the answer."""
        return self._give(Asked(do, **keys))

    def batch(self, timeout: Optional[float] = None) -> AioBatch:
        """A batch of commands, for `async with`, like `batch` of `metad.Session`: its methods are not awaited, the end of the
        block is."""
        return AioBatch(self, timeout)

    async def command(self, do: str, **keys: Value) -> Value:
        """Sends a command as `send` does, and waits: for commands that have no method here."""
        return await self.ask(Asked(do, **keys))

    async def ask(self, asked: Asked[Replied]) -> Replied:
        """Gives a command that was built by `metad.commands`, and waits for the reply."""
        pending = self._give(asked)
        if self.auto_spin and asked.do != "spin":
            with suppress(Refused):  # the session has failed, and the answer to the command itself says so
                await self._give(commands.spin())
        return cast(Replied, await pending)

    async def reset(self) -> bool:
        """Puts the session back to how it is before its first command; nobody listens to single slots any more."""
        done = await self.ask(commands.reset())
        self._forget_listeners()
        return done

    async def create(self, class_: str, parent: Optional[Proxy] = None) -> Proxy:
        """Makes an object as `new` does, and returns it with the properties and methods of its class."""
        if parent is not None and parent.session is not self:
            raise OtherSession(f"{parent!r} is of another session")
        shape = await self.shape(class_)
        return Proxy(self, await self.new(class_, None if parent is None else parent.number), shape)

    async def proxy(self, object: int, class_: str) -> Proxy:
        """A proxy of an existing object whose class is given, so that the server is not asked for it."""
        return Proxy(self, object, await self.shape(class_))

    async def shape(self, class_: str) -> Shape:
        """What there is in a class. The server is asked for it once."""
        shapes = self.server.shapes
        if class_ not in shapes:
            try:
                shapes[class_] = Shape.described(await self.describe(class_))
            except Refused as refused:
                if refused.code != NO_COMMAND:
                    raise
                shapes[class_] = Shape(await self.meta(class_))  # of an older server
        return shapes[class_]

    async def object(self, number: int) -> Proxy:
        """A proxy of an existing object, whose class the server is asked for."""
        return (await self._gathered(proxies_of(self, Proxy, [number])))[0]

    async def all_connections(self, object: Optional[int] = None) -> List[ConnectionInfo]:
        """All connections, or all those of an object. It gives as many commands as that takes."""
        return await self._gathered(all_connections(object))

    async def all_bindings(self) -> List[BindingInfo]:
        """All bound properties. It gives as many commands as that takes."""
        return await self._gathered(all_bindings())

    async def dump(self) -> str:
        """The contents of the session as a text, like `dump` of `metad.Session`."""
        return text_of(await self._gathered(snapshot()))

    async def dump_commands(self) -> List[Dict[str, Value]]:
        """The commands that make the contents of the session, like `dump_commands` of `metad.Session`."""
        return commands_of(await self._gathered(snapshot()))

    async def replay(self, given: Sequence[Dict[str, Value]]) -> None:
        """Gives the commands of a `dump_commands` to this session. Raises `NotFresh` if it has had objects before."""
        await self._gathered(replaying(given))

    async def listen(self, from_: str, name: str, types: Sequence[str], told: Listening) -> Heard:
        """Has a function called for what another session publishes under a name, with these types: as it comes in a live
        session, otherwise when this one spins. It needs a relay, see `with_relay`."""
        return await hear_post(self, from_, name, types, told)

    @overload
    async def wait_for(self, what: Method, timeout: Optional[float] = 5.0) -> List[Value]: ...

    @overload
    async def wait_for(self, what: Callable[[], Done], timeout: Optional[float] = 5.0) -> Done: ...

    async def wait_for(
        self, what: Union[Method, Callable[[], Done]], timeout: Optional[float] = 5.0
    ) -> Union[List[Value], Done]:
        """Waits until a predicate returns something true, or until a signal is sent, as `wait_for` of `metad.Session`
        does."""
        if isinstance(what, Method):
            return await wait_for(what, timeout)
        done = await wait_until(self, what, timeout)
        if not done:
            raise not_in_time(timeout)
        return done

    def calls(self, timeout: Optional[float] = None) -> Calls:
        """The calls of the session's slots and functors from now on, like `calls` of `metad.Session`, for `async for`."""
        return Calls(self, timeout)

    async def _gathered(self, steps: Steps[Result]) -> Result:
        """Gives lists of commands, each at once, and returns what comes of their replies."""
        try:
            asked = next(steps)
            while True:
                pending = [self._give(it) for it in asked]
                asked = steps.send([await it for it in pending])
        except StopIteration as stop:
            return cast(Result, stop.value)

    async def _came(self, answer: Answer, timeout: Optional[float]) -> None:
        """Waits for an answer, whatever it is, and tells all that came before it."""
        try:
            await asyncio.wait_for(came(answer), timeout)
        except asyncio.TimeoutError:
            raise NotAnswered(f"not all commands of a batch were answered in {timeout} seconds") from None
        self.server.connection.tell_before(answer)

    def _give(self, asked: Asked[Any]) -> Pending:
        return Pending.given(self, asked)


class Server(Holder):
    """A server, which belongs to one event loop. It is made by `start`, `inside` and `connect`.

    As an asynchronous context manager, a server is closed at the end. One that is not closed warns of that by a
    `ResourceWarning` when nobody holds it any more, and its input is ended then.
    """

    def __init__(self, connection: Connection) -> None:
        self._sessions: Dict[str, Session] = {}
        self._hold(connection)
        self._teller: Optional[asyncio.Task[None]] = None
        if connection.is_live:
            self._teller = asyncio.get_running_loop().create_task(tell_on(connection))

    async def __aenter__(self) -> Server:
        return self

    async def __aexit__(
        self, kind: Optional[Type[BaseException]], error: Optional[BaseException], trace: Optional[TracebackType]
    ) -> None:
        await self.close()

    def session(
        self, name: str, on_call: Optional[OnCall] = None, on_warning: Optional[OnWarning] = None
    ) -> Session:
        """The session of this name: the same object however often it is asked for.

        A callback that is given takes the place of the one before.
        """
        if name not in self._sessions:
            self._sessions[name] = Session(self, name)
            self.connection.add(self._sessions[name])
        session = self._sessions[name]
        session.on_call = session.on_call if on_call is None else on_call
        session.on_warning = session.on_warning if on_warning is None else on_warning
        return session

    async def close(self) -> Optional[int]:
        """Ends the server's input after all that was given, and waits for its end where that can be seen; returns its
        exit status where it was started here. Closing again does nothing more."""
        self._hang_up()
        await came(self.connection.closed())
        if self._teller is not None:
            await asyncio.wait([self._teller])
        return self.connection.status()


async def start(
    program: Word, *words: Word, classes: Optional[Dict[str, Value]] = None, timeout: Optional[float] = START_SECONDS
) -> Server:
    """Starts a server, as `metad.start` does."""
    with TemporaryDirectory(prefix="metad-") as folder:
        given = class_words(classes, folder)
        connection = ProgramConnection([program, *words, *given])
        try:
            connection.open(is_heard=True)
            answer = connection.ask_first()
            await asyncio.wait_for(came(answer), timeout)
            await _started(connection, answer, given)
        except asyncio.TimeoutError:
            connection.kill()
            raise NotAnswered(f"the server has not answered its first line in {timeout} seconds") from None
        except BaseException:
            connection.kill()
            raise
    return Server(connection)


async def _started(connection: ProgramConnection, answer: Answer, given: Sequence[Word]) -> None:
    """Raises what an end before the first answer means; a class file is checked while the loop goes on."""
    try:
        connection.started(answer)
    except ClassFileRefused as refused:
        if given:
            refused.fault = await asyncio.get_running_loop().run_in_executor(None, fault_in, given[-1])
        raise


async def inside(library: Optional[Word] = None, *, classes: Optional[Dict[str, Value]] = None, turns: int = TURNS) -> Server:
    """Opens a server inside this program, as `metad.inside` does. The event loop waits while a command is done."""
    connection = opened(library, classes, turns)
    connection.open(is_heard=True)
    return Server(connection)


async def connect(
    path: Word, share: Optional[str] = None, group: Optional[str] = None, *, live: Optional[bool] = None, tls: Optional[Tls] = None
) -> Server:
    """Connects with a front, as `metad.connect` does. The event loop runs meanwhile."""
    making = Making(path, share, group, live, tls)
    try:
        await came(making)
    except BaseException:
        making.give_up()
        raise
    connection = making.made()
    connection.open(is_heard=True)
    return Server(connection)
