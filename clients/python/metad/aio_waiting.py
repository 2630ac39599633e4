"""Waits for the lines of a session in asyncio: the names are those of `waiting`, and what waits there is awaited here."""

from __future__ import annotations

import asyncio
from contextlib import suppress
from typing import TYPE_CHECKING, Callable, Optional, TypeVar

from .connection import Connection
from .errors import Refused
from .hearing import Follower
from .lines import Call
from .once import Once
from .waiting import Patience, news_of

if TYPE_CHECKING:
    from .aio import Session

Done = TypeVar("Done")


async def came(once: Once) -> None:
    """Waits for an event that happens once. A wait that is cancelled disturbs nobody."""
    loop = asyncio.get_running_loop()
    future: asyncio.Future[None] = loop.create_future()

    def wake() -> None:
        if not future.done():
            future.set_result(None)

    def bell() -> None:
        with suppress(RuntimeError):  # the loop was closed, and no task waits any more
            loop.call_soon_threadsafe(wake)

    once.ring(bell)
    try:
        await future
    finally:
        once.silence(bell)


async def tell_on(connection: Connection) -> None:
    """Calls the callbacks of a live session as lines come, up to its end.

    An exception of a callback is given to the loop's exception handler, and so is the refusal by which a session stops being
    live: no task is waiting that could receive it.
    """
    loop = asyncio.get_running_loop()
    while True:
        news = connection.news()
        try:
            connection.tell()
        except Exception as error:
            loop.call_exception_handler({"message": "a callback of a metad session has failed", "exception": error})
            continue
        if connection.live_fault is not None:
            refused = Refused("spin", connection.live_fault)
            loop.call_exception_handler({"message": "a metad session is not live any more", "exception": refused})
        if connection.has_ended() or not connection.is_live:
            return
        await came(news)


async def wait_until(session: Session, is_done: Callable[[], Done], timeout: Optional[float]) -> Done:
    """Awaits what `waiting.wait_until` waits for."""
    connection, patience = session.server.connection, Patience(timeout)
    while True:
        news, is_live = news_of(connection)
        if not is_live:
            await session.spin()
        done = is_done()
        if done or patience.is_over():
            return done
        if connection.is_live:
            connection.check()
            with suppress(asyncio.TimeoutError):
                await asyncio.wait_for(came(news), patience.left())
        else:
            await asyncio.sleep(patience.pause())


class Calls(Follower):
    """The calls of a session as they come. `Session.calls` makes it; use `async for`."""

    def __init__(self, session: Session, timeout: Optional[float]) -> None:
        super().__init__(session)
        self._session = session
        self._timeout = timeout

    def __aiter__(self) -> Calls:
        return self

    async def __anext__(self) -> Call:
        if not await wait_until(self._session, self._has_come, self._timeout):
            raise StopAsyncIteration
        return self._came.popleft()
