"""Monitors of a front for asyncio: the names are those of `monitors`, and what waits there is awaited here."""

from __future__ import annotations

import asyncio
from contextlib import suppress
from types import TracebackType
from typing import Dict, Generator, Optional, Type

from .errors import ConnectionClosed, LinesLost
from .lines import Value
from .monitors import READ_BYTES, Arrived, is_chosen, request
from .programs import Word
from .sockets import connected


class Monitor:
    """Reads the lines of a front's server, as that writes them: of all sessions, or of one. It is made by `aio.monitor`.

    Use `async for`; each line is what its JSON holds. There are no more lines when the front has ended, or when the monitor was
    closed. Where lines were lost, all that have arrived come first, and then `LinesLost` is raised. One task reads at a time. As
    an asynchronous context manager it is closed at the end.
    """

    def __init__(self, path: Word, session: Optional[str] = None) -> None:
        self._path = path
        self._session = session
        self._arrived = Arrived()
        self._reader: Optional[asyncio.StreamReader] = None
        self._writer: Optional[asyncio.StreamWriter] = None
        self._lost: Optional[LinesLost] = None

    def __await__(self) -> Generator[object, None, Monitor]:
        return self._open().__await__()

    async def __aenter__(self) -> Monitor:
        return await self

    async def __aexit__(
        self, kind: Optional[Type[BaseException]], error: Optional[BaseException], trace: Optional[TracebackType]
    ) -> None:
        await self.close()

    def __aiter__(self) -> Monitor:
        return self

    async def __anext__(self) -> Dict[str, Value]:
        line = await self._take()
        if line is None:
            raise StopAsyncIteration
        return line

    async def close(self) -> None:
        """Reads no more, and ends the iteration of another task. Closing again does nothing."""
        writer, self._writer = self._writer, None
        if writer is not None:
            writer.close()
            with suppress(OSError):  # the front has gone
                await writer.wait_closed()

    async def _open(self) -> Monitor:
        """Connects, and chooses the session, once."""
        if self._reader is None:
            link = connected(self._path)
            if self._session is not None:
                with suppress(OSError):  # the front has gone: what it has written before is still read
                    link.sendall(request(self._session))
            self._reader, self._writer = await asyncio.open_unix_connection(sock=link)
            try:
                if self._session is not None:
                    await self._choose(self._session)
            except BaseException:
                await self.close()
                raise
        return self

    async def _choose(self, session: str) -> None:
        """Waits until the lines of the one session come that was asked for; lines that came before are dropped."""
        line = await self._take()
        while line is not None:
            if is_chosen(line, session):
                return
            line = await self._take()
        raise ConnectionClosed

    async def _take(self) -> Optional[Dict[str, Value]]:
        """The next line; None at the end, and `LinesLost` where that is not the end of all lines."""
        if self._lost is not None:
            raise LinesLost(self._lost.count)
        try:
            line = self._arrived.take()
            while line is None and self._writer is not None:
                data = await self._receive()
                if not data:
                    if self._writer is not None:
                        self._arrived.end()
                    return None
                self._arrived.add(data)
                line = self._arrived.take()
            return None if self._writer is None else line
        except LinesLost as lost:
            self._lost = lost
            raise

    async def _receive(self) -> bytes:
        """What has arrived, at least one byte; nothing at the end."""
        assert self._reader is not None
        try:
            return await self._reader.read(READ_BYTES)
        except OSError:
            return b""  # the front has gone without reading all that it was given


def monitor(path: Word, session: Optional[str] = None) -> Monitor:
    """Reads what is written by the server of a front whose `--monitor` is this path, like `metad.monitor`: `await` it, or use
    `async with`."""
    return Monitor(path, session)
