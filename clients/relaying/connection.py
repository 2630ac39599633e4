"""What the relay does for each connection of a browser. Each WebSocket is one client of the front: a text message is a line,
and each line of the front is a text message. The library `websockets` has the protocol: handshakes, frames, pings, ends."""

from __future__ import annotations

import asyncio
import select
import socket
from dataclasses import dataclass
from http import HTTPStatus
from typing import Any, List, Optional, Set, Tuple, Union

from websockets.datastructures import Headers
from websockets.exceptions import ConnectionClosed
from websockets.legacy.server import WebSocketServerProtocol

from .pages import Answer, Pages, said
from .places import Doorkeeper

LINE_MOST = 65_536  # bytes of a line, without its LF
OUTPUT_MOST = 64 * 1024 * 1024  # bytes of a line of the front, far more than it writes
PIECE = 65_536  # bytes that are read from the front at once
SECONDS_TO_BEGIN = 10  # in which a request has to come
SECONDS_TO_END = 10  # in which the front has to take what a browser has sent before it left
SECONDS_OF_FILE = 60  # in which a browser has to take a file
SECONDS_STUCK = 5  # in which a browser has to take a line, once the front has closed its connection
SECONDS_OF_LOOK = 1  # between two looks at whether the front has closed a connection that is not read
OVER = 64  # connections beyond the most that are still answered by 503

GOING, NO_FRAME, NOT_TEXT, NO_LINE, TOO_LONG, BROKEN, LATER = 1001, 1002, 1003, 1007, 1009, 1011, 1013
GONE = "the front has closed the connection"
REASONS = {
    NO_FRAME: "a frame is not as RFC 6455 has it",
    NO_LINE: "a message has to be UTF-8",
    TOO_LONG: f"a message has at most {LINE_MOST} bytes",
}
"""Why the library closes a connection where it gives no reason."""


@dataclass
class Relay:
    """What all connections share."""

    front: str
    """The path of the front's socket."""
    most: int
    """The most connections at once."""
    doorkeeper: Doorkeeper
    pages: Optional[Pages]


class Unreached(Exception):
    """Why the front cannot be reached."""


class Lines:
    """Cuts the bytes of the front into lines."""

    def __init__(self) -> None:
        self.parts: List[bytes] = []
        self.size = 0

    def cut(self, data: bytes) -> List[bytes]:
        """The lines that are whole with some more bytes, without their LF."""
        head, found, rest = data.rpartition(b"\n")
        if not found:
            self.parts.append(data)
            self.size += len(data)
            return []
        whole = b"".join([*self.parts, head])
        self.parts, self.size = [rest], len(rest)
        return whole.split(b"\n")


def fault_of(message: Union[str, bytes]) -> Optional[Tuple[int, str]]:
    """Why a message is no line: the code by which its connection is closed, and the reason."""
    if isinstance(message, bytes):
        return NOT_TEXT, "a message has to be text"
    if "\n" in message:
        return NO_LINE, "a message is one line, without a line feed"
    return None


async def connected(path: str) -> socket.socket:
    """A connection with the front; `Unreached` if that fails. It waits where many others connect at once."""
    try:
        link = socket.socket(socket.AF_UNIX)
    except OSError as error:
        raise Unreached(error.strerror) from None
    link.setblocking(False)
    tries = 100 * SECONDS_TO_BEGIN
    while True:
        try:
            link.connect(path)
            return link
        except OSError as error:
            tries -= 1
            if not isinstance(error, BlockingIOError) or not tries:
                link.close()
                raise Unreached(error.strerror or str(error)) from None
        await asyncio.sleep(0.01)


def has_hung_up(link: socket.socket) -> bool:
    """Whether the other side has closed a connection, also where there is still something to be read."""
    looking = select.poll()
    looking.register(link, 0)
    return any(bits & select.POLLHUP for _, bits in looking.poll(0))


class Connection(WebSocketServerProtocol):
    """A connection of a browser: a WebSocket, or a request for a file."""

    def __init__(self, *given: Any, relay: Relay, **how: Any) -> None:
        super().__init__(*given, **how)
        self.relay = relay
        self.told = 0
        """How many lines of the front were passed on."""

    # ---- its beginning ----

    def connection_made(self, transport: asyncio.BaseTransport) -> None:
        """Begins to serve; one that is far beyond the most is closed at once."""
        super().connection_made(transport)
        if len(self.ws_server.websockets) > self.relay.most + OVER:
            self.transport.abort()

    async def handshake(self, *given: Any, **how: Any) -> str:
        """Answers the request, which has to come within a time."""
        try:
            return await asyncio.wait_for(super().handshake(*given, **how), SECONDS_TO_BEGIN)
        except asyncio.TimeoutError:
            raise ConnectionAbortedError("the request has not come in time") from None

    async def process_request(self, path: str, request_headers: Headers) -> Optional[Answer]:
        """Refuses what may not connect, and answers requests for files; None lets a WebSocket be opened."""
        is_web_socket = "websocket" in ",".join(request_headers.get_all("Upgrade")).lower()
        hosts = request_headers.get_all("Host")
        if len(self.ws_server.websockets) > self.relay.most:
            return said(HTTPStatus.SERVICE_UNAVAILABLE, "there are too many connections")
        if not self.relay.doorkeeper.knows_host(hosts):
            return said(HTTPStatus.FORBIDDEN, "this is no server of that name")
        if not is_web_socket:
            return self.file_at(path)
        if not self.relay.doorkeeper.lets_in(request_headers.get_all("Origin"), hosts[0]):
            return said(HTTPStatus.FORBIDDEN, "pages of this origin may not connect")
        return None

    def file_at(self, path: str) -> Answer:
        """The answer to a request that opens no WebSocket."""
        if self.relay.pages is None:
            return said(HTTPStatus.UPGRADE_REQUIRED, "only WebSockets are served here", Upgrade="websocket")
        self.close_timeout = SECONDS_OF_FILE
        return self.relay.pages.answer(path)

    # ---- its lines ----

    async def serve(self) -> None:
        """Relays lines until the browser or the front ends the connection, and then ends the other side."""
        try:
            link = await connected(self.relay.front)
        except Unreached as error:
            await self.close(LATER, f"the front cannot be reached: {error}")
            return
        with link:
            given, told = asyncio.ensure_future(self.give(link)), asyncio.ensure_future(self.tell(link))
            try:
                await self.until_ended(link, given, told)
            finally:
                given.cancel()
                told.cancel()
                await asyncio.gather(given, told, return_exceptions=True)
            await self.leave(link)

    async def until_ended(self, link: socket.socket, given: asyncio.Future[None], told: asyncio.Future[None]) -> None:
        """Waits until one side has ended. A browser that takes nothing is dropped once the front has closed its connection."""
        both: Set[asyncio.Future[None]] = {given, told}
        before, quiet = 0, 0
        while not any(it.done() for it in both):
            await asyncio.wait(both, timeout=SECONDS_OF_LOOK, return_when=asyncio.FIRST_COMPLETED)
            quiet = quiet + SECONDS_OF_LOOK if self.told == before and has_hung_up(link) else 0
            before = self.told
            if quiet > SECONDS_STUCK:
                self.transport.abort()
                return

    async def give(self, link: socket.socket) -> None:
        """Gives the front what the browser sends, until the browser ends the connection."""
        loop = asyncio.get_running_loop()
        takes = True
        while True:
            try:
                message = await self.recv()
            except ConnectionClosed:
                return
            fault = fault_of(message)
            if fault is not None:
                await self.close(*fault)
                return
            try:
                if takes and isinstance(message, str):
                    await loop.sock_sendall(link, message.encode() + b"\n")
            except OSError:
                takes = False  # the front has closed: its last lines are still passed on

    async def tell(self, link: socket.socket) -> None:
        """Passes on what the front writes, until the front ends the connection. Where the browser does not read, nothing more
        is read from the front; once it has left, what comes is dropped."""
        loop = asyncio.get_running_loop()
        lines = Lines()
        takes = True
        while lines.size <= OUTPUT_MOST:
            try:
                data = await loop.sock_recv(link, PIECE)
            except OSError:
                data = b""
            if not data:
                await self.close(GOING, GONE)
                return
            for line in lines.cut(data):
                try:
                    if takes:
                        await self.send(line.decode("utf-8", "replace"))
                        self.told += 1
                except ConnectionClosed:
                    takes = False
        await self.close(BROKEN, "the front has written a line that is too long")

    async def leave(self, link: socket.socket) -> None:
        """Lets the front do what the browser sent before it left."""
        loop = asyncio.get_running_loop()

        async def until_end() -> None:
            while await loop.sock_recv(link, PIECE):
                pass

        try:
            link.shutdown(socket.SHUT_WR)
            await asyncio.wait_for(until_end(), SECONDS_TO_END)
        except (OSError, asyncio.TimeoutError):
            pass

    # ---- its end ----

    def fail_connection(self, code: int = 1006, reason: str = "") -> None:
        """Closes the connection because of what the browser has sent, with a reason for each code."""
        super().fail_connection(code, reason or REASONS.get(code, ""))


async def serve_web_socket(web_socket: WebSocketServerProtocol) -> None:
    """Serves an open WebSocket of the library, which makes a `Connection` for each."""
    assert isinstance(web_socket, Connection)
    await web_socket.serve()
