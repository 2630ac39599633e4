"""The command line of `web`, and its run."""

from __future__ import annotations

import argparse
import asyncio
import logging
import os
import resource
import signal
import socket
import ssl
import stat
import sys
from contextlib import suppress
from functools import partial
from pathlib import Path
from typing import Any, Optional

from common.ending import Stop, complain, ended
from common.options import NAME, parser_of

from .pages import Pages
from .places import Address, Doorkeeper, address, origin, shown

USAGE = f"{NAME} [options] SOCKET"
CLIENT = Path(__file__).resolve().parent.parent / "js"
WRONG_WORDS = 2
SECONDS_TO_END = 2  # in which browsers have to take the end
SECONDS_OF_HANDSHAKE = 10  # of TLS
PING_SECONDS, PONG_SECONDS = 30, 60  # between pings, and until one is answered
MESSAGES = 4  # of a browser that wait for the front
FILES_OF_CONNECTION, FILES_OF_PROGRAM = 2, 256  # that are open
CLIENTS_MOST = 65_536
WAITING_MOST = 128

HELP = """\
SOCKET is the Unix-domain socket of a metad-front. Each WebSocket is one client of it: each text message is a line, without a
line feed, and each line of the front is a text message. The address is printed on standard error. SIGTERM and Ctrl-C end it.

With --files, /metad/ has the client in JavaScript, so that pages can import /metad/index.mjs.

Exit status: 0 after SIGTERM or an interrupt; 1 if something cannot be read or opened; 2 after a mistake in the command line."""


def clients(word: str) -> int:
    """A number of connections."""
    if not (word.isascii() and word.isdecimal()) or len(word) > 5 or not 1 <= int(word) <= CLIENTS_MOST:
        raise argparse.ArgumentTypeError(f"{word!r} is no number from 1 to {CLIENTS_MOST}")
    return int(word)


HELP_OF = {
    "listen": "where browsers connect, by default 127.0.0.1:7073; port 0 is any free one",
    "cert": "the certificate for wss://, in PEM form; without it only addresses such as 127.0.0.1 are allowed",
    "key": "its private key, without a password",
    "origin": "pages of this origin may connect, and no others; may be repeated; by default those of the host they connect to",
    "files": "serves the files of this folder",
    "clients": "the most connections at once, by default 256",
}


def parser() -> argparse.ArgumentParser:
    made = parser_of(NAME, "Lets web pages use a front, over WebSocket.", HELP, USAGE)

    def add(name: str, value: str, **how: Any) -> None:
        made.add_argument(f"--{name}", metavar=value, help=HELP_OF[name], **how)

    add("listen", "ADDRESS:PORT", type=address, default=Address("127.0.0.1", 7073))
    add("cert", "FILE")
    add("key", "FILE")
    add("origin", "ORIGIN", type=origin, action="append", default=[])
    add("files", "FOLDER", type=Path)
    add("clients", "N", type=clients, default=256)
    made.add_argument("socket", metavar="SOCKET", nargs="?", help=argparse.SUPPRESS)
    return made


class WrongWords(Stop):
    """Words that do not go together, in one line."""

    status = WRONG_WORDS


def context_of(given: argparse.Namespace) -> Optional[ssl.SSLContext]:
    """What browsers are shown over TLS; None without TLS."""
    if given.cert is None:
        return None
    made = ssl.SSLContext(ssl.PROTOCOL_TLS_SERVER)
    made.minimum_version = ssl.TLSVersion.TLSv1_2
    try:
        made.load_cert_chain(given.cert, given.key, password="")
    except (OSError, ValueError) as error:
        why = "they are no certificate with its private key in PEM form" if isinstance(error, (ssl.SSLError, ValueError)) else error.strerror
        raise Stop(f"{given.cert} and {given.key} cannot be used: {why}") from None
    return made


def check(given: argparse.Namespace) -> None:
    """Stops where words do not go together, or where there is nothing at a path."""
    if (given.cert is None) != (given.key is None):
        raise WrongWords("--cert and --key are given together, or neither")
    if given.cert is None and not given.listen.is_local:
        raise WrongWords(
            f"--listen {shown(given.listen.host, given.listen.port)} needs --cert and --key: without TLS, anyone on the way "
            "could read and change what is sent, so it is only for addresses such as 127.0.0.1"
        )
    if given.files is not None and not given.files.is_dir():
        raise Stop(f"{given.files} is no folder")
    try:
        is_socket = stat.S_ISSOCK(Path(given.socket).stat().st_mode)
    except (OSError, ValueError) as error:
        raise Stop(f"{given.socket} cannot be reached: {getattr(error, 'strerror', None) or error}") from None
    if not is_socket:
        raise Stop(f"{given.socket} is no socket")


def make_room(most: int) -> None:
    """Raises the limit of open files as far as it may be, where more are needed."""
    soft, hard = resource.getrlimit(resource.RLIMIT_NOFILE)
    wanted = FILES_OF_CONNECTION * most + FILES_OF_PROGRAM
    if soft != resource.RLIM_INFINITY and soft < wanted:
        with suppress(OSError, ValueError):
            resource.setrlimit(resource.RLIMIT_NOFILE, (wanted if hard == resource.RLIM_INFINITY else min(wanted, hard), hard))


def bound(place: Address) -> socket.socket:
    """A socket at which browsers connect."""
    family = socket.AF_INET6 if ":" in place.host else socket.AF_INET
    try:
        return socket.create_server((place.host, place.port), family=family, backlog=WAITING_MOST)
    except OSError as error:
        raise Stop(f"{shown(place.host, place.port)} cannot be bound: {os.strerror(error.errno or 0)}") from None


async def serve(given: argparse.Namespace, context: Optional[ssl.SSLContext]) -> int:
    """Serves browsers until a signal ends it."""
    from websockets.legacy.server import serve as listen
    from websockets.typing import Subprotocol

    from .connection import LINE_MOST, Connection, Relay, serve_web_socket

    loop, over = asyncio.get_running_loop(), asyncio.Event()
    loop.set_exception_handler(tell_fault)
    for number in (signal.SIGTERM, signal.SIGINT):
        loop.add_signal_handler(number, over.set)
    pages = None if given.files is None else Pages(given.files, CLIENT)
    relay = Relay(given.socket, given.clients, Doorkeeper(given.origin, given.listen.is_local, context is not None), pages)
    door = bound(given.listen)
    server = await listen(
        serve_web_socket, sock=door, create_protocol=partial(Connection, relay=relay), subprotocols=[Subprotocol("metad")],
        compression=None, server_header=None, max_size=LINE_MOST, max_queue=MESSAGES, ping_interval=PING_SECONDS,
        ping_timeout=PONG_SECONDS, ssl=context, ssl_handshake_timeout=SECONDS_OF_HANDSHAKE if context else None,
    )  # fmt: skip
    tell_place(door.getsockname()[:2], context is not None, pages is not None)
    await over.wait()
    await end(server)
    return 0


async def end(server: Any) -> None:
    """Closes all connections, and waits a short time for browsers to take that."""
    closing = [asyncio.ensure_future(it.close(1001, "the relay has ended")) for it in server.websockets if it.open]
    await asyncio.sleep(0)  # they are closed with this reason before the server would close them without
    server.close()
    await asyncio.wait([asyncio.ensure_future(server.wait_closed()), *closing], timeout=SECONDS_TO_END)
    for it in list(server.websockets):
        it.transport.abort()


def tell_place(place: Any, is_tls: bool, has_files: bool) -> None:
    at = shown(*place)
    if has_files:
        complain(NAME, f"files at {'https' if is_tls else 'http'}://{at}/")
    complain(NAME, f"listening at {'wss' if is_tls else 'ws'}://{at}/")


def tell_fault(_loop: asyncio.AbstractEventLoop, what: Any) -> None:
    """Says what went wrong, except that a connection has failed, which is the end of that alone."""
    fault = what.get("exception")
    if not isinstance(fault, OSError):
        complain(NAME, f"{what.get('message')}: {fault}")


def run() -> int:
    """Does what the words ask for; answers the exit status."""
    made = parser()
    given = made.parse_args()
    if given.help:
        print(made.format_help(), end="")
        return 0
    if given.socket is None:
        made.error("the socket of a front is wanted")
    check(given)
    try:
        import websockets.legacy.server  # noqa: F401
    except ImportError:
        raise Stop(f"it needs websockets for {sys.executable}: apt-get install python3-websockets") from None
    logging.getLogger("websockets").addHandler(logging.NullHandler())
    logging.getLogger("websockets").propagate = False
    make_room(given.clients)
    return asyncio.run(serve(given, context_of(given)))


def main() -> int:
    signal.signal(signal.SIGINT, signal.default_int_handler)
    return ended(NAME, run)
