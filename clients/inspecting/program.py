"""What the words of the command line ask for, and how a run ends."""

from __future__ import annotations

import argparse
import os
import secrets
import signal
import socket
from contextlib import suppress
from typing import List

from common.ending import Stop, complain
from common.files import lines_of, opened
from common.options import NAME, parser_of

from .classes import classes_of
from .feed import Asking, Feed, first_line, follow
from .pages import Leave, Pages
from .replay import Replay
from .serving import serve
from .world import World

USAGE = f"{NAME} [--port PORT] RECORD PROGRAM [ARGS...]"
HERE = "127.0.0.1"
WAITING_MOST = 64
NICENESS = 5  # the picture gives way to the server

HELP = """\
RECORD is the input of a metad: any file of commands, or what `metad-front --record` has written. PROGRAM is the server,
and ARGS are the words that it was given. PROGRAM runs on RECORD once, and the page shows its output line by line,
forwards and backwards. The address of the page is printed on standard error. It is there until you press Ctrl-C.

`metad-front --inspect PORT` shows a running server. It starts this program.

Exit status: 0 after an interrupt; 1 if something cannot be read, opened or run; 2 after a mistake in the command line."""


def parser() -> argparse.ArgumentParser:
    made = parser_of(NAME, "Shows a record of a metad as a page in the browser.", HELP, USAGE)
    made.add_argument("--port", metavar="PORT", type=port, default=0, help="the port of this machine; without it any free one")
    made.add_argument("--feed", type=int, help=argparse.SUPPRESS)
    made.add_argument("--door", type=int, help=argparse.SUPPRESS)
    made.add_argument("record", metavar="RECORD", nargs="?", help=argparse.SUPPRESS)
    made.add_argument("program", metavar="PROGRAM", nargs="?", help=argparse.SUPPRESS)
    made.add_argument("args", metavar="ARGS", nargs=argparse.REMAINDER, help=argparse.SUPPRESS)
    return made


def port(word: str) -> int:
    """The number of a port."""
    if not (word.isascii() and word.isdecimal()) or len(word) > 5 or int(word) > 65_535:
        raise argparse.ArgumentTypeError(f"{word!r} is no number of a port")
    return int(word)


def show_live(feed: int, door: int) -> int:
    """Shows the server of a front, which reports it by a socket, until that ends."""
    with suppress(OSError):
        os.nice(NICENESS)
    link = socket.socket(fileno=feed)
    said = first_line(link)
    if not said:
        return 0
    world = World(classes_of(said["words"][1:]))
    world.is_live = True
    asking = Asking(link if said["ask"] or said["write"] else None)
    pages = Pages(world, asking, Leave(said["ask"], said["write"]), said["words"])
    serve(socket.socket(fileno=door), said["token"], pages)
    with suppress(OSError):
        follow(Feed(world, asking), link)
    return 0


def show_record(path: str, program: str, args: List[str], at: int) -> int:
    """Shows a record, until it is interrupted."""
    with opened(path) as file:
        record = b"".join(lines_of(file, path))
    replay = Replay(record, [program, *args])
    replay.load()
    replay.go(len(replay.steps))
    token = secrets.token_urlsafe(24)
    with bound(at) as door:
        pages = Pages(replay.world, Asking(None), Leave(), replay.words, replay)
        serve(door, token, pages)
        complain(NAME, f"shown at http://{HERE}:{door.getsockname()[1]}/{token}/")
        with suppress(KeyboardInterrupt):
            while True:
                signal.pause()
    return 0


def bound(at: int) -> socket.socket:
    """A socket of this machine alone at which browsers connect."""
    door = socket.socket(socket.AF_INET)
    try:
        door.setsockopt(socket.SOL_SOCKET, socket.SO_REUSEADDR, 1)
        door.bind((HERE, at))
        door.listen(WAITING_MOST)
    except OSError as error:
        door.close()
        raise Stop(f"port {at} cannot be bound: {error.strerror or error}") from None
    return door


def shown() -> int:
    """Does what the words ask for; answers the exit status."""
    made = parser()
    given = made.parse_args()
    if given.help:
        print(made.format_help(), end="")
        return 0
    if given.feed is not None and given.door is not None:
        return show_live(given.feed, given.door)
    if given.record is None or given.program is None:
        made.error("a record and the program that answers it are wanted")
    return show_record(given.record, given.program, given.args, given.port)


def main() -> int:
    try:
        return shown()
    except Stop as stop:
        complain(NAME, str(stop))
    except KeyboardInterrupt:
        return 0
    return 1
