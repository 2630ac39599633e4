"""The attacks of siege.py. Each is a function of the front's folder, runs again and again in a process of its own, and fails
if the front answers otherwise than its limits say."""

from __future__ import annotations

import errno
import json
import socket
import time
from collections import Counter
from contextlib import ExitStack, contextmanager, suppress
from pathlib import Path
from typing import Callable, Counter as Counts, Dict, Iterator, List, Tuple

from hard_clients import Failed, ask as answer_to

STATUS = b'{"do":"status"}\n'
CELL = b'{"class":"Cell","do":"new"}\n'
PIECE = 1 << 16
LONG = 4_000  # bytes of a value, so that the system soon takes no more of the answers to a client that does not read
FLOOD_SECONDS, PATIENCE = 2.0, 60.0
RING = 40  # cells of a chain that each send their signal twice to the next
STORM = 60
NO_MEMORY = ("E20", "E21")  # which the attack that fills a server's memory may cause for others there
NOTHING_HEARD = {"events": 0, "left": 0, "lost": 0, "mismatched": 0}
NOT_SHARED = '{"error":"F02","session":"-"}'
Line = Dict[str, object]
HEARD: Counts[str] = Counter()
"""What the attack of this process was answered: how often by `reply`, and by the code of each error."""


def heard(line: Line) -> Line:
    """Counts an answer."""
    if "reply" in line or "error" in line:
        HEARD[str(line.get("error", "reply"))] += 1
    return line


def ask(link: socket.socket, line: str) -> Line:
    """The answer to a line. A client whose user has too many connections goes at once."""
    found = heard(answer_to(link, line))
    if found.get("error") == "F11":
        raise ConnectionRefusedError
    return found


@contextmanager
def client(room: Path) -> Iterator[socket.socket]:
    """A connection, whose end by the front is no fault."""
    with socket.socket(socket.AF_UNIX) as link:
        link.settimeout(PATIENCE)
        while link.connect_ex(str(room / "socket")) == errno.EAGAIN:
            time.sleep(0.1)  # so many wait there that there is no room
        try:
            yield link
        except (ConnectionError, socket.timeout):
            pass


def rest(link: socket.socket) -> List[Line]:
    """The lines that come until the front closes the connection of a client that has exceeded its limit. A partial last one is
    left out."""
    lines, is_closed = lines_in_time(link, PATIENCE)
    if not is_closed:
        raise Failed(f"a client is not closed, which has exceeded its limit: {lines[-3:]!r}")
    return lines


def lines_in_time(link: socket.socket, seconds: float) -> Tuple[List[Line], bool]:
    """The lines that come in so many seconds, or until the front closes the connection; and whether it does."""
    told, until, is_closed = b"", time.monotonic() + seconds, False
    try:
        while not is_closed and time.monotonic() < until:
            link.settimeout(max(until - time.monotonic(), 0.01))
            piece = link.recv(PIECE)
            told += piece
            is_closed = not piece
    except ConnectionError:
        is_closed = True
    except socket.timeout:
        pass
    return [heard(json.loads(line)) for line in told.split(b"\n")[:-1]], is_closed


def check_end(lines: List[Line], *codes: str) -> None:
    """Checks that the last line says why the client was closed."""
    if lines and lines[-1].get("error") not in (*codes, "F11", "F19"):
        raise Failed(f"the last line is {lines[-1]}, and has to be one of {codes}")


def flood(room: Path, data: bytes = STATUS * 400) -> None:
    """Writes as much as the front takes, and reads what comes."""
    with client(room) as link:
        link.setblocking(False)
        until, left, told = time.monotonic() + FLOOD_SECONDS, data, b""
        while time.monotonic() < until:
            try:
                left = left[link.send(left) :] or data
            except BlockingIOError:
                time.sleep(0.005)
            try:
                told = (told + link.recv(PIECE))[-1_000:]
            except BlockingIOError:
                pass
        for line in map(json.loads, told.split(b"\n")[1:-1]):
            if "reply" not in heard(line) and line["error"][0] != "F" and line["error"] not in NO_MEMORY:
                raise Failed(f"a flood is answered {line!r}")


def blank(room: Path) -> None:
    """Writes blank lines, as many as the front takes."""
    flood(room, b"\n" * PIECE)


def half_line(room: Path) -> None:
    """Writes lines that do not end: a long one and a short one."""
    for size in (20_000, 5):
        with client(room) as link:
            link.sendall(b'{"do":"' + b"x" * size)
            check_end(rest(link), "F14")


def slow_reader(room: Path) -> None:
    """Writes and does not read, until the front takes nothing more. Then it reads for a while, and leaves."""
    with client(room) as link:
        link.settimeout(0.5)
        until = time.monotonic() + FLOOD_SECONDS
        try:
            link.sendall(CELL + b'{"do":"set","object":1,"property":"objectName","value":"%s"}\n' % (b"n" * LONG))
            while time.monotonic() < until:
                link.sendall(b'{"do":"get","object":1,"property":"objectName"}\n' * 100)
        except OSError:
            pass
        lines, is_closed = lines_in_time(link, FLOOD_SECONDS)
        if is_closed:
            check_end(lines, "F13")


def fill_memory(room: Path) -> None:
    """Fills a server's memory: its session fails, and is answered so."""
    with client(room) as link:
        ask(link, '{"front":"hello","group":"full"}')
        reader = link.makefile("rb")
        for number in range(1, 2_000):
            lines = [b'{"do":"set","object":%d,"property":"p%d","value":"%s"}\n' % (number, at, b"x" * 4_000) for at in range(50)]
            link.sendall(b'{"class":"Probe","do":"new"}\n' + b"".join(lines))
            for _ in range(51):
                line = heard(json.loads(reader.readline() or b'{"error":"closed"}'))
                if line.get("error") in (*NO_MEMORY, "F04", "F19", "closed"):
                    return
                if "reply" not in line:
                    raise Failed(f"a session that fills memory is answered {line}")
        raise Failed("a session fills any memory")


def long_loop(room: Path) -> None:
    """Gives a command that would call for hours: it is answered that it has taken too long."""
    with client(room) as link:
        ask(link, '{"front":"hello","group":"loop"}')
        reader = link.makefile("rb")
        relay = '{{"do":"connect","sender":{},"signal":"xChanged(int)","receiver":{},"method":"xChanged(int)"}}\n'
        lines = [CELL.decode()] * RING + [relay.format(at, at + 1) for at in range(1, RING) for _ in range(2)]
        link.sendall("".join(lines).encode())
        for _ in lines:
            reader.readline()
        link.sendall(b'{"do":"set","object":1,"property":"x","value":1}\n')
        line = heard(json.loads(reader.readline() or b'{"error":"closed"}'))
        if line.get("error") not in ("F18", "closed", None, *NO_MEMORY):
            raise Failed(f"a command that takes too long is answered {line}")
        time.sleep(1)


def guess(room: Path) -> None:
    """Guesses names: of shared sessions, and of sessions that others have."""
    with client(room) as link:
        name = str(ask(link, '{"do":"status"}')["session"])
        ask(link, CELL.decode().strip())
        for number in range(1, 9):
            join = {"do": "join", "from": f"c{number}", "name": "level", "types": ["int"], "object": 1, "method": "seen(int)"}
            if join["from"] == name:
                continue
            answer = ask(link, json.dumps(join))
            if answer.get("error") in NO_MEMORY:
                return
            if answer.get("reply") is not True:
                raise Failed(f"a guess of c{number} is answered {answer}, otherwise than one of nobody")
        answer = ask(link, '{"do":"spin"}')
        if answer.get("error") not in NO_MEMORY and answer.get("reply") != NOTHING_HEARD:
            raise Failed("a guess is heard")


def share(room: Path) -> None:
    """Asks for a shared session of others, which is refused like one that is not there."""
    for name in ("team", "nobody"):
        with client(room) as link:
            found = json.dumps(ask(link, f'{{"front":"share","session":"{name}"}}'), separators=(",", ":"))
            if found != NOT_SHARED:
                raise Failed(f"a session of others is answered {found}")


def check_health(room: Path) -> None:
    """Occupies the socket of health checks."""
    with ExitStack() as links:
        for _ in range(12):
            link = links.enter_context(socket.socket(socket.AF_UNIX))
            link.setblocking(False)
            link.connect_ex(str(room / "health"))
        time.sleep(1)


def storm(room: Path) -> None:
    """Connects many times at once, and disconnects with half a line."""
    links = []
    for _ in range(STORM):
        link = socket.socket(socket.AF_UNIX)
        link.setblocking(False)
        links.append(link)
        if link.connect_ex(str(room / "socket")) == 0:
            with suppress(ConnectionError, BlockingIOError):  # of a front that has closed it already
                link.send(b'{"do":"sta')
    for link in links:
        link.close()
    time.sleep(0.05)


ATTACKS: Dict[str, Callable[[Path], None]] = {
    it.__name__: it
    for it in (flood, blank, half_line, slow_reader, fill_memory, long_loop, guess, share, check_health, storm)
}
