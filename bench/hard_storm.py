"""Clients that harm a front by what they leave undone: half lines, answers that nobody reads, floods and storms."""

from __future__ import annotations

import json
import select
import socket
import threading
import time
from pathlib import Path
from typing import List

from hard_clients import Failed, Front, Pump, Pumps, connected, wait_until

FILES = 1_024  # that the front may have open
AT_ONCE = 1_200  # connections of a storm
HALVES, HALF = 200, 60_000
DEAF, CALLS, TEXT = 20, 250, 60_000  # clients that do not read, and what is sent to each: 15 MB
FLOODS = 8
MEMORY_MOST = 640 * 1_024  # KiB of the front
BELL = {"name": "Bell", "super": "QObject", "signals": ["rung(QString)"], "slots": [{"sig": "hear(QString)", "body": []}]}
CELL = {
    "name": "Cell", "super": "QObject", "properties": [{"name": "x", "type": "int", "notify": "xChanged(int)"}],
    "signals": ["xChanged(int)"], "slots": [{"sig": "seen(int)", "body": []}],
}  # fmt: skip
NEW = b'{"do":"new","class":"Bell"}\n'
CONNECT = b'{"do":"connect","sender":1,"signal":"rung(QString)","receiver":1,"method":"hear(QString)"}\n'
RING = b'{"do":"invoke","object":1,"method":"rung(QString)","args":["%s"]}\n' % (b"x" * TEXT)
FLOOD = b'{"do":"status"}\n' * 1_000


def deaf(path: Path) -> socket.socket:
    """A client that is sent much, and reads nothing of it."""
    link = connected(path)
    link.sendall(NEW + CONNECT * CALLS)
    reader = link.makefile("rb")
    for _ in range(1 + CALLS):
        if not reader.readline():
            raise Failed("a client was closed before it received much")
    reader.detach()
    link.sendall(RING)
    return link


def half(path: Path) -> socket.socket:
    """A client that does not end its line."""
    link = connected(path)
    link.sendall(b'{"do":"status"' + b" " * HALF)
    return link


def flood(link: socket.socket) -> None:
    """Writes as much as is taken at once, and reads nothing."""
    link.setblocking(False)
    try:
        while True:
            link.send(FLOOD)
    except OSError:
        pass


def storms(path: Path, ended: threading.Event, counts: List[int]) -> None:
    """Connects and disconnects as quickly as possible, and sometimes many times at once."""
    while not ended.is_set():
        links = []
        for at in range(AT_ONCE if len(counts) % 50 == 49 else 20):
            link = socket.socket(socket.AF_UNIX)
            link.setblocking(False)
            links.append(link)
            if link.connect_ex(str(path)) == 0 and at % 2:
                link.send(b'{"do":"sta')
        for link in links:
            link.close()
        counts.append(len(links))


def storm(room: Path, program: str, seconds: int, part: int) -> str:
    """Runs all of them at once, next to an honest client that has to be served all the time. There are 1/part as many clients
    that do not read."""
    classes = room / "classes.json"
    classes.write_text(json.dumps({"classes": [BELL, CELL]}))
    limit = ("sh", "-c", f'ulimit -n {FILES}; exec "$@"', "sh")
    with Front(room, [program, str(classes)], before=limit) as front:
        before = front.figure("VmRSS")
        pumps = Pumps([Pump(front.path, ahead=1)])
        links = [half(front.path) for _ in range(HALVES)]
        floods = [connected(front.path) for _ in range(FLOODS)]
        told = [deaf(front.path) for _ in range(max(1, DEAF // part))]
        links += floods + told
        ended, counts = threading.Event(), [0]
        thread = threading.Thread(target=storms, args=(front.path, ended, counts))
        thread.start()
        try:
            rage(pumps, floods, told, seconds)
        finally:
            ended.set()
            thread.join()
        pumps.drain()
        peak, done = front.figure("VmHWM"), pumps.all[0].answered
        for link in links:
            link.close()
        pumps.close()
        wait_until(lambda: front.figure("VmRSS") < before + 32_768, "the front has given back what it had for them")
        front.end()
    if peak > MEMORY_MOST:
        raise Failed(f"the front has had {peak:,} KiB of memory, and may have {MEMORY_MOST:,}")
    return f"{sum(counts):,} connections, peak of memory {peak:,} KiB, {done:,} commands of one that means well"


def rage(pumps: Pumps, floods: List[socket.socket], told: List[socket.socket], seconds: int) -> None:
    """Runs the floods and the honest client until each of the clients that do not read has been sent some of its lines, and
    for some seconds more."""

    def go_on(_pause: float) -> None:
        for link in floods:
            flood(link)
        pumps.drive(0.1)

    wait_until(lambda: len(select.select(told, [], [], 0)[0]) == len(told), "all receive something", go_on)
    until = time.monotonic() + seconds
    wait_until(lambda: time.monotonic() > until, "the time is over", go_on)
