#!/usr/bin/env python3
"""Measures a front with several workers: lines per second over one, two and four of them, the cost of a line in the front,
ways to write lines to a socket, how fast a group is restored, and how long a quiet client waits next to a group that floods
its worker or another one.

Usage: workers.py PROGRAM. Clients ask for little, a `status`, or for much, a `set` that 300 bindings follow. They are in
processes of their own. Ratios are medians of several turns, and those of lines per second and of waits compare runs right
after each other. Other load on the machine affects the figures: they are for people, and decide nothing.
"""

from __future__ import annotations

import os
import selectors
import signal
import socket
import statistics
import subprocess
import sys
import time
from pathlib import Path
from tempfile import TemporaryDirectory
from typing import Callable, Dict, List, Sequence, Tuple

CLIENTS = Path(__file__).resolve().parent.parent / "clients"
sys.path += [str(CLIENTS), str(CLIENTS / "python")]

from ending import ended, measured  # noqa: E402
from ring import Ring  # noqa: E402

import metad  # noqa: E402

TURNS, SECONDS = 3, 2.0
COUNTS = (1, 2, 4)
BUSY, HEAVY, AHEAD = 200, 32, 8  # clients that ask for little and for much, each with so many commands under way
BOUND = 300  # bindings that follow what a command sets which asks for much
ASKED, PAUSE = 300, 0.002
CHUNK = 262_144
STATUS = b'{"do":"status"}\n'
CELL = b'{"do":"new","class":"Cell"}\n'
BIND = b'{"do":"bind","object":%d,"property":"y","to":{"prop":"x","of":1}}\n'
SET = b'{"do":"set","object":1,"property":"x","value":%d}\n'
RECORDED = 40_000  # lines of a record
PIECES, PIECE = 64, b'{"reply":true,"session":"desk__c1"}\n'


def connected(path: str, group: str) -> socket.socket:
    """A client of a group."""
    link = socket.socket(socket.AF_UNIX)
    link.connect(path)
    link.sendall(b'{"front":"hello","group":"%s"}\n' % group.encode())
    link.recv(CHUNK)
    return link


def bind(link: socket.socket) -> None:
    """Makes an object whose property many others are bound to."""
    for number in range(1, BOUND + 2):
        link.sendall(CELL + (BIND % number if number > 1 else b""))
    left = 2 * BOUND + 1
    while left:
        left -= link.recv(CHUNK).count(b"\n")


def flood(path: str, count: int, group: str, kind: str) -> None:
    """Clients that ask as long as there is a front, and say how many answers they had whenever they are asked. Each has a
    group of its own, unless one is named. They ask for little, or set what many bindings follow."""
    selector, answers = selectors.DefaultSelector(), 0
    pair = SET % 1 + SET % 2 if kind == "much" else 2 * STATUS
    left: Dict[int, int] = {}  # answers of half a pair, by the numbers of files
    for number in range(count):
        link = connected(path, group or f"g{number}")
        if kind == "much":
            bind(link)
        selector.register(link, selectors.EVENT_READ, link)
        link.sendall(AHEAD // 2 * pair)
    selector.register(sys.stdin, selectors.EVENT_READ, None)
    print("begun", flush=True)
    while True:
        for key, _ in selector.select():
            if key.data is None:
                if not sys.stdin.readline():
                    return
                print(answers, flush=True)
                continue
            lines = key.data.recv(CHUNK).count(b"\n")
            if not lines:
                return
            answers += lines
            pairs, left[key.fd] = divmod(lines + left.get(key.fd, 0), 2)
            key.data.sendall(pairs * pair)


class Flood:
    """A process of such clients."""

    def __init__(self, path: str, count: int, group: str = "", kind: str = "little") -> None:
        words = [sys.executable, __file__, "flood", path, str(count), group, kind]
        self.process = subprocess.Popen(words, stdin=subprocess.PIPE, stdout=subprocess.PIPE, text=True, bufsize=1)
        assert self.process.stdin and self.process.stdout
        self.given, self.told = self.process.stdin, self.process.stdout
        self.told.readline()

    def __enter__(self) -> Flood:
        return self

    def __exit__(self, *_error: object) -> None:
        self.process.kill()
        self.process.communicate()

    def answers(self) -> int:
        """How many answers there were by now."""
        self.given.write("\n")
        self.given.flush()
        return int(self.told.readline())


def processor_seconds(number: int) -> float:
    """What a process has taken of the processor."""
    fields = Path(f"/proc/{number}/stat").read_text().rsplit(")", 1)[1].split()
    return (int(fields[11]) + int(fields[12])) / os.sysconf("SC_CLK_TCK")


def front_with(program: str, count: int, *options: str) -> metad.Front:
    """A front with so many workers."""
    return metad.start_front(program, options=["--workers", str(count), *options])


def speed(program: str, count: int, kind: str, *options: str) -> Tuple[float, float]:
    """Lines a second over so many workers, and the microseconds of a processor that a line takes of the front."""
    clients = HEAVY if kind == "much" else BUSY
    with front_with(program, count, *options) as front, Flood(front.path, clients, kind=kind) as flooding:
        time.sleep(SECONDS / 4)
        used, before, begun = processor_seconds(front._process.pid), flooding.answers(), time.perf_counter()
        time.sleep(SECONDS)
        lines, seconds = flooding.answers() - before, time.perf_counter() - begun
        return lines / seconds, 1e6 * (processor_seconds(front._process.pid) - used) / lines


def quiet(path: str, group: str) -> float:
    """The seconds that 99 of 100 answers of a quiet client took at most."""
    waits: List[float] = []
    with connected(path, group) as link:
        for _ in range(ASKED):
            time.sleep(PAUSE)
            begun = time.perf_counter()
            link.sendall(STATUS)
            link.recv(CHUNK)
            waits.append(time.perf_counter() - begun)
    return sorted(waits)[len(waits) * 99 // 100]


def waits(program: str) -> Dict[str, float]:
    """How long a quiet client waits next to a group that floods, as a ratio to alone."""
    ring, names = Ring(2), [f"d{number}" for number in range(99)]
    mine, other = (next(it for it in names if ring.number_of(it) == number) for number in (1, 2))
    found: Dict[str, float] = {}
    with front_with(program, 2) as front:
        for what, group in (("another worker", other), ("the same worker", mine)):
            alone = quiet(front.path, mine)
            with Flood(front.path, 50, group):
                found[what] = quiet(front.path, mine) / alone
    return found


def sending() -> Dict[str, float]:
    """Microseconds per line where one client receives many: with a call for each, one for a list of them, and one for a text
    that they were joined to."""
    near, far = socket.socketpair()
    ways: Dict[str, Callable[[], object]] = {
        "a call for each": lambda: [near.send(PIECE) for _ in range(PIECES)],
        "sendmsg of a list": lambda: near.sendmsg([PIECE] * PIECES),
        "send of what was joined": lambda: near.send(joined()),
    }
    found: Dict[str, float] = {}
    with near, far:
        for what, send in ways.items():
            spent = 0.0
            for _ in range(3_000):
                begun = time.perf_counter()
                send()
                spent += time.perf_counter() - begun
                left = PIECES * len(PIECE)
                while left:
                    left -= len(far.recv(left))
            found[what] = 1e6 * spent / 3_000 / PIECES
    return found


def brought_back(program: str) -> float:
    """How many lines a second a worker is given that is brought to where another one was, which was killed."""
    with TemporaryDirectory() as room, front_with(program, 1, "--record", str(Path(room, "records"))) as front:
        with connected(front.path, "desk") as link:
            for _ in range(RECORDED // AHEAD):
                link.sendall(AHEAD * STATUS)
                told = 0
                while told < AHEAD:
                    told += link.recv(CHUNK).count(b"\n")
            number = front._process.pid
            os.kill(int(Path(f"/proc/{number}/task/{number}/children").read_text().split()[0]), signal.SIGKILL)
            begun = time.perf_counter()
            link.sendall(STATUS)
            link.recv(CHUNK)
            return RECORDED / (time.perf_counter() - begun)


def joined() -> bytearray:
    """The lines, as the front joins them."""
    text = bytearray()
    for _ in range(PIECES):
        text += PIECE
    return text


def measure_speed(program: str, kind: str) -> None:
    """Measures lines a second of a kind, and what a line costs the front."""
    speeds: Dict[int, List[float]] = {count: [] for count in COUNTS}
    costs: List[float] = []
    for _ in range(TURNS):
        for count in COUNTS:
            lines, cost = speed(program, count, kind)
            speeds[count].append(lines)
            costs.append(cost)
    for count in COUNTS:
        ratios = [lines / one for lines, one in zip(speeds[count], speeds[1])]
        found = f"{statistics.median(speeds[count]):,.0f} lines a second"
        print(f"{kind}, {count} workers: {found}, {statistics.median(ratios):.2f} times one")
    found = f"{statistics.median(costs):.1f} microseconds of the front for a line"
    print(f"{kind}: {found}, from {min(costs):.1f} to {max(costs):.1f}")


def measure(program: str) -> None:
    """Measures, and prints what came of it."""
    for kind in ("little", "much"):
        measure_speed(program, kind)
    with TemporaryDirectory() as room:
        recorded = [speed(program, 2, "little", "--record", str(Path(room, str(turn)))) for turn in range(TURNS)]
    print(f"little, with records: {statistics.median(cost for _, cost in recorded):.1f} microseconds")
    back = statistics.median(brought_back(program) for _ in range(TURNS))
    print(f"a group is brought back by {back:,.0f} lines a second")
    for what, microseconds in sending().items():
        print(f"{PIECES} lines to one client, {what}: {microseconds:.2f} microseconds a line")
    found = [waits(program) for _ in range(TURNS)]
    for what in found[0]:
        ratio = statistics.median(it[what] for it in found)
        print(f"a quiet client next to a flood of {what}: {ratio:.1f} times as long as alone")


def main(words: Sequence[str]) -> int:
    faults = (OSError, metad.MetadError)
    if len(words) == 5 and words[0] == "flood":
        return ended("workers.py", lambda: flood(words[1], int(words[2]), words[3], words[4]), faults)
    return measured("workers.py", str(__doc__), words, measure, faults)


if __name__ == "__main__":
    sys.exit(main(sys.argv[1:]))
