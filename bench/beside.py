#!/usr/bin/env python3
"""Compares metad with other ways to give each client objects of its own: memory per client, and round trips.

Usage: beside.py PROGRAM. Round trips are shares of those of a bare loop in Python that writes a line to PROGRAM and reads
one, measured by turns in one run; each share is the median of several turns. Memory is the private memory of a process, and
its growth per client. A D-Bus daemon, and a C++ compiler with Qt 6, are measured if they are on the path. Other load on the
machine affects the figures: they are for people, and decide nothing.
"""

from __future__ import annotations

import os
import re
import resource
import shutil
import socket
import statistics
import struct
import subprocess
import sys
import time
from contextlib import ExitStack, contextmanager
from functools import partial
from pathlib import Path
from tempfile import TemporaryDirectory
from typing import Callable, Dict, Iterator, List, Optional, Tuple

from ending import measured

sys.path.append(str(Path(__file__).resolve().parent.parent / "clients" / "python"))

import metad  # noqa: E402
from metad.fronts import front_words  # noqa: E402

TURNS, TRIPS = 9, 500  # in each turn so many round trips of each kind
STARTS = 5  # in each turn so many where each starts a program
CLIENTS, PROCESSES = 200, 10  # a D-Bus daemon takes no more clients of one user
OF_FRONT = 5_000  # clients of a front: with few it depends on chance how much memory Python has in reserve
SPARE = 200  # files that are for other things
GET = b'{"do":"get","object":1,"property":"objectName","session":"a"}\n'
MAKE = [b'{"class":"QObject","do":"new","session":"a"}\n']
MAKE += [b'{"do":"set","object":1,"property":"objectName","session":"a","value":"lamp"}\n']
PIPE = subprocess.PIPE
BUS = "org.freedesktop.DBus"
QT = """
#include <QCoreApplication>
#include <QObject>
#include <cstdio>
int main(int count, char **words) {
    QCoreApplication application(count, words);
    QObject lamp;
    lamp.setObjectName(QStringLiteral("lamp"));
    puts("ready");
    fflush(stdout);
    return application.exec();
}
"""


def private_bytes(*processes: int) -> int:
    """The bytes of memory that belong to these processes alone."""
    texts = (Path(f"/proc/{it}/smaps_rollup").read_text() for it in processes)
    return 1_024 * sum(int(it) for text in texts for it in re.findall(r"^Private_\w+:\s+(\d+)", text, re.MULTILINE))


class Bus:
    """A client of a D-Bus daemon, which asks the daemon itself."""

    def __init__(self, path: str) -> None:
        self.link = socket.socket(socket.AF_UNIX)
        self.link.connect(path)
        self.serial = 0
        self.link.sendall(b"\0AUTH EXTERNAL " + str(os.getuid()).encode().hex().encode() + b"\r\n")
        self.link.recv(4_096)
        self.link.sendall(b"BEGIN\r\n")
        self.call("Hello")

    def call(self, member: str) -> None:
        """Calls a method of the daemon, and waits for its answer."""
        self.serial += 1
        fields = b"".join(map(field, (1, 2, 3, 6), ("/org/freedesktop/DBus", BUS, member, BUS)))
        head = struct.pack("<BBBBIII", ord("l"), 1, 0, 1, 0, self.serial, len(fields.rstrip(b"\0") + b"\0"))
        self.link.sendall(head + fields)
        while self.answers() != self.serial:
            pass

    def answers(self) -> int:
        """Reads a message; the serial number of the call that it answers, 0 for none."""
        head = self.link.recv(16, socket.MSG_WAITALL)
        body, length = struct.unpack("<I", head[4:8])[0], struct.unpack("<I", head[12:16])[0]
        rest = self.link.recv(-(-length // 8) * 8 + body, socket.MSG_WAITALL)
        found = re.search(rb"\x05\x01u\0(....)", rest, re.DOTALL)
        return int.from_bytes(found[1], "little") if found else 0


def field(number: int, text: str) -> bytes:
    """A field of a message's head."""
    kind = b"o" if number == 1 else b"s"
    whole = bytes([number, 1]) + kind + b"\0" + struct.pack("<I", len(text)) + text.encode() + b"\0"
    return whole + b"\0" * (-len(whole) % 8)


@contextmanager
def bus() -> Iterator[Optional[subprocess.Popen[str]]]:
    """A D-Bus daemon, which says first where it listens; None where none is on the path."""
    program = shutil.which("dbus-daemon")
    if program is None:
        yield None
        return
    words = [program, "--session", "--nofork", "--nopidfile", "--print-address"]
    with subprocess.Popen(words, stdout=PIPE, stderr=subprocess.DEVNULL, text=True) as process:
        try:
            yield process
        finally:
            process.terminate()


def path_of(process: subprocess.Popen[str]) -> str:
    """Where a D-Bus daemon listens."""
    assert process.stdout
    found = re.match(r"unix:path=([^,\n]+)", process.stdout.readline())
    assert found
    return found[1]


def asking(process: subprocess.Popen[bytes]) -> Callable[[], object]:
    """One round trip with a program, by its pipes."""
    assert process.stdin and process.stdout
    stdin, stdout = process.stdin, process.stdout

    def ask() -> None:
        stdin.write(GET)
        stdin.flush()
        stdout.readline()

    for line in MAKE:
        stdin.write(line)
    stdin.flush()
    for _ in MAKE:
        stdout.readline()
    return ask


@contextmanager
def fronted(program: str) -> Iterator[Tuple[str, subprocess.Popen[bytes]]]:
    """A front with its server: where it listens, and its process."""
    with TemporaryDirectory(prefix="metad-compared-") as room:
        path = str(Path(room, "socket"))
        words = [*front_words(), "--quiet", path, program]
        with subprocess.Popen(words, stderr=PIPE, start_new_session=True) as process:
            assert process.stderr
            process.stderr.readline()  # says that clients can connect
            try:
                yield path, process
            finally:
                process.terminate()


def asking_front(path: str) -> Callable[[], object]:
    """One round trip through a front, by its socket."""
    link = socket.socket(socket.AF_UNIX)
    link.connect(path)
    reader = link.makefile("rb")

    def ask(line: bytes = GET) -> None:
        link.sendall(line)
        reader.readline()

    for line in MAKE:
        ask(line)
    return ask


def loops_of(program: str, stack: ExitStack) -> Dict[str, Callable[[], object]]:
    """One round trip of each kind by its name, the bare one first."""
    bare = stack.enter_context(subprocess.Popen([program], stdin=PIPE, stdout=PIPE))
    stack.callback(bare.terminate)
    session = stack.enter_context(metad.start(program)).session("a")
    lamp = session.new("QObject")
    path, _ = stack.enter_context(fronted(program))
    loops = {"bare": asking(bare), "client": lambda: session.get(lamp, "objectName"), "front": asking_front(path)}
    daemon = stack.enter_context(bus())
    if daemon:
        path = path_of(daemon)
        asker = Bus(path)
        loops["D-Bus daemon"] = lambda: asker.call("GetId")
        loops.update(started_loops(path))
    return loops


def started_loops(path: str) -> Dict[str, Callable[[], object]]:
    """One round trip with a D-Bus daemon of each program that is started for it and is on the path."""
    whole, place = f"{BUS}.GetId", "/org/freedesktop/DBus"
    calls = {
        "gdbus": ["call", "--address", f"unix:path={path}", "--dest", BUS, "--object-path", place, "--method", whole],
        "busctl": [f"--address=unix:path={path}", "call", BUS, place, BUS, "GetId"],
    }
    found = {name: [name, *words] for name, words in calls.items() if shutil.which(name)}
    return {name: partial(subprocess.run, words, check=True, stdout=subprocess.DEVNULL) for name, words in found.items()}


def rate(ask: Callable[[], object]) -> float:
    """Round trips a second, in one turn."""
    trips, begun = STARTS if isinstance(ask, partial) else TRIPS, time.perf_counter()
    for _ in range(trips):
        ask()
    return trips / (time.perf_counter() - begun)


def ahead_rate(session: metad.Session, lamp: int) -> float:
    """Commands a second that are sent ahead, in one turn."""
    begun = time.perf_counter()
    sent = [session.send("get", object=lamp, property="objectName") for _ in range(10 * TRIPS)]
    for it in sent:
        it.result()
    return 10 * TRIPS / (time.perf_counter() - begun)


def batch_rate(session: metad.Session, lamp: int) -> float:
    """Commands a second of a batch, in one turn."""
    begun = time.perf_counter()
    with session.batch() as batch:
        for _ in range(10 * TRIPS):
            batch.get(lamp, "objectName")
    for it in batch:
        it.result()
    return 10 * TRIPS / (time.perf_counter() - begun)


def shares_of_trips(program: str) -> Tuple[float, Dict[str, float]]:
    """The round trips a second of the bare loop, and those of each kind commands sent ahead and a batch as shares of them."""
    shares: Dict[str, List[float]] = {}
    bare: List[float] = []
    with ExitStack() as stack:
        loops = loops_of(program, stack)
        session = stack.enter_context(metad.start(program)).session("a")
        lamp = session.new("QObject")
        for _ in range(TURNS):
            rates = {name: rate(ask) for name, ask in loops.items()}
            rates["client, sent ahead"] = ahead_rate(session, lamp)
            rates["client, batch"] = batch_rate(session, lamp)
            bare.append(rates.pop("bare"))
            for name, it in rates.items():
                shares.setdefault(name, []).append(it / bare[-1])
    return statistics.median(bare), {name: statistics.median(found) for name, found in shares.items()}


def bytes_behind_front(program: str) -> float:
    """The memory per client of a front and its server together, each client with a named object."""
    with fronted(program) as (path, process):
        kept = [asking_front(path)]
        server = int(Path(f"/proc/{process.pid}/task/{process.pid}/children").read_text())
        before = private_bytes(process.pid, server)
        count = min(OF_FRONT, resource.getrlimit(resource.RLIMIT_NOFILE)[0] - SPARE)
        kept += [asking_front(path) for _ in range(count)]
        return (private_bytes(process.pid, server) - before) / count


def bytes_on_bus() -> Optional[float]:
    """The memory per client of a D-Bus daemon, without an object; None where there is no daemon."""
    with bus() as process:
        if process is None:
            return None
        path = path_of(process)
        kept = [Bus(path)]
        before = private_bytes(process.pid)
        kept += [Bus(path) for _ in range(CLIENTS)]
        return (private_bytes(process.pid) - before) / CLIENTS


def bytes_of_processes(words: List[str], given: bytes) -> float:
    """The memory of one of several processes that each have a named object. It writes a line when it is ready."""
    processes: List[subprocess.Popen[bytes]] = []
    try:
        for _ in range(PROCESSES):
            process = subprocess.Popen(words, stdin=PIPE, stdout=PIPE)
            processes.append(process)
            assert process.stdin and process.stdout
            process.stdin.write(given)
            process.stdin.flush()
            process.stdout.readline()
        return private_bytes(*(it.pid for it in processes)) / PROCESSES
    finally:
        for process in processes:
            process.kill()
            process.communicate()


def bytes_of_qt() -> Optional[float]:
    """What a process of Qt takes that has a named object; None where it cannot be compiled."""
    found = subprocess.run(["pkg-config", "--cflags", "--libs", "Qt6Core"], capture_output=True, text=True)
    if found.returncode:
        return None
    with TemporaryDirectory(prefix="metad-compared-") as room:
        source, program = Path(room, "lamp.cpp"), str(Path(room, "lamp"))
        source.write_text(QT)
        subprocess.run(["c++", "-O2", "-fPIC", source, "-o", program, *found.stdout.split()], check=True)
        return bytes_of_processes([program], b"")


def measure(program: str) -> None:
    """Measures, and prints what came of it."""
    bare, shares = shares_of_trips(program)
    print(f"bare loop: {bare:,.0f} round trips a second")
    for name, share in shares.items():
        print(f"{name}: {share:.4f} of them")
    taken = {"a client of the front": bytes_behind_front(program), "a client of the D-Bus daemon": bytes_on_bus()}
    taken["a metad of its own"] = bytes_of_processes([program], b"".join(MAKE))
    taken["a process of Qt 6"] = bytes_of_qt()
    for name, it in taken.items():
        print(f"{name}: {'is not here' if it is None else f'{it:,.0f} bytes'}")


def main() -> int:
    return measured("beside.py", str(__doc__), sys.argv[1:], measure, (OSError, subprocess.CalledProcessError, metad.MetadError))


if __name__ == "__main__":
    sys.exit(main())
