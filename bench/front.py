#!/usr/bin/env python3
"""Measures the front by ratios, each within one run: to a loop over a pipe to the program, to the program's own time,
and to a server that only sends back what it is sent.

Usage: front.py PROGRAM. The load comes from `metad-load`, which is built from front/ for this. Other load on the machine
affects the figures: they are for people, and decide nothing.
"""

from __future__ import annotations

import os
import re
import signal
import socket
import statistics
import subprocess
import sys
import time
from contextlib import contextmanager
from pathlib import Path
from tempfile import TemporaryDirectory
from typing import Callable, Dict, Iterator, List, Tuple

from ending import measured

ROOT = Path(__file__).resolve().parent.parent
FRONT, LOAD = ROOT / "bin" / "metad-front", ROOT / "bin" / "metad-load"
TURNS, SECONDS = 5, 1.5
BUSY, MANY, AHEAD = 50, 500, 8
LIVE, IDLE_SECONDS, NOTIFIED = 100, 5.0, 200
RECORDED = 100_000
HELD = 500  # clients whose memory is measured
CELL = b'{"class":"Cell","do":"new"}\n'
PUBLISH = b'{"do":"publish","name":"level","object":1,"signal":"xChanged(int)"}\n'
JOIN = b'{"do":"join","from":"c1","method":"seen(int)","name":"level","object":1,"types":["int"]}\n'
TICK = os.sysconf("SC_CLK_TCK")


def load(*words: object) -> List[float]:
    """The numbers that the loading program prints."""
    ran = subprocess.run([LOAD, *map(str, words)], capture_output=True, text=True, check=True)
    return [float(it) for it in ran.stdout.split()]


def seconds_of(number: int) -> float:
    """The processor time that a process has used."""
    fields = Path(f"/proc/{number}/stat").read_text().rsplit(")", 1)[1].split()
    return (int(fields[11]) + int(fields[12])) / TICK


def memory_of(number: int) -> int:
    """The bytes of memory that a process has for itself."""
    lines = Path(f"/proc/{number}/smaps_rollup").read_text().splitlines()
    return 1024 * sum(int(it.split()[1]) for it in lines if it.startswith(("Private_Clean:", "Private_Dirty:")))


def server_of(front: subprocess.Popen[bytes]) -> int:
    return int(Path(f"/proc/{front.pid}/task/{front.pid}/children").read_text().split()[0])


@contextmanager
def front_at(path: Path, program: str, *options: object) -> Iterator[subprocess.Popen[bytes]]:
    """A front that listens."""
    words = [str(it) for it in (FRONT, "--quiet", *options, path, program)]
    with subprocess.Popen(words, stderr=subprocess.DEVNULL) as process:
        try:
            while True:
                with socket.socket(socket.AF_UNIX) as link:
                    if link.connect_ex(str(path)) == 0:
                        break
                time.sleep(0.01)
            yield process
        finally:
            process.terminate()


@contextmanager
def echo_at(path: Path) -> Iterator[None]:
    with subprocess.Popen([LOAD, "echo", str(path)], stdin=subprocess.PIPE) as process:
        while not path.exists():
            time.sleep(0.01)
        yield
        assert process.stdin
        process.stdin.close()


def round_trips(room: Path, program: str) -> float:
    """Round trips of one client, as a share of those of a loop over a pipe."""
    shares = []
    with front_at(room / "trips", program):
        for _ in range(TURNS):
            (alone,), (behind,) = load("pipe", SECONDS, program), load("roundtrips", room / "trips", SECONDS)
            shares.append(behind / alone)
    return statistics.median(shares)


@contextmanager
def bus_at(path: Path) -> Iterator[None]:
    """A D-Bus daemon of its own."""
    words = ["dbus-daemon", "--session", f"--address=unix:path={path}", "--nofork", "--nopidfile"]
    with subprocess.Popen(words, stdout=subprocess.DEVNULL, stderr=subprocess.DEVNULL) as process:
        try:
            while not path.exists():
                if process.poll() is not None:
                    raise OSError("dbus-daemon has ended")
                time.sleep(0.01)
            yield
        finally:
            process.terminate()


def beside_bus(room: Path, program: str) -> float:
    """Round trips of one client, as a multiple of those over a D-Bus daemon to a service that answers."""
    shares = []
    with front_at(room / "trips", program), bus_at(room / "bus"):
        for _ in range(TURNS):
            (by_bus,), (behind,) = load("bus", room / "bus", SECONDS), load("roundtrips", room / "trips", SECONDS)
            shares.append(behind / by_bus)
    return statistics.median(shares)


def times(room: Path, program: str) -> float:
    """The front's processor time for a line, as a multiple of the server's."""
    shares = []
    with front_at(room / "times", program) as front:
        server = server_of(front)
        for _ in range(TURNS):
            before = seconds_of(front.pid), seconds_of(server)
            load("flood", room / "times", BUSY, AHEAD, SECONDS)
            shares.append((seconds_of(front.pid) - before[0]) / max(seconds_of(server) - before[1], 1 / TICK))
    return statistics.median(shares)


def throughput(room: Path, program: str) -> float:
    """Lines a second of many clients, as a share of those of a server that sends back all that it receives."""
    shares = []
    with front_at(room / "many", program), echo_at(room / "echo"):
        for _ in range(TURNS):
            echoed, told = (load("flood", room / name, MANY, AHEAD, SECONDS)[0] for name in ("echo", "many"))
            shares.append(told / echoed)
    return statistics.median(shares)


def rounds(room: Path, program: str) -> Tuple[float, float]:
    """The most commands that the server is given, in 99 of 100 cases, between one command of a client and its next one, in
    rounds of all clients: with one and with several commands under way of each. It is read from the record, so the speed
    of the machine has no part in it."""
    found = []
    for ahead in (1, AHEAD):
        record = room / f"record of {ahead}"
        with front_at(room / f"equal {ahead}", program, "--record", record):
            load("flood", room / f"equal {ahead}", MANY, ahead, SECONDS)
        last: Dict[bytes, int] = {}
        gaps = []
        for at, name in enumerate(re.findall(rb'"session":"(c[0-9]+)"}\n', record.read_bytes())):
            if name in last:
                gaps.append(at - last[name])
            last[name] = at
        found.append(sorted(gaps)[len(gaps) * 99 // 100] / MANY)
    return found[0], found[1]


def quiet(room: Path, program: str) -> float:
    """The time of 99 of 100 commands of a quiet client next to busy ones, as a multiple of its time alone."""
    shares = []
    with front_at(room / "quiet", program):
        for _ in range(TURNS):
            alone = load("quiet", room / "quiet", 300)[1]
            words = [str(it) for it in (LOAD, "flood", room / "quiet", BUSY, 1, 4)]
            with subprocess.Popen(words, stdout=subprocess.DEVNULL) as busy:
                time.sleep(0.3)
                shares.append(load("quiet", room / "quiet", 300)[1] / alone)
                busy.kill()
    return statistics.median(shares)


def clients_at(path: Path, count: int, *lines: bytes) -> List[socket.socket]:
    """Clients that have sent these lines and received the answers."""
    made = []
    for _ in range(count):
        link = socket.socket(socket.AF_UNIX)
        link.connect(str(path))
        for line in lines:
            link.sendall(line)
            link.recv(4_096)
        made.append(link)
    return made


def live(room: Path, program: str) -> Tuple[float, float]:
    """The share of a processor that front and server use for idle subscribers, and the milliseconds until one of them
    is notified."""
    with front_at(room / "live", program) as front:
        server = server_of(front)
        (host,) = clients_at(room / "live", 1, CELL, PUBLISH)
        name = b"c2"  # of the first subscriber; c1 looked whether the front listens
        guests = clients_at(room / "live", LIVE, b'{"front":"hello","live":true}\n', CELL, JOIN.replace(b"c1", name))
        before = seconds_of(front.pid) + seconds_of(server)
        time.sleep(IDLE_SECONDS)
        idle = (seconds_of(front.pid) + seconds_of(server) - before) / IDLE_SECONDS
        waits = []
        for value in range(1, NOTIFIED):
            begun = time.perf_counter()
            host.sendall(b'{"do":"set","object":1,"property":"x","value":%d}\n' % value)
            for guest in guests[:1]:
                guest.recv(4_096)
            waits.append(time.perf_counter() - begun)
            host.recv(4_096)
            time.sleep(0.002)
        for link in (host, *guests):
            link.close()
    return idle, 1e3 * statistics.median(waits)


def recovery(room: Path, program: str) -> float:
    """The time until a worker is where it was, as a multiple of the time that the program alone needs for the lines."""
    record, log = room / "records", room / "log"
    words = [FRONT, "--workers", "1", "--record", record, room / "recovered", program]
    with log.open("wb") as said, subprocess.Popen([str(it) for it in words], stderr=said) as front:
        while b"listening" not in log.read_bytes():
            time.sleep(0.01)
        (client,) = clients_at(room / "recovered", 1)
        reader = client.makefile("rb")
        for _ in range(RECORDED // 100):
            client.sendall(100 * b'{"do":"status"}\n')
            for _ in range(100):
                reader.readline()
        (file,) = record.iterdir()
        given = b"".join(line[2:] for line in file.read_bytes().splitlines(keepends=True) if line.startswith(b"> "))
        begun = time.perf_counter()
        subprocess.run([program], input=given, stdout=subprocess.DEVNULL, check=True)
        alone = time.perf_counter() - begun
        os.kill(server_of(front), signal.SIGKILL)
        begun = time.perf_counter()
        client.sendall(b'{"do":"status"}\n')
        reader.readline()
        taken = time.perf_counter() - begun
        front.terminate()
    return taken / alone


def memory(room: Path, program: str) -> float:
    """The bytes of the front's memory for each client."""
    with front_at(room / "memory", program) as front:
        clients = clients_at(room / "memory", 10, CELL)
        before = memory_of(front.pid)
        clients += clients_at(room / "memory", HELD, CELL)
        return (memory_of(front.pid) - before) / HELD


ROWS: Dict[str, Tuple[Callable[[Path, str], object], str]] = {
    "round trips of one client / a loop over a pipe": (round_trips, "0.5 or more"),
    "the same / over a D-Bus daemon to a service": (beside_bus, "2 or more"),
    f"front / server, time of a line, {BUSY} clients": (times, "3 or less"),
    f"lines a second of {MANY} clients, {AHEAD} under way / an echo server": (throughput, "0.4 or more"),
    f"rounds of {MANY} equal clients between two commands of one, with 1 and {AHEAD} under way": (rounds, "2.5 or less"),
    f"99 of 100 waits of a quiet client next to {BUSY} busy ones / alone": (quiet, "1.5 or less"),
    f"{LIVE} idle live clients, share of a processor; milliseconds until one is notified": (live, "0; 1 or less"),
    f"bringing back {RECORDED:,} commands / the program alone": (recovery, "1.5 or less"),
    "bytes of the front for a client": (memory, "2,048 or less"),
}


def build() -> None:
    """Builds the program that loads the front."""
    subprocess.run([sys.executable, str(ROOT / "tools" / "front.py"), "load"], check=True)


def measure_all(program: str) -> None:
    """Builds the front, and measures each row."""
    build()
    print("| what | measured | goal |\n|---|---|---|")
    for what, (measure, goal) in ROWS.items():
        with TemporaryDirectory(prefix="metad-bench-") as room:
            found = measure(Path(room), program)
        shown = "; ".join(f"{it:.2f}" for it in (found if isinstance(found, tuple) else (found,)))
        print(f"| {what} | {shown} | {goal} |", flush=True)


def main() -> int:
    return measured("front.py", str(__doc__), sys.argv[1:], measure_all, (OSError, subprocess.CalledProcessError))


if __name__ == "__main__":
    sys.exit(main())
