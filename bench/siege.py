#!/usr/bin/env python3
"""Runs all attacks on a front with limits at once, next to 40 honest clients, and prints the results; the first fault ends
it with status 1.

Usage: siege.py [--seconds N] PROGRAM

Nothing may be lost: every line of the 40 clients is known before. The memory of the front and of its servers may not grow
after the first quarter. If it is run by root, the attackers are another user, whom quotas of users hold back.
"""

from __future__ import annotations

import argparse
import itertools
import json
import multiprocessing
import os
import sys
import time
from collections import Counter
from hashlib import blake2b
from multiprocessing.queues import Queue
from pathlib import Path
from tempfile import TemporaryDirectory
from typing import Counter as Counts, Dict, List, Optional, Tuple

BENCH = Path(__file__).resolve().parent
sys.path[:0] = [str(BENCH), str(BENCH.parent / "clients" / "python")]

from hard_clients import PATIENCE, Failed, Front, Pump, Pumps, connected, group_hello  # noqa: E402
from siege_attacks import ATTACKS, HEARD  # noqa: E402

HONEST, GROUPS, WORKERS = 40, 10, 3
FULL = "full"  # the group that fills its worker's memory: those that mean well are with other workers
SECONDS = 1_200
NOBODY = 65_534  # the user of the attackers
SERVER_MEMORY, FRONT_MEMORY = 32 << 20, 64 << 20
TURNS = "1000000"
MORE = 8_192, 0.25  # KiB, and the share, by which memory may grow, besides that of the server that is filled
HEALTHY = ("alive", "replaying", "slow")
LIMITS = f"""\
front_memory = {FRONT_MEMORY}
command_seconds = 2

[client]
commands = {{ per_second = 500, burst = 500 }}
input_bytes = {{ per_second = 4000000, burst = 4000000 }}
unread_bytes = 60000
half_line_bytes = 16000
half_line_seconds = 1
idle_seconds = 60
joins = 8

[uid]
connections = 100

[rights]
default = "allow"

[[rights.rule]]
share = false
join = false
"""
FORKS = multiprocessing.get_context("fork")


def worker_of(group: str) -> int:
    """The worker that a group belongs to, as docs/WORKERS.md says it."""

    def point(text: str) -> int:
        return int(blake2b(text.encode(), digest_size=8).hexdigest(), 16)

    points = sorted((point(f"{number}/{at}"), number) for number in range(1, WORKERS + 1) for at in range(128))
    return next((number for it, number in points if it >= point(group)), points[0][1])


def groups() -> List[str]:
    """Groups that are not with the worker whose memory is filled."""
    names = (f"g{at}" for at in itertools.count())
    return list(itertools.islice((it for it in names if worker_of(it) != worker_of(FULL)), GROUPS))


def attack(name: str, room: Path, faults: Queue[str], counts: Queue[Tuple[str, Dict[str, int]]], until: float) -> None:
    """Repeats an attack until the time is over."""
    if os.geteuid() == 0:
        os.setgid(NOBODY)
        os.setuid(NOBODY)
    try:
        while time.monotonic() < until:
            ATTACKS[name](room)
            counts.put((name, dict(HEARD)))
            HEARD.clear()
    except (Failed, OSError, ValueError, KeyError) as fault:
        faults.put(f"{name}: {type(fault).__name__}: {fault}")


def memory_of(front: Front) -> List[int]:
    """KiB of the front, and of all its servers together."""
    servers = 0
    for number in front.servers():
        try:
            status = Path(f"/proc/{number}/status").read_text()
        except OSError:
            continue  # it has just been replaced
        servers += sum(int(line.split()[1]) for line in status.splitlines() if line.startswith("VmRSS:"))
    return [front.figure("VmRSS"), servers]


def check_health(room: Path) -> None:
    """Asks whether the front is well; a check that finds no place is closed."""
    with connected(room / "health") as link, link.makefile("rb") as reader:
        try:
            link.sendall(b"GET / HTTP/1.0\r\n\r\n")
            answer = reader.read().decode()
        except ConnectionError:
            return
    if answer and answer.partition("\r\n\r\n")[2].strip() not in HEALTHY:
        raise Failed(f"its health is {answer!r}")


class Siege:
    """A front, the clients that mean well, and the attackers' processes."""

    def __init__(self, room: Path, program: str, seconds: int) -> None:
        self.room, self.seconds = room, seconds
        limits = room / "limits.toml"
        limits.write_text(LIMITS)
        room.chmod(0o755)
        options = ("--limits", str(limits), "--server-memory", str(SERVER_MEMORY), "--workers", str(WORKERS), "--record", str(room / "records"))
        more = ("--share", "team", "--mode", "666", "--health", str(room / "health"))
        self.front = Front(room, [program, "--turns", TURNS], *options, *more)
        self.faults: Queue[str] = FORKS.Queue()
        self.counts: Queue[Tuple[str, Dict[str, int]]] = FORKS.Queue()
        self.attacks: Dict[str, Counts[str]] = {}  # how often each was made, and what it was answered
        self.peaks = [[0, 0], [0, 0]]  # in the first quarter, and later

    def run(self) -> str:
        """Runs all; returns what came of it."""
        with self.front:
            names = groups()
            pumps = Pumps([Pump(self.front.path, group_hello(names[at % GROUPS]), ahead=2) for at in range(HONEST)])
            begun = time.monotonic()
            until = begun + self.seconds
            given = (self.room, self.faults, self.counts, until)
            attackers = [FORKS.Process(target=attack, args=(name, *given), daemon=True) for name in ATTACKS]
            for process in attackers:
                process.start()
            try:
                self.hold(pumps, begun, until)
                pumps.drain()
            finally:
                for process in attackers:
                    process.terminate()
            self.count()
            done = sum(pump.answered for pump in pumps.all)
            waits = min(pump.answered for pump in pumps.all)
            pumps.close()
            self.check(waits)
            self.front.end()
        return f"{done:,} commands of {HONEST} clients, each answered once; attacks: {json.dumps(self.attacks, sort_keys=True)}; memory: {self.memory()}"

    def hold(self, pumps: Pumps, begun: float, until: float) -> None:
        """Drives the clients, looks at the front's health and memory, and fails at the first fault. On a slow machine it waits
        until each attack was made once."""
        while time.monotonic() < until or (self.attacks.keys() != ATTACKS.keys() and time.monotonic() < until + PATIENCE):
            pumps.drive(0.5)
            check_health(self.room)
            is_late = time.monotonic() > begun + self.seconds / 4
            peaks = self.peaks[is_late]
            peaks[:] = map(max, peaks, memory_of(self.front))
            self.count()
            if not self.faults.empty():
                raise Failed(self.faults.get())

    def count(self) -> None:
        """Counts attacks, and their answers."""
        while not self.counts.empty():
            name, answers = self.counts.get()
            self.attacks.setdefault(name, Counter()).update({"attacks": 1, **answers})

    def memory(self) -> str:
        (front, servers), (later, servers_later) = self.peaks
        return f"front {front:,} and then {later:,} KiB, servers {servers:,} and then {servers_later:,} KiB"

    def check(self, least: int) -> None:
        """Checks that memory has not grown, and that every client was served."""
        if least < 1:
            raise Failed("a client was not served at all")
        for before, after, filled in zip(*self.peaks, (0, SERVER_MEMORY >> 10)):
            if after > before + max(MORE[0], before * MORE[1]) + filled:
                raise Failed(f"memory grows: {self.memory()}")


def words(given: Optional[List[str]] = None) -> argparse.Namespace:
    """The words of the command line."""
    made = argparse.ArgumentParser(prog="siege.py", description=__doc__, formatter_class=argparse.RawDescriptionHelpFormatter)
    made.add_argument("--seconds", type=int, default=SECONDS, metavar="N", help="how long it takes")
    made.add_argument("program", metavar="PROGRAM")
    found = made.parse_args(given)
    if found.seconds < 4:
        made.error("--seconds takes numbers of 4 or more")
    return found


def main() -> int:
    given = words()
    with TemporaryDirectory(prefix="metad-siege-") as room:
        try:
            came = Siege(Path(room), str(Path(given.program).resolve()), given.seconds).run()
        except (Failed, OSError) as failed:
            print(f"siege.py: {failed}", file=sys.stderr)
            return 1
        except KeyboardInterrupt:
            return 130
    print(f"siege: {came}")
    return 0


if __name__ == "__main__":
    sys.exit(main())
