#!/usr/bin/env python3
"""Puts a front under hard use, and prints the results; the first fault ends it with status 1.

Usage: hard_use.py [--seed N] [--part OF] PROGRAM TRIAL [TRIAL..]
       hard_use.py [--seed N] [--seconds N] PROGRAM soak

    rubbish   clients write 500,000 random lines and forgeries, cut at any byte; each gets what the program alone writes
    kills     20 workers are killed under load; nothing recorded is lost, and nothing is answered twice
    resume    10 fronts are killed under load, and started again with --resume; each command that was answered is there
    storm     half lines, clients that do not read, floods and storms of connections; memory is bounded, and others are served
    soak      clients come, go and vanish for 20 minutes, or --seconds; memory and files do not grow after the first quarter

--part takes a number of 1 or more, and does the share 1/N of the first four.
"""

from __future__ import annotations

import argparse
import os
import random
import signal
import socket
import sys
import threading
import time
from concurrent.futures import ThreadPoolExecutor
from pathlib import Path
from tempfile import TemporaryDirectory
from typing import Callable, Dict, List, Optional

BENCH = Path(__file__).resolve().parent
sys.path[:0] = [str(BENCH), str(BENCH.parent / "clients" / "python")]

from hard_clients import AHEAD, Failed, Front, Pump, Pumps, ask, connected, group_hello, wait_until  # noqa: E402
from hard_lines import Lines, told_alone  # noqa: E402
from hard_soak import soak  # noqa: E402
from hard_storm import storm  # noqa: E402

WRITERS, LINES = 8, 500_000
SIZES = (1, 7, 100, 5_000)  # of pieces in which lines are written
KILLS, WORKERS, GROUPS, OF_EACH = 20, 4, 10, 4
FRONTS, NAMED = 10, 8
STATUS = '{"do":"status"}'


class Run:
    """The trial that the command line asks for."""

    def __init__(self, given: argparse.Namespace, room: Path) -> None:
        self.program = str(Path(given.program).resolve())
        self.seed: int = given.seed
        self.chance = random.Random(given.seed)
        self.part: int = given.part
        self.seconds: int = given.seconds
        self.room = room

    def share(self, count: int) -> int:
        """This run's share of a count."""
        return max(1, count // self.part)


def write(link: socket.socket, given: bytes, chance: random.Random) -> None:
    """Writes all, in pieces that are cut anywhere, and then no more."""
    at = 0
    while at < len(given):
        size = chance.choice(SIZES)
        link.sendall(given[at : at + size])
        at += size
    link.shutdown(socket.SHUT_WR)


def read(link: socket.socket, told: List[bytes]) -> None:
    """Reads all, up to the end."""
    for piece in iter(lambda: link.recv(1 << 20), b""):
        told.append(piece)


def rubbish(run: Run) -> str:
    """Each client receives what the program alone would send it, however the lines of all of them are mixed."""
    with Front(run.room, [run.program]) as front:
        came = rubbish_at(run, front)
        front.end()
    return came


def rubbish_at(run: Run, front: Front) -> str:
    """Runs the clients of that trial; returns its result."""
    links = [connected(front.path) for _ in range(WRITERS)]
    names = [str(ask(link, STATUS)["session"]) for link in links]
    writers = [Lines(f"{run.seed} {at}") for at in range(WRITERS)]
    for writer in writers:
        writer.others = names
    lines = [[writer.line() for _ in range(run.share(LINES) // WRITERS)] for writer in writers]
    told: List[List[bytes]] = [[] for _ in links]
    threads = [threading.Thread(target=read, args=pair) for pair in zip(links, told)]
    for link, own, writer in zip(links, lines, writers):
        given = b"\n".join(own)  # the last line has no end
        threads.append(threading.Thread(target=write, args=(link, given, writer)))
    for thread in threads:
        thread.start()
    with ThreadPoolExecutor(WRITERS) as pool:
        wanted = list(pool.map(lambda own, name: told_alone(run.program, [STATUS.encode(), *own], name)[1:], lines, names))
    for thread in threads:
        thread.join()
    for link in links:
        link.close()
    for name, pieces, own_wanted in zip(names, told, wanted):
        compare(name, b"".join(pieces).splitlines(keepends=True), own_wanted)
    return f"{sum(map(len, lines)):,} lines of {WRITERS} clients, {sum(map(len, map(b''.join, told))):,} bytes told"


def compare(name: str, told: List[bytes], wanted: List[bytes]) -> None:
    """Compares the lines that a client has received with those that had to come."""
    for at, (one, other) in enumerate(zip(told, wanted)):
        if one != other:
            raise Failed(f"line {at + 1} for {name} is {one[:300]!r}, and has to be {other[:300]!r}")
    if len(told) != len(wanted):
        raise Failed(f"{name} receives {len(told)} lines, and has to receive {len(wanted)}")


def kills(run: Run) -> str:
    """Workers are killed one after another while all clients continue."""
    count = run.share(KILLS)
    with Front(run.room, [run.program], "--workers", str(WORKERS), "--record", str(run.room / "killed")) as front:
        pumps = Pumps([Pump(front.path, group_hello(f"g{at % GROUPS}")) for at in range(GROUPS * OF_EACH)])
        for number in range(1, count + 1):
            pumps.drive(run.chance.uniform(0.05, 0.5))
            os.kill(run.chance.choice(front.servers()), signal.SIGKILL)
            wait_until(lambda: front.said("is where it was") >= number, "a worker is where it was", pumps.drive)
        pumps.drain()
        done = sum(pump.answered for pump in pumps.all)
        pumps.close()
        if front.said("lost") or front.said("cannot be brought back"):
            raise Failed(f"something is lost: {front.log.read_text()[-2_000:]}")
        front.end()
    return f"{count} kills, {done:,} commands of {GROUPS * OF_EACH} clients, each answered once"


def resume(run: Run) -> str:
    """Fronts are killed one after another; what was answered is there afterwards, and sessions continue."""
    options = ("--workers", "2", "--group-from", "name", "--record", str(run.room / "resumed"), "--resume")
    last = [0] * NAMED
    count = run.share(FRONTS)
    for at in range(count):
        with Front(run.room, [run.program], *options) as front:
            found = [Pump(front.path, named=f"g{number}__a", is_begun=at > 0) for number in range(NAMED)]
            for pump, number in zip(found, last):
                if not number <= pump.answered <= number + AHEAD:
                    raise Failed(f"{pump.name} was answered {number} commands, and has {pump.answered} after the start")
            pumps = Pumps(found)
            pumps.drive(run.chance.uniform(0.1, 0.6))
            front.kill()
            pumps.hear_ends()
        last = [pump.answered for pump in found]
    return f"{count} fronts killed, {sum(last):,} commands of {NAMED} sessions, all that were answered are there"


TRIALS: Dict[str, Callable[[Run], str]] = {
    "rubbish": rubbish,
    "kills": kills,
    "resume": resume,
    "storm": lambda run: storm(run.room, run.program, run.share(8), run.part),
    "soak": lambda run: soak(run.room, run.program, run.chance, run.seconds),
}


def words(given: Optional[List[str]] = None) -> argparse.Namespace:
    """The words of the command line."""
    made = argparse.ArgumentParser(prog="hard_use.py", description=__doc__, formatter_class=argparse.RawDescriptionHelpFormatter)
    made.add_argument("--seed", type=int, default=random.randrange(2**32), metavar="N", help="repeats a run")
    made.add_argument("--part", type=int, default=1, metavar="OF", help="does the share 1/OF")
    made.add_argument("--seconds", type=int, default=1_200, metavar="N", help="how long soak takes")
    made.add_argument("program", metavar="PROGRAM")
    made.add_argument("trials", metavar="TRIAL", nargs="+", choices=list(TRIALS))
    found = made.parse_args(given)
    if found.part < 1 or found.seconds < 1:
        made.error("--part and --seconds take numbers of 1 or more")
    return found


def main() -> int:
    given = words()
    print(f"seed {given.seed}", flush=True)
    for name in given.trials:
        with TemporaryDirectory(prefix="metad-hard-") as room:
            begun = time.monotonic()
            try:
                came = TRIALS[name](Run(given, Path(room)))
            except (Failed, OSError) as failed:
                print(f"hard_use.py: {name}: {failed}", file=sys.stderr)
                return 1
            except KeyboardInterrupt:
                return 130
            print(f"{name}: {came}; {time.monotonic() - begun:.0f} s", flush=True)
    return 0


if __name__ == "__main__":
    sys.exit(main())
