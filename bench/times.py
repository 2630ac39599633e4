"""Times and peaks of memory, for people: they change from machine to machine, and nothing is decided by them."""

import shutil
import subprocess
import time
from dataclasses import dataclass
from functools import partial
from pathlib import Path
from typing import Callable, Iterable

import held_inputs as held
import inputs
from counting import Fault
from figures import Figure, Line
from lines import demonstration_classes, usual_classes

RUNS = 5
PATIENCE = 60
MANY_SESSIONS = 100_000
SOME_SESSIONS = 100


@dataclass(frozen=True)
class Held:
    """Things that the program needs memory for; `lines` gives the input with so many, each so often.

    The memory of one is the difference between few and many. Both numbers are powers of two, so that tables which double
    when they are full are full in both.
    """

    lines: Callable[[int], Iterable[Line]]
    few: int = held.MOST // 8
    many: int = held.MOST
    often: int = 1
    classes: Callable[[], str] = usual_classes


def in_sessions(lines, **more):
    """Things that are in some sessions, because those in one would take little memory."""
    return Held(partial(lines, SOME_SESSIONS), often=SOME_SESSIONS, **more)


SESSIONS = {
    "another session, without objects": Held(inputs.idle, 1, MANY_SESSIONS),
    "another session, with a named object": Held(inputs.once_each, 1, MANY_SESSIONS),
    "another Cell": in_sessions(held.many_cells, classes=demonstration_classes),
    "another binding": in_sessions(held.many_bindings, classes=demonstration_classes),
    "another queued event": in_sessions(held.many_events),
    "another join": in_sessions(held.many_joins),
    "another connection": in_sessions(held.many_connections),
    "a call, until its command ends": Held(held.many_calls, held.RELAYS // 8, held.RELAYS, held.MOST),
}


@dataclass(frozen=True)
class Time:
    """How long one of what a figure counts takes, and the most memory that a run had."""

    nanoseconds: float
    peak: int  # in KiB


def seconds_of(program, room):
    """The best of some runs."""
    best = float("inf")
    for _ in range(RUNS):
        begun = time.perf_counter()
        room.run(room.command(program))
        best = min(best, time.perf_counter() - begun)
        room.check()
    return best


def peak_of(program, room):
    """The peak of resident memory of a run, in KiB, read when all output is there and before the input ends."""
    wanted = room.wanted.stat().st_size
    with open(room.given, "rb") as source, open(room.wrote, "wb") as sink:
        process = subprocess.Popen(room.command(program), stdin=subprocess.PIPE, stdout=sink)
        shutil.copyfileobj(source, process.stdin)
        process.stdin.flush()
        ends = time.monotonic() + PATIENCE
        while room.wrote.stat().st_size < wanted and time.monotonic() < ends:
            time.sleep(0.01)
        status = Path(f"/proc/{process.pid}/status").read_text()
        process.stdin.close()
        if process.wait():
            raise Fault(f"{room.name}: the program ends with {process.returncode}")
    return int(next(line.split()[1] for line in status.splitlines() if line.startswith("VmHWM")))


def time_of(program, figure, of_others, room):
    """The time of a figure, where the nanoseconds of others are these."""
    seconds = []
    for times in (1, figure.often):
        room.fill(figure, times)
        seconds.append(seconds_of(program, room))
    more = 1e9 * (seconds[1] - seconds[0])
    return Time(figure.shared_out(more, figure.often - 1, of_others), peak_of(program, room))


def bytes_of_session(program, things, room):
    """How many bytes another one of these things takes, by the peaks of few and of many."""
    figure = Figure("memory", "thing", 1, things.lines, classes=lambda times: things.classes())
    peaks = []
    for count in (things.few, things.many):
        room.fill(figure, count)
        peaks.append(peak_of(program, room))
        room.check()
    return 1_024 * (peaks[1] - peaks[0]) / ((things.many - things.few) * things.often)
