#!/usr/bin/env python3
"""Counts the instructions of the most expensive lines of each command, in sessions at their limits.

Of each run valgrind's callgrind counts the last line alone, or some lines together. The same is counted in an empty session:
the reading and the answer. Beyond that a line may take so much for itself and for each action, call, event, evaluation of a
binding, end of an object and arriving post that it causes, and so much for each row that it must look at. All output is
compared with the expected one. For a few lines the memory that they need is measured too, without valgrind.

Each count has a guard, 1.03 times what was written down, and may have a goal. A count over its guard is a regression, and the
status is 1. Goals, and what a line may take, are shown and decide nothing. With --write each count is written to worst.json with
its guard, and the lines that take at least three times what they may to the table of docs/internals/MEASURES.md: of each state
one for each command. A line that takes too long is not counted.
"""

from __future__ import annotations

import argparse
import json
import os
import signal
import subprocess
import sys
import time
from collections.abc import Callable, Iterable, Iterator
from concurrent.futures import ThreadPoolExecutor
from functools import lru_cache
from pathlib import Path
from tempfile import TemporaryDirectory

import worst_marks
from counting import CALLGRIND, COLLECTED, HOW_TO_COUNT, Fault, has_valgrind
from lines import command
from worst_lines import Line, Sizes, State, Worst, states
from worst_marks import Cost

COLUMNS = ("state", "line", "lines", "rows", "does", "instructions", "alone", "share", "guard", "goal", "KiB")
HEAD = "| " + " | ".join(COLUMNS) + " |\n" + "|---" * len(COLUMNS) + "|\n"
THERE = [command(session, "status") for session in "abc"]  # the sessions are there then
COUNTS_LATER = [*CALLGRIND, "--instr-atstart=no"]
COUNT_NOW = ["callgrind_control", "-i", "on"]
AT_ONCE = 64  # lines that are given before their output is read
ROOM = 1 << 16  # bytes that are read at once
PATIENCE = 600  # seconds in which the output of some lines has to come
MOMENT, IDLE = 0.002, 1_000  # how long a look at it waits, and how often it may wait for a line that it has


class TooLong(Exception):
    """An answer that does not come in time."""


class Run:
    """A run of the program, under callgrind or not, that reads and writes pipes."""

    def __init__(self, program: str, room: Path, turns: int, is_counted: bool = True) -> None:
        self.log = room / "log"
        below = [*COUNTS_LATER, f"--log-file={self.log}"] if is_counted else []
        words = [*below, program, str(room / "classes"), "--turns", str(turns)]
        self.process = subprocess.Popen(words, stdin=subprocess.PIPE, stdout=subprocess.PIPE, bufsize=0)

    def __enter__(self) -> Run:
        return self

    def __exit__(self, *_: object) -> None:
        self.process.kill()
        self.process.wait()
        self.process.stdin.close()
        self.process.stdout.close()

    def do(self, lines: Iterable[Line]) -> None:
        """Gives lines, many at once, and compares their output with the expected one."""
        waiting = list(lines)
        for first in range(0, len(waiting), AT_ONCE):
            self.talk(*map("".join, zip(*waiting[first : first + AT_ONCE])))

    def talk(self, given: str, wanted: str) -> None:
        said = self.answer(given, lambda said: len(said) >= len(wanted))
        if said != wanted.encode():
            raise Fault(f"{given[-200:]!r} is answered {said[-200:]!r}, and not {wanted[-200:]!r}")

    def answer(self, given: str, is_whole: Callable[[bytearray], bool]) -> bytes:
        """Gives lines, and reads their output until it is whole."""
        self.process.stdin.write(given.encode())
        said, until, idle = bytearray(), time.monotonic() + PATIENCE, 0
        os.set_blocking(self.process.stdout.fileno(), False)
        while not is_whole(said):
            part = self.process.stdout.read(ROOM)
            idle = idle + 1 if part is None and self.waits() else 0
            if part == b"" or idle > IDLE:
                raise Fault(f"the program ends, or waits, at {given[-200:]!r}, when it has told {bytes(said[-200:])!r}")
            if time.monotonic() > until:
                raise TooLong
            if part is None:
                time.sleep(MOMENT)
            said += part or b""
        return bytes(said)

    def waits(self) -> bool:
        """Whether it waits for a line."""
        return Path(f"/proc/{self.process.pid}/stat").read_text().rpartition(")")[2].split()[0] == "S"

    def peak(self) -> int:
        """The peak of resident memory so far, in KiB."""
        status = Path(f"/proc/{self.process.pid}/status").read_text()
        return int(next(line.split()[1] for line in status.splitlines() if line.startswith("VmHWM")))

    def count(self) -> None:
        """From here on instructions are counted."""
        told = subprocess.run([*COUNT_NOW, str(self.process.pid)], capture_output=True, text=True)
        if told.returncode:
            raise Fault(f"{' '.join(COUNT_NOW)} ends with {told.returncode}: {told.stderr}")

    def counted(self) -> int:
        """How many instructions were counted; the run ends with that, where it waits for a line."""
        while not self.waits():
            time.sleep(MOMENT)
        self.process.send_signal(signal.SIGTERM)
        self.process.wait()
        found = COLLECTED.search(self.log.read_text(errors="replace"))
        if not found:
            raise Fault("callgrind does not say how many instructions it has collected")
        return int(found[1])


def behind(program: str, room: Path, state: State, line: Worst, turns: int) -> int | None:
    """How many instructions a line takes after a state; None where it takes too long."""
    try:
        with Run(program, room, turns) as run:
            run.do(state.before())
            run.count()
            run.talk(line.line, line.told)
            return run.counted()
    except TooLong:
        return None


def memory(program: str, room: Path, state: State, line: Worst, turns: int) -> int:
    """By how many KiB a line raises the peak of resident memory after a state."""
    with Run(program, room, turns, is_counted=False) as run:
        run.do(state.before())
        before = run.peak()
        run.talk(line.line, line.told)
        return run.peak() - before


@lru_cache(maxsize=None)
def alone(program: str, classes: str, line: str) -> int:
    """How many instructions a line takes, or some, in an empty session, where the classes that they name do not exist."""
    keys = [json.loads(it) for it in line.splitlines()]
    given = "".join(command(**{**it, **({"class": "None"} if "class" in it else {})}) for it in keys)
    with TemporaryDirectory(prefix="metad-worst-") as room:
        Path(room, "classes").write_text(classes)
        with Run(program, Path(room), 1) as run:
            run.answer("".join(THERE), lambda said: said.count(b"\n") == len(THERE))
            run.count()
            run.answer(given, lambda said: said.count(b"\n") >= len(keys) and said.endswith(b"\n"))
            return run.counted()


def cost_of(program: str, turns: int, found: tuple[State, Worst]) -> Cost:
    """What a line takes after a state."""
    state, line = found
    classes = state.classes()
    with TemporaryDirectory(prefix="metad-worst-") as folder:
        room = Path(folder)
        (room / "classes").write_text(classes)
        taken = behind(program, room, state, line, turns)
        kept = memory(program, room, state, line, turns) if line.keeps else None
    return Cost(state.name, line.name, line.rows, line.does, taken, alone(program, classes, line.line), kept)


def counted(given: argparse.Namespace, lines: list[tuple[State, Worst]], turns: int) -> Iterator[Cost]:
    """What each of these lines takes, in their order; each is printed with its mark, and some are counted at once."""
    known = worst_marks.read()
    print(HEAD, end="", flush=True)
    with ThreadPoolExecutor(given.lanes) as pool:
        waiting = [pool.submit(cost_of, given.program, turns, it) for it in lines]
        try:
            for (_, line), found in zip(lines, waiting):
                cost = found.result()
                print(worst_marks.text_of(cost, line.told.count("\n"), known.get(cost.name)), flush=True)
                yield cost
        finally:
            for it in waiting:
                it.cancel()


def options(words: list[str] | None = None) -> argparse.Namespace:
    """The words of the command line."""

    def path(word: str) -> str:
        if not Path(word).is_file():
            raise argparse.ArgumentTypeError(f"there is no file {word}")
        return str(Path(word).resolve())

    def lanes(word: str) -> int:
        if not word.isdecimal() or int(word) == 0:
            raise argparse.ArgumentTypeError(f"{word} is not a number of lines")
        return int(word)

    parser = argparse.ArgumentParser(description=__doc__, formatter_class=argparse.RawDescriptionHelpFormatter)
    parser.add_argument("program", type=path, help="the built program")
    parser.add_argument("--only", action="append", metavar="WORDS", help="counts only states with these words in their names; may be repeated")
    parser.add_argument("--lanes", type=lanes, default=os.cpu_count() or 1, metavar="N", help="how many lines are counted at once (%(default)s)")
    parser.add_argument("--calls", type=int, default=Sizes.calls, help="calls of slots that do much; other counts than the usual one have no guards")
    parser.add_argument("--new", action="store_true", help="counts only lines that have no guard")
    parser.add_argument("--write", action="store_true", help="writes down each count at once, and a guard made from it")
    given = parser.parse_args(words)
    if given.write and given.calls != Sizes.calls:
        parser.error("only counts of the usual sizes are written")
    return given


def is_wanted(given: argparse.Namespace, name: worst_marks.Name, known: dict[worst_marks.Name, Cost]) -> bool:
    """Whether a line is to be counted."""
    is_named = given.only is None or any(words in name[0] for words in given.only)
    return is_named and not (given.new and name in known)


def measure(given: argparse.Namespace) -> list[str]:
    """Prints everything; returns the regressions."""
    sizes, known = Sizes(calls=given.calls), worst_marks.read()
    everything = [(state, line) for state in states(sizes) for line in state.worst]
    names = [(state.name, line.name) for state, line in everything]
    wanted = [found for found, name in zip(everything, names) if is_wanted(given, name, known)]
    costs: list[Cost] = []
    for cost in counted(given, wanted, sizes.turns):
        costs.append(cost)
        if given.write:
            worst_marks.write(worst_marks.merged(costs, known, names))
    print(f"\n{sum(it.share > 1 for it in costs)} of {len(costs)} lines take more than they may")
    goals = worst_marks.reached(costs, known)
    print(f"{sum(goals)} of {len(goals)} goals are reached")
    faults = [f"{it.state}: {it.line}: {said}" for it in costs for said in worst_marks.faults_of(it, known.get(it.name))]
    if given.write:
        print(f"{len(costs)} counts and new guards are written down; with the guards before:")
    print("\n".join(["regressions:", *faults] if faults else ["all guards are kept"]))
    return [] if given.write else faults


def main() -> int:
    given = options()
    if not has_valgrind():
        sys.exit(HOW_TO_COUNT)
    try:
        return 1 if measure(given) else 0
    except Fault as fault:
        sys.exit(str(fault))
    except BrokenPipeError:
        sys.stdout = None  # nothing more can be written
        return 1
    except KeyboardInterrupt:
        return 130


if __name__ == "__main__":
    sys.exit(main())
