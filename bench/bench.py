#!/usr/bin/env python3
"""Counts the instructions of the built program on generated inputs, and compares the counts with their marks.

Each figure is the cost of one more line, call or event: the difference of a run on an input and on one of half the length,
divided, so that the start cancels out. Some figures are ratios of two others. valgrind's callgrind counts instructions, and
COUNTER, a preloaded library, requests for memory. FIXED, another one, gives the program the same random bytes in each run,
so that counts repeat. All replies are compared with the expected ones.

Each count has a guard and may have a goal. A count over its guard is a regression, and the status is 1. Goals are shown and
decide nothing. With --last, a count over 1.03 times that of an earlier program is a regression too. With --write, counts and
guards of this run are written to marks.json and docs/internals/MEASURES.md; goals stay. Times and peaks of memory are
printed last and decide nothing. Without valgrind only these are printed.
"""

from __future__ import annotations

import argparse
import sys
import tempfile
from pathlib import Path

import marks
import times
from counting import HOW_TO_COUNT, Fault, Room, counted, has_valgrind
from figures import FIGURES, Figure, Ratio

NAMES = max(len(it.name) for it in FIGURES)


def value_of(program, figure, values, room, libraries):
    """What a figure is, where those before it are these."""
    if isinstance(figure, Ratio):
        return values[figure.large.name] / values[figure.small.name]
    return counted(program, figure, values, room, libraries)


def show_counts(programs, room, libraries):
    """Prints each figure of a program, and of the last one where there is one; answers those of the first, and the faults."""
    known, faults, reached = marks.read(), [], []
    values = {program: {} for program in programs}
    print(f"{'figure':{NAMES}} {'count':>9} {'guard':>9} {'goal':>9}" + f" {'last':>9}" * (len(programs) - 1))
    for it in FIGURES:
        for program in programs:
            values[program][it.name] = value_of(program, it, values[program], room, libraries)
        now, *last = (marks.rounded(values[program][it.name]) for program in programs)
        mark = known.get(it.name)
        said = " and ".join(marks.faults_of(it, now, mark, *(last or [None])))
        faults += [f"{it.name}: {said}"] if said else []
        guard, goal = (mark.guard, mark.goal) if mark else (None, None)
        reached += [marks.is_reached(now, goal)] if goal is not None else []
        columns = " ".join(f"{marks.shown(value):>9}" for value in (now, guard, goal, *last))
        print(f"{it.name:{NAMES}} {columns}  {verdict(said, now, goal)} ({it.counts})", flush=True)
    faults += [f"{name}: a mark of no figure" for name in known.keys() - {it.name for it in FIGURES}]
    print(f"\n{reached.count('yes')} of {len(reached)} goals are reached")
    return values[programs[0]], faults


def verdict(said, count, goal):
    """The words printed after a figure: whether it is a regression, and whether it has reached its goal."""
    reached = {"yes": ", goal reached", "no": ", goal not reached", "-": ""}[marks.is_reached(count, goal)]
    return f"{'REGRESSION' if said else 'kept'}{reached}"


def show_times(program, room):
    """Prints the times of what the figures count, and the memory; returns the bytes of sessions and of what they hold."""
    nanoseconds = {}
    print(f"\n{'times, which decide nothing':{NAMES}} {'ns':>9} {'KiB':>9}")
    for it in (it for it in FIGURES if isinstance(it, Figure) and it.counts_instructions):
        time = times.time_of(program, it, nanoseconds, room)
        nanoseconds[it.name] = time.nanoseconds
        print(f"{it.name:{NAMES}} {time.nanoseconds:>9,.1f} {time.peak:>9,}  per {it.unit}, and at the peak", flush=True)
    sessions = {name: times.bytes_of_session(program, lines, room) for name, lines in times.SESSIONS.items()}
    for name, count in sessions.items():
        print(f"{name:{NAMES}} {'':>9} {count:>9,.0f}  bytes")
    return sessions


def options():
    """The words of the command line."""

    def path(word):
        if not Path(word).is_file():
            raise argparse.ArgumentTypeError(f"there is no file {word}")
        return str(Path(word).resolve())

    parser = argparse.ArgumentParser(description=__doc__, formatter_class=argparse.RawDescriptionHelpFormatter)
    parser.add_argument("program", type=path, help="the built program")
    parser.add_argument("counter", type=path, help="the library that counts requests for memory")
    parser.add_argument("fixed", type=path, help="the library that gives fixed random bytes")
    parser.add_argument("--last", type=path, metavar="PROGRAM", help="an earlier program, which is counted too")
    parser.add_argument("--write", action="store_true", help="writes down the counts of this run and guards made from them")
    return parser.parse_args()


def measure(given, room):
    """Prints everything; answers the faults."""
    if not has_valgrind():
        print(HOW_TO_COUNT)
        show_times(given.program, room)
        print("\nno count was compared with its guard")
        return []
    programs = [given.program, *([given.last] if given.last else [])]
    values, faults = show_counts(programs, room, (given.counter, given.fixed))
    sessions = show_times(given.program, room)
    if given.write:
        marks.write(marks.of_run(FIGURES, values, marks.read()), sessions)
        print("\n" + "\n".join([f"{len(values)} counts and new guards are written down; with the guards before:", *(faults or ["all kept"])]))
        return []
    print("\n" + ("\n".join(["regressions:", *faults]) if faults else "all guards are kept"))
    return faults


def main():
    given = options()
    with tempfile.TemporaryDirectory(prefix="metad-bench-") as folder:
        try:
            return 1 if measure(given, Room(folder)) else 0
        except Fault as fault:
            sys.exit(str(fault))
        except KeyboardInterrupt:
            return 130


if __name__ == "__main__":
    sys.exit(main())
