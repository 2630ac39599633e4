"""Runs the program on an input, and counts its instructions and its requests for memory.

The preloaded library `fixed` gives it the same random bytes in each run. Otherwise the random keys by which it hashes names
would change which names collide, and the counts by up to 2 %.
"""

import os
import re
import subprocess
from contextlib import ExitStack
from filecmp import cmp
from itertools import zip_longest
from pathlib import Path
from shutil import which

CALLGRIND = ["valgrind", "--tool=callgrind", "--callgrind-out-file=/dev/null"]
COLLECTED = re.compile(r"Collected : (\d+)")
HOW_TO_COUNT = "valgrind counts the instructions: apt-get install valgrind (Debian)"
TURNS = "100000"  # enough for all connections of a session


class Fault(Exception):
    """The program did not do what it has to, so that nothing can be said of it."""


def has_valgrind():
    return which(CALLGRIND[0]) is not None


class Room:
    """A folder with an input, its classes, the expected output and what a program writes."""

    def __init__(self, folder):
        folder = Path(folder)
        self.name, self.times = "", 0
        self.given, self.classes, self.wanted, self.wrote, self.log = (folder / it for it in ("given", "classes", "wanted", "wrote", "log"))

    def fill(self, figure, times):
        """Takes the input of a figure that does so many times what is counted."""
        self.name = figure.name
        with ExitStack() as files:
            given, wanted = (files.enter_context(open(it, "w")) for it in (self.given, self.wanted))
            for line, told in figure.lines(times):
                given.write(line)
                wanted.write(told)
        self.classes.write_text(figure.classes(times))

    def command(self, program):
        return [program, self.classes, "--turns", TURNS]

    def run(self, command, **options):
        """Runs a command from file to file."""
        with open(self.given, "rb") as source, open(self.wrote, "wb") as sink, open(self.log, "wb") as log:
            status = subprocess.run(command, stdin=source, stdout=sink, stderr=log, **options).returncode
        if status:
            raise Fault(f"{self.name}: {command[0]} ends with {status}\n{self.log.read_text(errors='replace')}")

    def check(self):
        """Compares the output with the expected one."""
        if cmp(self.wrote, self.wanted, shallow=False):
            return
        with open(self.wrote) as wrote, open(self.wanted) as wanted:
            for number, (got, told) in enumerate(zip_longest(wrote, wanted, fillvalue=""), 1):
                if got != told:
                    raise Fault(f"{self.name}: line {number} is {got[:200]!r}, and not {told[:200]!r}")


def instructions_of(program, room, fixed):
    """How many instructions a run takes."""
    room.run([*CALLGRIND, *room.command(program)], env={**os.environ, "LD_PRELOAD": fixed})
    found = COLLECTED.search(room.log.read_text(errors="replace"))
    if not found:
        raise Fault(f"{room.name}: callgrind does not say how many instructions it has collected")
    return int(found[1])


def requests_of(program, room, counter, fixed):
    """How often a run asks for memory, which the library `counter`, preloaded, counts."""
    with open(room.log.with_name("requests"), "w+") as note:
        room.run(
            room.command(program),
            env={**os.environ, "LD_PRELOAD": f"{counter}:{fixed}", "COUNT_NOTE": str(note.fileno())},
            pass_fds=[note.fileno()],
        )
        note.seek(0)
        return int(note.read())


def count_of(program, figure, times, room, libraries):
    """What a figure counts in its input that does so many times what is counted; all replies are compared twice."""
    room.fill(figure, times)
    room.run(room.command(program))
    room.check()
    counter, fixed = libraries
    count = instructions_of(program, room, fixed) if figure.counts_instructions else requests_of(program, room, counter, fixed)
    room.check()
    return count


def counted(program, figure, of_others, room, libraries):
    """What a figure is, where others are these: how much more a second time takes than the first.

    `libraries` are the two that are preloaded: what counts requests for memory, and what gives fixed random bytes.
    """
    once, twice = (count_of(program, figure, times, room, libraries) for times in (1, 2))
    return figure.shared_out(twice - once, 1, of_others)
