#!/usr/bin/env python3
"""Measures how long the worst lines of one session delay another one, over one pipe.

Usage: neighbours.py PROGRAM [--seconds N] [--write]. One session asks for a text again and again, in turn alone and right
after a line of another session, so that it waits for the whole of that line, for N seconds with each kind of line. It
prints ratios of round trips within one run: the median, and the 99th percentile, to the median alone. With --write
the table of docs/internals/MEASURES.md is written again.
"""

from __future__ import annotations

import argparse
import os
import subprocess
import sys
import time
from dataclasses import dataclass, field
from pathlib import Path
from typing import Iterable

from lines import command

PAGE = Path(__file__).resolve().parent.parent / "docs" / "internals" / "MEASURES.md"
HEAD = "| a line of the other session | median | 99th percentile |\n|---|---|---|\n"
SECONDS = 10
PATIENCE = 300  # seconds in which an answer has to come
ROOM = 1 << 20  # bytes that are read at once
AT_ONCE = 200  # lines that are given before their answers are read
CALLS, OBJECTS, BINDINGS, FOLLOWED = 10_000, 4_096, 1_024, 10
LONGEST, DEEPEST = 65_536, 30
ASK = command("a", "get", object=1, property="objectName").encode()
TOLD = b'{"reply":"lamp","session":"a"}\n'
MARK = command("a", "unpublish", name="mark").encode()
MARKED = b'{"reply":false,"session":"a"}\n'
FIRST = [command("a", "new", **{"class": "QObject"}), command("a", "set", object=1, property="objectName", value="lamp")]


class Fault(Exception):
    """The program did not do what it has to, so that nothing can be said of it."""


class Talk:
    """A program that is talked to over pipes."""

    def __init__(self, program: str) -> None:
        self.process = subprocess.Popen([program], stdin=subprocess.PIPE, stdout=subprocess.PIPE, bufsize=0)

    def __enter__(self) -> Talk:
        return self

    def __exit__(self, *_: object) -> None:
        self.process.stdin.close()
        self.process.stdout.close()
        self.process.terminate()
        self.process.wait()

    def ask(self, lines: bytes, last: bytes) -> None:
        """Gives lines, and reads up to this last answer."""
        self.give(lines)
        output, said, until = self.process.stdout.fileno(), b"", time.monotonic() + PATIENCE
        while not said.endswith(last):
            part = os.read(output, ROOM)
            if not part or time.monotonic() > until:
                raise Fault(f"the program does not answer {lines[:200]!r}")
            said = said[-len(last) :] + part

    def give(self, lines: bytes) -> None:
        try:
            while lines:
                lines = lines[self.process.stdin.write(lines) :]
        except BrokenPipeError:
            raise Fault("the program has ended") from None

    def do(self, lines: Iterable[str]) -> None:
        """Gives lines whose answers do not matter."""
        waiting = [it.encode() for it in lines]
        for first in range(0, len(waiting), AT_ONCE):
            self.ask(b"".join(waiting[first : first + AT_ONCE]) + MARK, MARKED)


@dataclass
class Neighbour:
    """Another session: what it makes at first, its line, and what it makes again after each line."""

    name: str
    line: str
    first: list[str] = field(default_factory=list)
    behind: list[str] = field(default_factory=list)


def of_b(do: str, **keys: object) -> str:
    return command("b", do, **keys)


def made(kind: str, count: int) -> list[str]:
    return [of_b("new", **{"class": kind})] * count


def deepened(form: dict) -> dict:
    """A form within as many sums as there may be around it."""
    for _ in range(DEEPEST):
        form = {"+": [form, {"const": 0}]}
    return form


def followers(count: int) -> list[str]:
    """Cells after the second one that each add one to the one before; bound in a group."""
    forms = ({"+": [{"prop": "x", "of": number - 1}, {"const": 1}]} for number in range(3, count + 3))
    bound = [of_b("bind", object=number, property="x", to=deepened(form)) for number, form in enumerate(forms, 3)]
    return [*made("Cell", count + 2), of_b("begin"), *bound, of_b("end")]


def calls() -> Neighbour:
    ends = {"sender": 1, "signal": "ping()", "receiver": 1, "method": "note()"}
    invoke = of_b("invoke", object=1, method="ping()", args=[])
    return Neighbour(f"a signal that calls {CALLS:,} slots", invoke, [*made("Probe", 1), *[of_b("connect", **ends)] * CALLS])


def events() -> Neighbour:
    post = of_b("invoke", object=1, method="note()", args=[], type="queued")
    return Neighbour(f"{CALLS:,} events taken", of_b("spin"), [*made("Probe", 1), *[post] * CALLS], [post] * CALLS)


def tree() -> Neighbour:
    """A tree of objects below the session's first one; they get new numbers each time, so the session is reset."""
    below = [of_b("new", parent=1, **{"class": "QObject"})] * (OBJECTS - 1)
    again = [of_b("reset"), *made("QObject", 1), *below]
    return Neighbour(f"a tree of {OBJECTS:,} objects deleted", of_b("delete", object=1), again, again)


def bindings() -> Neighbour:
    """The value that is set changes with each line and changes back with the next."""
    turned = [of_b("set", object=2, property="x", value=value) for value in (1, 0)]
    return Neighbour(f"a property set that {BINDINGS:,} bindings follow", turned[0], followers(BINDINGS), turned[1:])


def followed_calls() -> Neighbour:
    """Each of some calls sets a property that bindings follow: by a slot, and by a functor that sets another value."""
    slot = of_b("connect", sender=1, signal="xChanged(int)", receiver=2, method="setX(int)")
    functor = of_b("connectFunctor", sender=1, signal="xChanged(int)", context=2, functor="clamp")
    turned = [of_b("set", object=1, property="x", value=value) for value in (250, 0)]
    first = [*followers(BINDINGS), *[slot, functor] * (FOLLOWED // 2)]
    return Neighbour(f"{FOLLOWED} calls that each set what {BINDINGS:,} bindings follow", turned[0], first, turned[1:])


def neighbours() -> list[Neighbour]:
    """The lines that are measured, from the cheapest on."""
    longest = of_b("set", object=1, property="x", value=[[]])
    return [
        Neighbour("`status`", of_b("status")),
        Neighbour(f"{LONGEST:,} bytes that are no JSON", "x" * LONGEST + "\n"),
        Neighbour(f"{LONGEST:,} bytes of JSON, which are refused", longest.replace("[[]]", "[" + "[]," * ((LONGEST - len(longest)) // 3) + "[]]")),
        tree(),
        bindings(),
        events(),
        calls(),
        followed_calls(),
    ]


@dataclass
class Felt:
    """Round trips alone and next to another session."""

    name: str
    alone: list[float]
    beside: list[float]

    def row(self) -> str:
        return row_of(self.name, self.beside, quantile(self.alone, 0.5))


def quantile(times: list[float], share: float) -> float:
    """The time that this share of the others is below."""
    return sorted(times)[int(share * len(times))]


def row_of(name: str, times: list[float], alone: float) -> str:
    """A row of the table, where a round trip alone takes so long."""
    median, late = (shown(quantile(times, share) / alone) for share in (0.5, 0.99))
    return f"| {name} | {median} | {late} |"


def row_alone(found: list[Felt]) -> str:
    """The row of all round trips alone."""
    times = [it for felt_once in found for it in felt_once.alone]
    return row_of("none", times, quantile(times, 0.5))


def shown(ratio: float) -> str:
    return f"{ratio:,.0f}" if ratio >= 100 else f"{ratio:.1f}"


def timed(talk: Talk, lines: bytes) -> float:
    begun = time.perf_counter()
    talk.ask(lines, TOLD)
    return time.perf_counter() - begun


def felt(program: str, other: Neighbour, seconds: float) -> Felt:
    """What is felt of another session for so many seconds, once at least."""
    found = Felt(other.name, [], [])
    with Talk(program) as talk:
        talk.do([*FIRST, *other.first])
        until = time.monotonic() + seconds
        while not found.beside or time.monotonic() < until:
            found.alone.append(timed(talk, ASK))
            found.beside.append(timed(talk, other.line.encode() + ASK))
            talk.do(other.behind)
    return found


def write_page(rows: list[str]) -> None:
    """Writes the table of the page again."""
    before, head, after = PAGE.read_text().partition(HEAD)
    if not head:
        raise Fault(f"{PAGE.name} has no table with this head: {HEAD}")
    PAGE.write_text(before + head + "".join(f"{row}\n" for row in rows) + "\n" + after.partition("\n\n")[2])


def positive(word: str) -> float:
    number = float(word)
    if not 0 < number < float("inf"):
        raise ValueError(word)
    return number


def options() -> argparse.Namespace:
    """The words of the command line."""
    parser = argparse.ArgumentParser(description="Measures what one session feels of another one's worst lines.")
    parser.add_argument("program", help="the built program")
    parser.add_argument("--seconds", type=positive, default=SECONDS, help=f"for each kind of line, {SECONDS} where it is not said")
    parser.add_argument("--write", action="store_true", help="writes the table of docs/internals/MEASURES.md")
    given = parser.parse_args()
    if not os.access(given.program, os.X_OK) or os.path.isdir(given.program):
        parser.error(f"{given.program} is no program")
    return given


def main() -> None:
    given, found = options(), []
    try:
        print(HEAD, end="", flush=True)
        for other in neighbours():
            found.append(felt(str(Path(given.program).resolve()), other, given.seconds))
            print(found[-1].row(), flush=True)
        print(row_alone(found))
        if given.write:
            write_page([row_alone(found), *(it.row() for it in found)])
    except Fault as fault:
        sys.exit(str(fault))
    except BrokenPipeError:
        os.dup2(os.open(os.devnull, os.O_WRONLY), sys.stdout.fileno())
        sys.exit(1)
    except KeyboardInterrupt:
        sys.exit(130)


if __name__ == "__main__":
    main()
