"""Gives the program lines of somebody who means no good, piece by piece, and compares each reply with the plain program's.

`python3 -m tests.hostile` runs ten million lines, which takes long; `--lines` and `--seconds` say how many, and how long at
most. It prints how many lines were answered, how many pieces differ, and what differs first in each of these; it ends with 1
where one does. Where the plain program cannot answer a line, its piece ends there, and that is counted.
"""

from __future__ import annotations

import argparse
import os
import sys
import time
from collections import Counter
from concurrent.futures import FIRST_COMPLETED, Future, ProcessPoolExecutor, wait
from functools import partial
from typing import Callable, Iterator

from .generators import chance, hostile
from .plain.lines import answer, server_with
from .support.program import Row, program_under_test

LINES = 10_000_000
SECONDS = 24 * 3_600
KINDS = ("lines", "replies", "errors", "calls", "warnings", "not answered by the plain program", "pieces that differ")
TOLD = {"replies": b'{"reply":', "errors": b'{"error":', "calls": b',"call":', "warnings": b'"warning":'}


class Piece(Counter):
    """What was counted in some lines."""

    fault = ""


def try_piece(program: str, seed: str, lines: int, number: int) -> Piece:
    """What comes of the piece of this number."""
    server, given, wanted, tried = server_with(turns=chance.TURNS), [], [], Piece()
    for line in hostile.piece_of(seed, number, lines):
        try:
            wanted.append(answer(server, line))
        except Exception:  # whatever keeps the plain program from an answer
            tried["not answered by the plain program"] += 1
            break
        given.append(line)
    row = Row(f"piece {number}", b"\n".join(given), b"".join(wanted), words=("--turns", str(chance.TURNS)))
    ran = row.run(program)
    tried.update(lines=len(given), **{kind: row.stdout.count(word) for kind, word in TOLD.items()})
    fault = row.fault(ran)
    if fault:
        tried["pieces that differ"] += 1
        tried.fault = f"piece {number} of seed {seed}: {fault}"
    return tried


def pieces(pool: ProcessPoolExecutor, workers: int, try_number: Callable[[int], Piece], numbers: Iterator[int]) -> Iterator[Piece]:
    """What comes of pieces, which are begun only as others end, until there are no more numbers."""
    under_way: set[Future[Piece]] = set()
    for number in numbers:
        under_way.add(pool.submit(try_number, number))
        while len(under_way) > workers:
            done, under_way = wait(under_way, return_when=FIRST_COMPLETED)
            yield from (it.result() for it in done)
    yield from (it.result() for it in under_way)


def numbers_until(most: int, ends: float) -> Iterator[int]:
    """The numbers of as many pieces, up to this time."""
    for number in range(most):
        if time.monotonic() > ends:
            return
        yield number


def run(given: argparse.Namespace) -> Piece:
    """Tries all pieces, and prints each fault as it is found."""
    counts, try_number = Piece(), partial(try_piece, program_under_test(), given.seed, given.piece)
    numbers = numbers_until(-(-given.lines // given.piece), time.monotonic() + given.seconds)
    with ProcessPoolExecutor(given.workers) as pool:
        for tried in pieces(pool, given.workers, try_number, numbers):
            counts.update(tried)
            if tried.fault:
                print(tried.fault, flush=True)
    return counts


def positive(word: str) -> int:
    number = int(word)
    if number < 1:
        raise ValueError(word)
    return number


def options() -> argparse.Namespace:
    """The words of the command line."""
    parser = argparse.ArgumentParser(prog="python3 -m tests.hostile", description="Compares the answers to hostile lines with the plain program's.")
    parser.add_argument("--lines", type=positive, default=LINES, help=f"how many at most, {LINES:,} where it is not said")
    parser.add_argument("--seconds", type=positive, default=SECONDS, help="how long pieces are begun")
    parser.add_argument("--piece", type=positive, default=hostile.LINES, help=f"lines of a piece, {hostile.LINES:,} where it is not said")
    parser.add_argument("--workers", type=positive, default=os.cpu_count() or 1, help="pieces at once")
    parser.add_argument("--seed", default="1", help="another one makes other lines")
    return parser.parse_args()


def main() -> int:
    given = options()
    try:
        counts = run(given)
    except FileNotFoundError as fault:
        print(fault, file=sys.stderr)
        return 1
    except KeyboardInterrupt:
        return 130
    print(", ".join(f"{kind}: {counts[kind]:,}" for kind in KINDS))
    return 1 if counts["pieces that differ"] else 0


if __name__ == "__main__":
    sys.exit(main())
