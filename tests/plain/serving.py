"""The plain program as a server: it answers each line of its input as it comes, like the built one.

`METAD=tests/plain/metad python3 -m unittest tests.test_rows` runs tests on it. It takes a class file without checking it and
is slow, and of the options it knows `--turns`.
"""

from __future__ import annotations

import argparse
import sys
from pathlib import Path
from typing import Optional, Sequence

from .lines import DEMONSTRATION, answer, server_with
from .session import TURNS


def serve(words: Optional[Sequence[str]] = None) -> int:
    """Answers the lines of standard input until it ends."""
    parser = argparse.ArgumentParser(prog="plain metad", description="Answers commands as metad does, by the plain program.")
    parser.add_argument("--turns", type=int, default=TURNS, metavar="N", help="turns that each command has (%(default)s)")
    parser.add_argument("classes", nargs="?", type=Path, default=DEMONSTRATION, metavar="CLASSES", help="a class file without faults")
    given = parser.parse_args(words)
    try:
        server = server_with(given.classes, given.turns)
    except (OSError, ValueError) as error:
        print(f"plain metad: {given.classes}: {error}", file=sys.stderr)
        return 1
    try:
        for line in sys.stdin.buffer:
            sys.stdout.buffer.write(answer(server, line.rstrip(b"\n")))
            sys.stdout.buffer.flush()
    except (KeyboardInterrupt, BrokenPipeError):
        sys.stdout = None  # type: ignore[assignment]  # nothing more can be written
    return 0
