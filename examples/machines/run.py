#!/usr/bin/env python3
"""Starts three machines with an edge before them, each in a network namespace where these can be had.

All sockets, certificates, logs and records are in FOLDER, which is made where it is not there. PROGRAM is the server, and
ARGS are its words. It ends at SIGINT and SIGTERM.
"""

from __future__ import annotations

import argparse
import signal
import sys

sys.dont_write_bytecode = True  # nothing is left here

from contextlib import contextmanager  # noqa: E402
from pathlib import Path  # noqa: E402
from typing import Iterator, Sequence  # noqa: E402

import metad  # noqa: E402

from machines import MACHINES, PLACES, Machines, NotThere  # noqa: E402
from places import Addresses, best  # noqa: E402

NAMES = ("ann", "eve", "tom")  # of the certificates of clients


def parser(about: str) -> argparse.ArgumentParser:
    """What reads the words of the command line, except those at the end."""
    words = argparse.ArgumentParser(description=about, formatter_class=argparse.RawDescriptionHelpFormatter, allow_abbrev=False)
    words.add_argument("--addresses", action="store_true", help="places are addresses of this machine, and no namespaces")
    return words


def program_of(words: argparse.ArgumentParser) -> None:
    """Adds the words at the end."""
    words.add_argument("program", metavar="PROGRAM")
    words.add_argument("args", metavar="ARGS", nargs=argparse.REMAINDER).required = False


@contextmanager
def running(given: argparse.Namespace, room: Path, options: Sequence[str], **settings: str) -> Iterator[Machines]:
    """All of it, which is ended at the end; the fronts have these options more."""
    places = Addresses(PLACES) if given.addresses else best(PLACES)
    machines = Machines([given.program, *given.args], room, places, options, **settings)
    try:
        machines.start_all()
        for name in NAMES:
            machines.open(name)
        yield machines
    finally:
        machines.close()
        places.close()


def wait(machines: Machines) -> None:
    """Says where clients connect, and waits to be ended."""
    print(f"{', '.join(MACHINES)} and the edge are {machines.places.how}")
    for name in NAMES:
        print(f"clients of {name} connect at {machines.room / name}.sock", flush=True)
    while True:
        signal.pause()


def main() -> int:
    words = parser(__doc__ or "")
    words.add_argument("--workers", metavar="N", help="each front has so many servers")
    words.add_argument("folder", metavar="FOLDER", type=Path)
    program_of(words)
    given = words.parse_args()
    signal.signal(signal.SIGTERM, signal.default_int_handler)
    room = given.folder.resolve()
    try:
        room.mkdir(mode=0o700, exist_ok=True)
        with running(given, room, ("--workers", given.workers) if given.workers else ()) as machines:
            wait(machines)
    except (OSError, metad.MetadError, NotThere) as error:
        print(f"run.py: {error}", file=sys.stderr)
        return 1
    except KeyboardInterrupt:
        pass
    return 0


if __name__ == "__main__":
    sys.exit(main())
