#!/usr/bin/env python3
"""Starts three machines with an edge before them, connects clients, kills a machine, and says what comes of it.

PROGRAM is the server, and ARGS are its words.
"""

from __future__ import annotations

import argparse
import sys

sys.dont_write_bytecode = True  # nothing is left here

from contextlib import ExitStack  # noqa: E402
from pathlib import Path  # noqa: E402
from tempfile import TemporaryDirectory  # noqa: E402
from typing import List  # noqa: E402

import metad  # noqa: E402

from machines import DOWN, UP, Machines, NotThere  # noqa: E402
from run import NAMES, parser, program_of, running  # noqa: E402

CHECK = "200ms"


class Visit:
    """A client of a name, which has found out on which machine it is, and has made an object there."""

    def __init__(self, machines: Machines, name: str, stack: ExitStack) -> None:
        before = len(machines.homes(name))
        server = stack.enter_context(metad.connect(machines.room / f"{name}.sock"))
        self.session = server.session(name, on_call=self.hear)
        self.heard: List[str] = []
        self.found = self.session.children()
        self.probe = self.session.new("Probe")
        machines.wait_until(f"the home of {name}", lambda: len(machines.homes(name)) > before)
        self.home = machines.homes(name)[-1]

    def hear(self, call: metad.Call) -> None:
        self.heard.append(call.method)

    def has(self) -> str:
        """What its session holds, or that it was closed."""
        try:
            return f"has {self.session.children()}"
        except metad.ConnectionClosed:
            return "was closed"


def join(one: Visit, other: Visit) -> None:
    """Lets a client hear another one."""
    one.session.publish(one.probe, "ping()", "bell")
    other.session.join(one.session.known_as or "", "bell", [], other.probe, "note()")
    one.session.invoke(one.probe, "ping()")
    other.session.spin()


def show(machines: Machines, stack: ExitStack) -> None:
    """Does what there is to see."""
    visits = {name: Visit(machines, name, stack) for name in NAMES}
    print(", ".join(f"{name} is on {visit.home}" for name, visit in visits.items()))
    second = Visit(machines, "ann", stack)
    join(visits["ann"], second)
    print(f"a second ann is on {second.home}, and heard of the first: {second.heard}")
    home = second.home
    machines.kill(home)
    print(f"{home} is killed: " + ", ".join(f"{name} {visit.has()}" for name, visit in visits.items()))
    third = Visit(machines, "ann", stack)
    print(f"ann comes again: she is on {third.home}, and finds {third.found}")
    machines.wait_for(home, DOWN)
    machines.start_machine(home)
    machines.wait_for(home, UP)
    print(f"{home} is back: ann goes to {Visit(machines, 'ann', stack).home}; the one before {third.has()} on {third.home}")
    machines.rule(f"set server machines/{third.home} state drain")
    name, visit = next((name, visit) for name, visit in visits.items() if visit.home == third.home)
    print(f"{third.home} is drained: {name} {visit.has()} there, and goes to {Visit(machines, name, stack).home}")


def try_all(given: argparse.Namespace) -> None:
    """Starts all of it in a folder that goes at the end."""
    with TemporaryDirectory(prefix="metad-machines-") as room:
        with running(given, Path(room), (), METAD_CHECK=CHECK) as machines, ExitStack() as stack:
            print(f"three machines and an edge, {machines.places.how}", flush=True)
            show(machines, stack)


def main() -> int:
    words = parser(__doc__ or "")
    program_of(words)
    try:
        try_all(words.parse_args())
    except (OSError, metad.MetadError, NotThere) as error:
        print(f"try.py: {error}", file=sys.stderr)
        return 1
    except KeyboardInterrupt:
        return 130
    return 0


if __name__ == "__main__":
    sys.exit(main())
