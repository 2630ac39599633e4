"""Random runs of many sessions that join each other in chains, publish, and are reset now and then."""

from __future__ import annotations

from contextlib import contextmanager
from dataclasses import replace
from pathlib import Path
from tempfile import TemporaryDirectory
from typing import Iterator

from tests.plain.classes import Classes
from tests.plain.world import Server
from tests.support.by_chance import row_with_classes
from tests.support.program import Row

from . import mixed

GROUPS = 4  # of sessions that may join each other
COMMANDS = 20  # of a session
TURNS = 40
RESETS = 0.05  # of the commands


class Chance(mixed.Chance):
    """Random commands of sessions that listen to each other, and are reset more often than those of `mixed`."""

    def command_among(self, server: Server, name: str, sources: "list[str]") -> dict:
        return {"do": "reset"} if self.is_so(RESETS) else super().command_among(server, name, sources)


@contextmanager
def chained_row(seed: int) -> "Iterator[Row]":
    """The row of such a run, while its class file exists."""
    made = Chance(seed)
    declared = list(made.classes())
    run = mixed.run_of(made, Server(Classes(declared), TURNS), GROUPS, COMMANDS)
    with TemporaryDirectory(prefix="metad-chained-") as room:
        row = row_with_classes(f"chained, {seed}", run.commands(), run.lines(), declared, room, TURNS)
        yield replace(row, folder=Path(room))
