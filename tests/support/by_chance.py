"""Random sessions, as rows for the built program."""

from contextlib import contextmanager
from dataclasses import replace
from pathlib import Path
from tempfile import TemporaryDirectory
from typing import NamedTuple

from tests.generators import mixed, signals
from tests.plain.classes import Classes
from tests.plain.world import Server

from .lines import lines_of, text_of
from .program import SECONDS, Row


def row_with_classes(name, commands, wanted, declared, room, turns=None, seconds=SECONDS):
    """A row of commands with a class file of its own, which is put into the room."""
    path = Path(room, "classes.json")
    path.write_text(text_of({"classes": declared}))
    words = (str(path), *(("--turns", str(turns)) if turns else ()))
    return Row(name, lines_of(commands), lines_of(wanted), words=words, seconds=seconds)


class Made(NamedTuple):
    """A random session: its class file, its commands, the output of each, and the row of them."""

    declared: list
    commands: list
    answers: list
    row: Row


@contextmanager
def session_by_chance(made, seed, number=signals.COMMANDS):
    """A random session of so many commands, for as long as its class file exists."""
    declared, turns = list(made.classes()), made.choice(signals.TURNS)
    commands, answers = signals.life_of(made, Server(Classes(declared), turns), number)
    with TemporaryDirectory(prefix="metad-session-") as room:
        wanted = [line for told in answers for line in told]
        yield Made(declared, commands, answers, row_with_classes(f"random, {seed}", commands, wanted, declared, room, turns))


@contextmanager
def listeners_by_chance(made, seed, number=1):
    """The row of so many random runs of sessions that listen to each other, for as long as their class file exists."""
    declared, turns = list(made.classes()), made.choice(signals.TURNS)
    run = mixed.run_of(made, Server(Classes(declared), turns), number)
    with TemporaryDirectory(prefix="metad-listeners-") as room:
        row = row_with_classes(f"random, {seed}", run.commands(), run.lines(), declared, room, turns)
        yield replace(row, folder=Path(room))
