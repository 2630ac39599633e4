"""What the words of the command line ask for, and how a run ends."""

from __future__ import annotations

import argparse
import re
import sys
from typing import Sequence

from common.ending import Stop, ended
from common.files import lines_of, whole, writer
from common.options import NAME, parser_of

from .advising import no_classes, no_session
from .comparing import difference, told_by_record, told_to
from .record import Entry, answers_in, entries_of, mark
from .running import Program, program_beside
from .showing import MARKS, compared, counts, marked

USAGE = f"{NAME} [--only] [--metad PROGRAM] [--classes FILE] [--turns N] RECORD NAME"
SESSION = re.compile(r"[A-Za-z_][A-Za-z0-9_]{0,63}")
INPUT, INPUT_NAME = "-", "standard input"
TURNS = re.compile(r"\+?0*([1-9][0-9]{0,5}|1000000)")

HELP = """\
RECORD is the input of a metad: a file, such as one of `metad-front --record`, or - for standard input. The slice of
the session NAME contains the commands that can affect what NAME receives: its own, and those of each session that it
joined, up to the last one that could still reach NAME. `metad --slice NAME` finds them.

Each line of RECORD that is not blank is shown with a mark:
{marks}
Then you see how many commands of each session are kept. The slice alone is given to metad, and compared: does NAME
receive the same as with all of RECORD? If not, the first line that differs is shown. Answers to lines of NAME that are
no commands are not compared, because the slice leaves these lines out.

FILE and N must be those of the recorded run. If the slice names classes that metad does not have without a class file,
nothing is compared, and the tool asks for --classes.

Exit status: 0 if NAME receives the same, and with --only if the slice was written; 1 if it receives something else, if
--classes is missing, or if something cannot be read, written or run; 2 after a mistake in the command line, and if
RECORD has no command of NAME."""


class NoSession(Stop):
    """A session is asked for that gives no command in the record."""

    status = 2


class Words(argparse.Namespace):
    """The words of the command line."""

    record: str | None
    name: str | None
    metad: str | None
    classes: str | None
    turns: str | None
    only: bool
    help: bool


def turns(word: str) -> str:
    """How many turns a command has, as metad takes it."""
    if not TURNS.fullmatch(word):
        raise argparse.ArgumentTypeError(f"{word!r} is no whole number from 1 to 1000000")
    return word


def parser() -> argparse.ArgumentParser:
    marked = HELP.format(marks="\n".join(f"  {mark.decode()} {meaning}" for mark, meaning in MARKS.items()))
    made = parser_of(NAME, "Shows which commands of a record can affect what a session receives, and checks it.", marked, USAGE)
    made.add_argument("--only", action="store_true", help="write the slice alone, as an input for metad")
    made.add_argument("--metad", metavar="PROGRAM", help="the program; without it the one next to this tool, or on the path")
    made.add_argument("--classes", metavar="FILE", help="the class file that metad is given")
    made.add_argument("--turns", metavar="N", type=turns, help="the turns of a command that metad is given")
    made.add_argument("record", metavar="RECORD", nargs="?", help=argparse.SUPPRESS)
    made.add_argument("name", metavar="NAME", nargs="?", help=argparse.SUPPRESS)
    return made


def words() -> Words:
    made = parser()
    given = made.parse_args(namespace=Words())
    if given.help:
        return given
    if given.record is None or given.name is None:
        made.error("a record and the name of a session are wanted")
    if not SESSION.fullmatch(given.name):
        made.error(f"{given.name!r} cannot be the name of a session")
    return given


def told(given: Words) -> int:
    """Shows the slice, or writes it, or shows the help; answers the exit status."""
    if sys.stdout is None:
        raise Stop("standard output has to be open")
    if given.help:
        writer(sys.stdout.buffer)(parser().format_help().rstrip("\n"))
        return 0
    assert given.record is not None and given.name is not None
    record = record_of(given.record)
    path = program_beside() if given.metad is None else given.metad
    program = Program(path, given.classes, given.turns)
    kept = program.slice(record, given.name)
    if not kept or not given.only or given.classes is None:
        entries = entries_of(record, program.told(record))
        check(given, entries, kept)
    if not given.only:
        return show(program, entries, kept, given)
    sys.stdout.buffer.write(kept)
    sys.stdout.buffer.flush()
    return 0 if given.classes is not None else warned(entries)


def record_of(path: str) -> bytes:
    """The bytes of a record, which may come by standard input."""
    if path != INPUT:
        return whole(path)
    if sys.stdin is None:
        raise Stop("standard input has to be open")
    return b"".join(lines_of(sys.stdin.buffer, INPUT_NAME))


def check(given: Words, entries: Sequence[Entry], kept: bytes) -> None:
    """Marks the commands that are kept; `NoSession` where the session that is asked for has no command."""
    assert given.record is not None and given.name is not None
    fault = no_session(INPUT_NAME if given.record == INPUT else given.record, given.name, entries)
    if fault is not None:
        raise NoSession(fault)
    mark(entries, kept)


def warned(entries: Sequence[Entry]) -> int:
    """The exit status of a slice for which no class file was given."""
    fault = no_classes(entries)
    if fault is not None:
        raise Stop(fault)
    return 0


def show(program: Program, entries: Sequence[Entry], kept: bytes, given: Words) -> int:
    """Shows what is kept of a record, and whether the session receives the same from it."""
    assert given.name is not None
    say = writer(sys.stdout.buffer)
    for line in (*marked(entries), *counts(entries)):
        say(line)
    if given.classes is None:
        warned(entries)
    by_record = told_by_record(given.name, entries)
    found = difference(by_record, told_to(given.name, answers_in(program.told(kept))))
    for line in compared(given.name, by_record, found):
        say(line)
    return 0 if found is None else 1


def main() -> int:
    return ended(NAME, lambda: told(words()))
