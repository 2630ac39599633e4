"""What the words of the command line ask for, and how a run ends."""

from __future__ import annotations

import argparse
import sys
from typing import Callable

from common.ending import Stop, ended
from common.files import lines_of, opened, whole, writer
from common.options import NAME, parser_of

from .commands import commands_in
from .knowledge import Knowledge
from .slots import Refused, Slots
from .telling import Telling


HELP = """\
Each line is shown, and below it what it means. With --commands, each command is shown before its lines and used to
explain them. For a refusal you then also see which key of the command is wrong or which object is missing, and what
to do.

What --tree knows: the commands say which objects are made, moved and deleted, and the replies say whether that was
done. But slots and functors can move and delete objects too, and no line reports it. After a command that calls one,
the tree is uncertain until later replies of `children` confirm it: one for the roots and one for each object make it
certain again. The slot `deleteLater()` is known to do nothing before the next `spin`.
With --classes, slots are followed. Those that move and delete nothing leave the tree certain. Others are followed if
no action of theirs was refused, no move or deletion is in a branch of `when`, and the lines show their order.
Objects are drawn in the order of `children`, with class and name if these are known. A name that is bound is not
shown, because it changes with other properties. A `?` after an object means that it may be gone, and `...` that it
may have more children.

Exit status: 0 at the end of the input; 1 if something cannot be read or written, or if the commands do not belong to
the input; 2 after a mistake in the command line."""


class Words(argparse.Namespace):
    """The words of the command line; `help` is the text of the help where they ask for it."""

    commands: str | None
    classes: str | None
    tree: bool
    help: str | None


def words() -> Words:
    """The words of the command line; the text of the help where they ask for it."""
    parser = parser_of(NAME, "Says in plain words what each line means that metad writes, read from standard input.", HELP)
    parser.add_argument("--commands", metavar="FILE", help="the input that the lines answer, the same that metad was given")
    drawn = "draw at the end what is known of the objects of each session; needs --commands"
    parser.add_argument("--tree", action="store_true", help=drawn)
    slots = "the class file that metad was given, by which the tree is known better; needs --tree"
    parser.add_argument("--classes", metavar="FILE", help=slots)
    given = parser.parse_args(namespace=Words())
    if given.tree and given.commands is None:
        parser.error("--tree needs --commands, since replies alone do not say which objects were made")
    if given.classes is not None and not given.tree:
        parser.error("--classes needs --tree, since it is for the tree alone")
    given.help = parser.format_help().rstrip("\n") if given.help else None
    return given


def slots_of(path: str) -> Slots:
    """The slots of a class file."""
    try:
        return Slots(whole(path))
    except Refused as why:
        raise Stop(f"{path} is no class file that metad takes: {why}") from None


def told(given: Words, advise: Callable[[str], str]) -> int:
    """Tells the whole of standard input, or shows the help; answers the exit status."""
    if sys.stdin is None or sys.stdout is None:
        raise Stop("standard input and standard output have to be open")
    say = writer(sys.stdout.buffer)
    if given.help:
        say(given.help)
        return 0
    slots = None if given.classes is None else slots_of(given.classes)
    telling = Telling(say, knowledge=Knowledge(slots), advise=advise)
    if given.commands is not None:
        telling.commands = commands_in(lines_of(opened(given.commands), given.commands))
    for raw in lines_of(sys.stdin.buffer, "standard input"):
        telling.tell(raw)
    telling.end()
    if given.tree:
        telling.draw()
    return 1 if telling.misfits else 0


def main(advise: Callable[[str], str]) -> int:
    """Runs the tool, which says of each refusal what to do about its code; answers the exit status."""
    return ended(NAME, lambda: told(words(), advise))
