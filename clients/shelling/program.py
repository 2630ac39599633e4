"""What the words of the command line ask for, and how a run ends."""

from __future__ import annotations

import argparse
import io
import os
import sys
from typing import IO, Optional

import metad
from common.ending import Stop
from common.ending import ended as ended_program
from common.options import NAME, parser_of
from explaining.faults import is_name

from .arriving import Arrivals, TypedArrivals
from .completing import keep_history, prepare
from .link import Link, Unreachable, connected, ended, started
from .prompting import Prompt
from .saying import Speaker
from .shell import Shell

USAGE = f"""{NAME} [--session NAME] [--strict] PROGRAM [ARGS..]
       {NAME} [--session NAME] [--strict] [--no-live] --socket SOCKET"""

HELP = """\
Type short forms of commands, such as `new Probe as p`, `p.ping()`, `p.x = 5`, `p.x` and `connect p.ping() -> c.note()`.
`help` lists them. A line that begins with a brace is sent as it is. On a terminal you can edit lines, complete them
with the tab key, and find earlier ones, which are kept in $XDG_STATE_HOME/metad/history. Ctrl-C cancels a line, and
the end of the input ends the shell. Set NO_COLOR to switch colours off. If a front has live sessions, calls and
warnings are shown as they come, even while you type.

Exit status: 0 at the end of the input; 1 if the server ended before, or with another status than 0, if it cannot be
reached or is no metad, and with --strict after a refusal; 2 after a mistake in the command line. A program that writes
something else, or answers nothing within 10 seconds, is taken for no metad."""


def words() -> argparse.Namespace:
    """The words of the command line; the text of the help where they ask for it."""
    parser = parser_of(NAME, "A line editor over a metad: short forms of commands, and answers in words.", HELP, USAGE)
    parser.add_argument("--session", metavar="NAME", default="a", help="the session that is spoken for, a without it")
    parser.add_argument("--strict", action="store_true", help="end at the first refusal")
    parser.add_argument("--socket", metavar="SOCKET", help="where a front listens")
    parser.add_argument("--no-live", action="store_true", help="show events when you write spin, not as they come")
    parser.add_argument("words", metavar="PROGRAM [ARGS..]", nargs=argparse.REMAINDER, help="the server, and its words")
    given = parser.parse_args()
    given.text = parser.format_help().rstrip("\n") if given.help else None
    given.words = given.words[1:] if given.words[:1] == ["--"] else given.words
    if given.text is None:
        check(parser, given)
    return given


def check(parser: argparse.ArgumentParser, given: argparse.Namespace) -> None:
    """Says what is wrong with the words together."""
    if not is_name(given.session):
        parser.error(f"{given.session!r} cannot be the name of a session")
    if bool(given.words) == (given.socket is not None):
        parser.error("wanted is either a program or --socket")
    if given.no_live and given.socket is None:
        parser.error("--no-live is for --socket")


def linked(given: argparse.Namespace) -> Link:
    """The server that the words ask for."""
    try:
        return started(given.words) if given.socket is None else connected(given.socket, False if given.no_live else None)
    except Unreachable as unreachable:
        raise Stop(str(unreachable)) from None


def is_coloured(stream: IO[str]) -> bool:
    """Whether colours are wanted."""
    return stream.isatty() and not os.environ.get("NO_COLOR") and os.environ.get("TERM") != "dumb"


def converse(shell: Shell, prompt: Prompt) -> None:
    """Does the lines that are typed, in which an interrupt cancels one."""
    prepare(shell)
    arrivals = TypedArrivals(shell, prompt)
    arrivals.begin()
    if isinstance(sys.stdin, io.TextIOWrapper):
        sys.stdin.reconfigure(errors="surrogateescape")
    try:
        while not shell.is_over:
            try:
                arrivals.tell()
                line = prompt.ask(f"{shell.name}> ")
                shell.do(line.encode(sys.stdin.encoding, "surrogateescape"))
            except KeyboardInterrupt:
                end_line()
            except EOFError:
                end_line()
                return
    finally:
        keep_history()


def end_line() -> None:
    """Leaves a line that was begun on the terminal."""
    sys.stdout.write("\n")
    sys.stdout.flush()


def read_through(shell: Shell) -> None:
    """Does the lines of an input that is no terminal."""
    arrivals = Arrivals(shell)
    arrivals.begin()
    while not shell.is_over:
        with arrivals.waiting():
            line = line_of_input()
        if not line:
            return
        shell.do(line[:-1] if line.endswith(b"\n") else line)


def line_of_input() -> bytes:
    """The next line of an input that is no terminal; nothing at its end."""
    try:
        return sys.stdin.buffer.readline()
    except OSError as error:
        raise Stop(f"standard input cannot be read: {error.strerror}") from None


def run(given: argparse.Namespace) -> int:
    """Does all lines; answers the exit status."""
    prompt = Prompt() if sys.stdin.isatty() and sys.stdout.isatty() else None
    speaker = Speaker(sys.stdout.buffer, is_coloured(sys.stdout), prompt)
    link = linked(given)
    status: Optional[int] = 0
    try:
        shell = Shell(link, speaker, given.session, given.strict)
        read_through(shell) if prompt is None else converse(shell, prompt)
        link.try_out(shell.session(given.session))
    except metad.ServerGone:
        status = link.end()
        raise Stop(ended(status) + ("" if status else link.doubt())) from None
    except metad.StrangeLine as strange:
        link.give_up()
        raise Stop(f"{strange}{link.doubt()}") from None
    except metad.NotAnswered:
        link.give_up()
        raise Stop(f"{link.name} has answered nothing in {link.first_seconds()} seconds{link.doubt()}") from None
    finally:
        status = link.end()
    if status:
        raise Stop(ended(status))
    return 1 if given.strict and shell.was_refused else 0


def told(given: argparse.Namespace) -> int:
    """Runs the shell, or shows the help."""
    if sys.stdin is None or sys.stdout is None:
        raise Stop("standard input and standard output have to be open")
    if given.text is None:
        return run(given)
    sys.stdout.write(f"{given.text}\n")
    sys.stdout.flush()
    return 0


def main() -> int:
    return ended_program(NAME, lambda: told(words()))
