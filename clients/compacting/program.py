"""The command line of `compact`, and its run."""

from __future__ import annotations

import argparse
import json
import os
import sys
from contextlib import suppress
from itertools import chain
from pathlib import Path
from typing import Any, Dict, List, Optional, Sequence

PYTHON = Path(__file__).resolve().parent.parent / "python"
sys.path.insert(0, str(PYTHON))  # where the client is, which reads and makes contents

from . import record  # noqa: E402
from .contents import makings  # noqa: E402
from .groups import holding_back  # noqa: E402
from .leaving_out import without_ended  # noqa: E402
from .serving import Kept, Server, Stop  # noqa: E402
from .trying import has_events, state_of  # noqa: E402

NAME = "compact"
USAGE = f"{NAME} [--bytes N] RECORD INTO PROGRAM [ARGS...]"
NICE = 10
EVENTS = "events wait"
GROUPS = "an open group holds back changes"
SOON = (EVENTS, GROUPS)
"""Why a record is kept that may be compacted soon."""
HELP = """\
RECORD is the record of a group, as metad-front keeps it with --workers and --record. PROGRAM with ARGS is the server of
the front. INTO becomes a record that makes the same sessions with the same objects, properties, bindings, connections,
publications and joins, by far fewer commands. A server is brought to the state of either record, and both servers are
asked for everything that can be asked, and then changed in the same way: only if they answer the same, INTO is written.

If the sessions have events that wait, changes that an open group holds back, functors whose state has changed, or
anything else that no command can make again, then only commands of sessions that are over are left out, as far as no
other session depends on them: PROGRAM --slice NAME finds these. If that does not halve the record, it is kept.

One line of standard output says what was done: {"outcome":"compacted"} or {"outcome":"kept"}.

Exit status: 0 if the record was compacted or is kept; 1 if something cannot be read, written or run; 2 after a mistake
in the command line."""


def size(word: str) -> int:
    """A number of bytes."""
    if not (word.isascii() and word.isdigit()):
        raise argparse.ArgumentTypeError(f"{word!r} is no number of bytes")
    return int(word)


def parser() -> argparse.ArgumentParser:
    made = argparse.ArgumentParser(
        prog=NAME,
        usage=USAGE,
        description="Writes a short record that brings a server to the same state as a group's long one.",
        epilog=HELP,
        formatter_class=argparse.RawDescriptionHelpFormatter,
        allow_abbrev=False,
    )
    made.add_argument("--bytes", metavar="N", type=size, help="read only the first N bytes of RECORD")
    made.add_argument("record", metavar="RECORD", type=Path, help=argparse.SUPPRESS)
    made.add_argument("into", metavar="INTO", type=Path, help=argparse.SUPPRESS)
    made.add_argument("program", metavar="PROGRAM", help=argparse.SUPPRESS)
    made.add_argument("args", metavar="ARGS", nargs=argparse.REMAINDER, help=argparse.SUPPRESS)
    return made


def replay(server: Server, path: Path, bytes_read: int) -> None:
    """Brings a server to the state of a record, and checks that it writes what is recorded."""
    told = record.told_in(path, bytes_read)
    answers = chain.from_iterable(server.answers(lambda: record.given_in(path, bytes_read)))
    if any(line != next(told, None) for line in answers) or next(told, None) is not None:
        raise Kept("the server answers the record otherwise")


def compacted(words: Sequence[str], path: Path, bytes_read: int) -> tuple[List[bytes], List[List[bytes]]]:
    """The commands of the short record with their answers, after all checks. Where the contents of the sessions cannot be made
    again, the commands of sessions that are over are left out."""
    sessions = record.sessions_in(path, bytes_read)
    with Server(words) as server:
        replay(server, path, bytes_read)
        before = state_of(server, sessions)
    try:
        if any(has_events(it) for it in before["held"]):
            raise Kept(EVENTS)
        if any(it.shot.groups for it in before["held"]) and holding_back(path, bytes_read):
            raise Kept(GROUPS)
        return checked(words, before, [line for it in before["held"] for line in makings(it, before["numbers"][it.session])])
    except Kept as why:
        left = without_ended(words, list(record.given_in(path, bytes_read)))
        if left is None:
            raise
        with suppress(Kept):
            return checked(words, before, left)
        raise why from None


def checked(words: Sequence[str], before: Dict[str, Any], given: List[bytes]) -> tuple[List[bytes], List[List[bytes]]]:
    """These commands with their answers, if they bring a server to the same state."""
    with Server(words) as server:
        answers = server.ask(given)
        after = state_of(server, [it.session for it in before["held"]])
    if [it.told for it in before["held"]] != [it.told for it in after["held"]]:
        raise Kept("the sessions hold something that no command makes again")
    if before["numbers"] != after["numbers"] or before["told"] != after["told"]:
        raise Kept("the sessions would go on otherwise")
    return given, answers


def made(given: argparse.Namespace) -> Dict[str, Any]:
    """Writes the short record; returns what was done."""
    parent = os.getppid()
    bytes_read = given.bytes if given.bytes is not None else given.record.stat().st_size
    try:
        lines, answers = compacted([given.program, *given.args], given.record, bytes_read)
    except Kept as why:
        return {"outcome": "kept", "why": str(why), "soon": str(why) in SOON}
    if sum(map(len, lines)) >= bytes_read:
        return {"outcome": "kept", "why": "it would not be shorter"}
    if os.getppid() != parent:
        raise Stop("whoever started this has ended")
    with open(os.open(given.into, os.O_WRONLY | os.O_CREAT | os.O_TRUNC | os.O_NOFOLLOW, 0o600), "wb") as file:
        written = record.write(file, lines, answers)
        copied = record.copy_rest(given.record, bytes_read, file) if given.bytes is not None else 0
        file.flush()
        os.fsync(file.fileno())
    return {"outcome": "compacted", "lines": len(lines), "bytes": written, "copied": copied}


def main(words: Optional[Sequence[str]] = None) -> int:
    given = parser().parse_args(words)
    try:
        with suppress(OSError):  # a service may not be allowed to change it
            os.nice(NICE)
        print(json.dumps(made(given)), flush=True)
        return 0
    except (Stop, OSError) as fault:
        why = f"{fault.filename}: {fault.strerror}" if isinstance(fault, OSError) and fault.filename else str(fault)
        print(f"{NAME}: {why}", file=sys.stderr)
        return 1
