"""Runs of the program within bounds that the shell sets, and their allowed results where memory is short."""

from __future__ import annotations

from dataclasses import dataclass, replace
from subprocess import CompletedProcess

from tests.plain.failing import Followed, followed
from tests.plain.lines import answer, server_of

from .growths import COMPLAINT, ENDED, NOT_SEEN, OUT_OF_MEMORY, answers_in
from .lines import lines_in
from .program import Row

NOT_LOADED = "not loaded"  # by the system, before the program has begun
UNLOADED = 127
OF_LOADER = (b"error while loading shared libraries", b"cannot allocate TLS data structures for initial thread")
ENDS = ((0, b""), (OUT_OF_MEMORY, COMPLAINT))  # the statuses that a run may end with, and what it then says


def run_bounded(program: str, row: Row, bounds: str) -> CompletedProcess:
    """Runs a row after these words of the shell, which set bounds for what it starts."""
    words = ("-c", f'{bounds} && exec "$0" "$@"', program, *row.words)
    return replace(row, words=words).run("sh")


@dataclass
class Came:
    """What came of a run in little memory: the kinds of it, one for each refusal that shows; or that it is not allowed."""

    kinds: tuple[str, ...] = ()
    is_allowed: bool = True


def is_begun(server: Followed, line: bytes, text: bytes) -> bool:
    """Whether a text is the beginning of the output of a line."""
    return answer(server.copied(), line).startswith(text)


def came_of(row: Row, ran: CompletedProcess) -> Came:
    """What came of a run of this row, in which any number of requests for memory may have been refused."""
    if ran.returncode == UNLOADED and any(words in ran.stderr for words in OF_LOADER) and not ran.stdout:
        return Came((NOT_LOADED,))
    if row.passes(ran):
        return Came((NOT_SEEN,))
    lines, answers = [it.removesuffix(b"\n") for it in lines_in(row.given)], answers_in(ran.stdout)
    rest = b"" if ran.stdout.endswith(b"\n") or not answers else answers.pop()
    if (ran.returncode, ran.stderr) not in ENDS or len(answers) > len(lines):
        return Came(is_allowed=False)
    servers = followed(server_of(row, Followed), lines, answers)
    if ran.returncode == OUT_OF_MEMORY:
        servers = [it for it in servers if not rest or is_begun(it, lines[len(answers)], rest)]
        ends: tuple[str, ...] = (ENDED,)
    else:
        servers = servers if len(answers) == len(lines) and not rest else []
        ends = ()
    return Came((*(it.kind for it in servers[0].refusals), *ends)) if servers else Came(is_allowed=False)
