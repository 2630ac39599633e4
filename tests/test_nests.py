"""Calls and deletions that nest as deep as they may where memory is short: the stack is memory too, and the program never ends
by a signal."""

from __future__ import annotations

from collections import Counter
from concurrent.futures import ProcessPoolExecutor
from functools import partial
from pathlib import Path
from subprocess import CompletedProcess, run
from tempfile import TemporaryDirectory, TemporaryFile
from typing import NamedTuple

from .generators import nests
from .support.bounded import OF_LOADER, UNLOADED
from .support.cases import AT_ONCE, ProgramCases
from .support.growths import COMPLAINT, OUT_OF_MEMORY, line
from .support.program import SECONDS, Row
from .support.spared import Reference, answers_of

KIB, MIB = 2**10, 2**20
LEAST_SPACE, MOST_SPACE, SPACES = 4 * MIB, 64 * MIB, 300
WHOLE, FAILED, STOPPED, NOT_LOADED = "whole", "failed", "stopped", "not loaded"


def spaces() -> "list[int]":
    """Sizes of address spaces in KiB, each larger than the one before it by the same factor."""
    factor = (MOST_SPACE / LEAST_SPACE) ** (1 / (SPACES - 1))
    return [round(LEAST_SPACE * factor**at) // KIB for at in range(SPACES)]


def run_row(program: str, row: Row, kib: "int | None" = None) -> CompletedProcess:
    """Runs a row, whose input is a file, in an address space of so many KiB where they are given."""
    bound = f"ulimit -v {kib} && " if kib else ""
    words = ["sh", "-c", f'{bound}exec "$0" "$@"', program, *row.words]
    with TemporaryFile() as given:
        given.write(row.given)
        given.seek(0)
        return run(words, stdin=given, capture_output=True, cwd=row.folder, timeout=SECONDS)


class Tried(NamedTuple):
    """What came of a row in a space, how many of its sessions had all their answers, and what is wrong, or None."""

    kind: str
    spared: int = 0
    fault: "str | None" = None


def failure_fault(name: str, told: "list[bytes]", wanted: "list[bytes]") -> "str | None":
    """What is wrong with the answers to a session that has failed: after those that it has to have comes E21, and then
    only E20."""
    at = next((at for at, (got, want) in enumerate(zip(told, wanted)) if got != want), None)
    if at is None or at == 0:
        return None if told else f"{name} receives nothing"
    rest = [line("E21", name)] + [line("E20", name)] * (len(told) - at - 1)
    return None if told[at:] == rest else f"{name} receives {b''.join(told[at:])[:300]!r} after {at} answers"


def judged(program: str, row: Row, ran: CompletedProcess) -> Tried:
    """What came of a run to its end."""
    if ran.stdout == row.stdout:
        return Tried(WHOLE)
    reference = Reference(row, lambda row: run_row(program, row).stdout)
    came = reference.judge(ran.stdout)
    if came.fault or not (came.hit or came.unread):
        return Tried(FAILED, fault=came.fault or "other lines, and no refusal")
    told, wanted = answers_of(ran.stdout), answers_of(reference.stdout_without(came.unread))
    faults = (failure_fault(name, told[name], wanted[name]) for name in came.hit)
    return Tried(FAILED, len(came.spared), next(filter(None, faults), None))


def try_row(program: str, kib: int, row: Row) -> Tried:
    """What comes of a row in an address space of so many KiB."""
    ran = run_row(program, row, kib)
    if ran.returncode == UNLOADED and any(words in ran.stderr for words in OF_LOADER) and not ran.stdout:
        return Tried(NOT_LOADED)
    if (ran.returncode, ran.stderr) == (OUT_OF_MEMORY, COMPLAINT):
        return Tried(STOPPED, fault=None if row.stdout.startswith(ran.stdout) else "it says other lines before it stops")
    if (ran.returncode, ran.stderr) != (0, b""):
        return Tried(FAILED, fault=f"status {ran.returncode}, {ran.stderr[-300:]!r}")
    return judged(program, row, ran)


def try_space(program: str, folder: Path, kib: int) -> "list[tuple[str, Tried]]":
    """What comes of each row in an address space of so many KiB."""
    return [(row.name, try_row(program, kib, row)) for row in nests.rows_of(kib * KIB, folder)]


def fault_of(tried: "list[tuple[str, Tried]]") -> "str | None":
    return next((f"{name}: {it.fault}" for name, it in tried if it.fault), None)


class Nests(ProgramCases):
    """Nests in little memory."""

    def test_spaces(self) -> None:
        """In each of many address spaces the program ends with status 0 or 5, and says E21 where memory was refused."""
        folder = Path(self.enterContext(TemporaryDirectory(prefix="metad-nests-")))
        nests.put_classes(folder)
        cases = [(f"{kib:,} KiB", kib) for kib in spaces()]
        tried = self.check_each(cases, partial(try_space, self.program, folder), fault_of, ProcessPoolExecutor, AT_ONCE)
        kinds = Counter((name, it.kind) for space in tried for name, it in space)
        self.tell(", ".join(f"{name} {kind}: {count}" for (name, kind), count in sorted(kinds.items())))
        full = "deletions in full memory"
        self.assertGreater(sum(it.spared > 0 for space in tried for name, it in space if name == full), SPACES // 2, "memory was hardly ever full")
        for name in ("deletions", "functors and bindings"):
            self.assertGreater(kinds[name, WHOLE], SPACES // 2)
