"""The record of a group: the lines that a server was given, each after `> `, and those that it wrote."""

from __future__ import annotations

import json
import os
from pathlib import Path
from typing import BinaryIO, Dict, Iterator, List, Sequence

GIVEN = b"> "
CHUNK = 1 << 20
LEFT_MOST = 65_536
"""What the front may copy itself, in bytes: more than this is copied here first."""
ROUNDS = 20


def lines_in(path: Path, size: int) -> Iterator[bytes]:
    """The lines in the beginning of a record, with their ends."""
    with path.open("rb") as file:
        while size > 0:
            line = file.readline()
            if not line:
                return
            size -= len(line)
            yield line


def given_in(path: Path, size: int) -> Iterator[bytes]:
    """The lines that the server was given, without their ends."""
    return (line[len(GIVEN) :].rstrip(b"\n") for line in lines_in(path, size) if line.startswith(GIVEN))


def told_in(path: Path, size: int) -> Iterator[bytes]:
    """The lines that the server wrote, with their ends."""
    return (line for line in lines_in(path, size) if not line.startswith(GIVEN))


def sessions_in(path: Path, size: int) -> List[str]:
    """The sessions that the record names, in the order in which it names them first."""
    names: Dict[str, None] = {}
    for line in given_in(path, size):
        try:
            command = json.loads(line)
        except (ValueError, RecursionError):
            continue
        name = command.get("session") if isinstance(command, dict) else None
        if isinstance(name, str) and name.replace("_", "a").isascii() and name.isidentifier():
            names[name] = None
    return list(names)


def write(file: BinaryIO, given: Sequence[bytes], answers: Sequence[Sequence[bytes]]) -> int:
    """Writes commands and their answers as a record; returns its size in bytes."""
    size = 0
    for line, answer in zip(given, answers):
        size += file.write(b"".join((GIVEN, line, b"\n", *answer)))
    return size


def copy_rest(path: Path, start: int, file: BinaryIO) -> int:
    """Copies what the front has recorded since, as long as that is much; returns the number of bytes."""
    copied = 0
    with path.open("rb") as record:
        record.seek(start)
        for _ in range(ROUNDS):
            left = os.fstat(record.fileno()).st_size - start - copied
            if left <= LEFT_MOST:
                break
            while left > 0:
                piece = record.read(min(CHUNK, left))
                if not piece:
                    return copied
                copied += file.write(piece)
                left -= len(piece)
    return copied
