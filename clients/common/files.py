"""The files that programs read, and the lines that they write."""

from __future__ import annotations

from typing import BinaryIO, Callable, Iterator, Union

from .ending import Stop

Said = Union[bytes, str]
"""A line without its end: of bytes as they are, or of words."""


def opened(path: str) -> BinaryIO:
    """A file that is to be read; `Stop` where it cannot be opened."""
    try:
        return open(path, "rb")
    except (OSError, ValueError) as error:
        raise Stop(f"{path} cannot be opened: {getattr(error, 'strerror', None) or error}") from None


def lines_of(file: BinaryIO, name: str) -> Iterator[bytes]:
    """The lines of a file, as they come; `Stop` where it cannot be read."""
    try:
        yield from iter(file.readline, b"")
    except OSError as error:
        raise Stop(f"{name} cannot be read: {error.strerror}") from None


def whole(path: str) -> bytes:
    """The bytes of a file."""
    with opened(path) as file:
        return b"".join(lines_of(file, path))


def writer(stream: BinaryIO) -> Callable[[Said], None]:
    """What writes a line, and holds nothing back."""

    def say(line: Said) -> None:
        stream.write((line if isinstance(line, bytes) else line.encode("utf-8", "backslashreplace")) + b"\n")
        stream.flush()

    return say
