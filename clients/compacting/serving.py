"""A server that commands are given to, and that nobody else uses."""

from __future__ import annotations

import subprocess
import threading
from typing import Any, Callable, Iterable, Iterator, List, Sequence

ANSWERS = (b'{"reply":', b'{"error":')


class Stop(Exception):
    """Why a run ends, as a text for people."""


class Kept(Exception):
    """Why a record is not compacted, as a text without anything that a client has written."""


class Server:
    """A server with pipes to and from it."""

    def __init__(self, words: Sequence[str]) -> None:
        try:
            self.process = subprocess.Popen(words, stdin=subprocess.PIPE, stdout=subprocess.PIPE)
        except OSError as error:
            raise Stop(f"{words[0]} cannot be started: {error.strerror}") from None

    def __enter__(self) -> Server:
        return self

    def __exit__(self, *_error: Any) -> None:
        self.process.kill()
        self.process.communicate()

    def answers(self, lines: Callable[[], Iterable[bytes]]) -> Iterator[List[bytes]]:
        """Gives the server lines; yields what it writes for each, up to its answer."""
        writer = threading.Thread(target=self.write, args=(lines(),), daemon=True)
        writer.start()
        for _ in lines():
            yield self.answer()
        writer.join()

    def write(self, lines: Iterable[bytes]) -> None:
        pipe = self.process.stdin
        assert pipe is not None
        try:
            for line in lines:
                pipe.write(line + b"\n")
            pipe.flush()
        except OSError:
            pass  # it has ended, as the end of its output shows

    def answer(self) -> List[bytes]:
        """What the server writes for its next line."""
        assert self.process.stdout is not None
        found: List[bytes] = []
        while not found or not found[-1].startswith(ANSWERS):
            line = self.process.stdout.readline()
            if not line:
                raise Kept("the server has ended")
            found.append(line)
        return found

    def ask(self, lines: Sequence[bytes]) -> List[List[bytes]]:
        """What the server writes for each of these lines."""
        return list(self.answers(lambda: lines))
