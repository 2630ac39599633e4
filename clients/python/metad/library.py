"""The library `libmetad` (include/metad.h) by `ctypes`: where it is found, and a server of it in the place of a connection's files.

It is imported when the first server is opened, since not every Python has `ctypes`.
"""

from __future__ import annotations

import ctypes
import time
from collections import deque
from functools import partial
from itertools import chain, count, tee
from os import fspath
from pathlib import Path
from typing import Any, Deque, Iterator, Optional, Tuple

from .errors import ClassFileRefused, LibraryMissing, NotStarted
from .programs import Word
from .streams import POPLEFT, READ_BYTES, Files

NAME = "libmetad.so.0"
DONE, BAD_CLASSES = 0, 1  # statuses, as in metad.h
REASONS = {4: "the system gave no random bytes", 5: "out of memory", 6: "out of memory"}
SIZE, POINTER = ctypes.c_size_t, ctypes.c_void_p
FUNCTIONS = {
    "open": [ctypes.POINTER(POINTER), ctypes.c_char_p, SIZE, ctypes.c_uint32, POINTER, POINTER],
    "lines": [POINTER, ctypes.c_char_p, SIZE, POINTER],
    "output": [POINTER, POINTER, SIZE, POINTER],
    "output_len": [POINTER],
    "close": [ctypes.POINTER(POINTER)],
    "version": [],
}
RESULTS = {"output_len": SIZE, "version": ctypes.c_char_p}


def reason(status: int) -> str:
    """What a status means, for people."""
    return REASONS.get(status, f"status {status}")


def places() -> Iterator[str]:
    """Where the library may be: in the clone of the repository that has this package, or where all is installed; then wherever
    the system looks."""
    above = Path(__file__).resolve().parents
    for folder in (above[3] / "bin", above[4] / "lib") if len(above) > 4 else ():
        if (folder / NAME).is_file():
            yield str(folder / NAME)
    yield NAME


def library_at(path: Optional[Word]) -> Any:
    """The library at this path, or where it is found, with the types of its functions. It raises `LibraryMissing` otherwise.

    Its calls hold the interpreter: no other thread can use the server meanwhile, and no signal handler runs.
    """
    tried = []
    for it in places() if path is None else (fspath(path),):
        try:
            library = ctypes.PyDLL(it)
            for name, given in FUNCTIONS.items():
                function = getattr(library, f"metad_{name}")
                function.argtypes, function.restype = given, RESULTS.get(name, ctypes.c_int)
            return library
        except (OSError, AttributeError) as error:
            tried.append(str(error))
    raise LibraryMissing(f"there is no library libmetad to open a server with ({'; '.join(tried)}): make library builds it")


def fetching(library: Any, server: Any, room: Any, length: Any) -> Tuple[Any, Any]:
    """The function that fetches answers into some room, given a pointer to their length; and then that which makes bytes of them,
    given what the first one returns. Their arguments are of the types that C has, so that they are not looked at in each call."""
    fetch, make = library["metad_output"], ctypes.pythonapi["PyBytes_FromStringAndSize"]
    make.restype = ctypes.py_object
    return partial(fetch, server, room, SIZE(READ_BYTES)), partial(make, room, length)


class Inside(Files):
    """A server of the library, in the place of the files of a connection.

    As there, each method changes something by one call at most, which happens as a whole or not at all, whatever signal comes.
    """

    def __init__(self, library: Any, classes: bytes, turns: int) -> None:
        self._library, self._server = library, POINTER()
        self._read: Deque[bytes] = deque()
        self._statuses: Deque[int] = deque()  # other than 0, of lines that were given
        length = SIZE()
        self._lengths = (ctypes.byref(length),)
        self._fetch, self._fetched = fetching(library, self._server, ctypes.create_string_buffer(READ_BYTES), length)
        fault = (ctypes.c_uint32 * 2)()
        status = library.metad_open(ctypes.byref(self._server), classes, len(classes), turns, None, ctypes.byref(fault))
        if status == BAD_CLASSES:
            raise ClassFileRefused(status, f"class file refused: C0{fault[0]} in class {fault[1]}")
        if status != DONE:
            raise NotStarted(status, reason(status))

    def failure(self) -> Optional[Tuple[int, str]]:
        """The first status other than 0 of what was given, and what it means: the server is not asked for more then."""
        status = next(iter(self._statuses), DONE)
        return (status, reason(status)) if status else None

    def wait(self, seconds: float, is_writing: bool) -> bool:
        if self._read or self._statuses or self._library.metad_output_len(self._server):
            return True
        if not is_writing:
            time.sleep(max(seconds, 0))
        return False

    def read(self, came: Deque[Tuple[int, bytes]], numbers: count[int]) -> bool:
        is_open = super().read(came, numbers)
        return is_open and not (self._statuses and not self._read and not self._library.metad_output_len(self._server))

    def _receiving(self) -> Iterator[bytes]:
        """What was answered, as far as there is room for it, when it is gone through."""
        return filter(None, map(self._fetched, map(self._fetch, self._lengths)))

    def can_write(self) -> bool:
        return True

    def write(self, parts: Deque[bytes]) -> None:
        texts, counted = tee(map(POPLEFT, (parts,)))
        self._statuses.extend(filter(None, map(self._library.metad_lines, (self._server,), texts, map(len, counted), (None,))))

    def writing(self, part: bytes) -> Iterator[Any]:
        calls = map(self._library.metad_lines, (self._server,), (part,), (len(part),), (None,))
        return map(self._statuses.append, filter(None, calls))

    def answering(self, line: bytes) -> Iterator[Any]:
        """Gives a line and keeps what was answered, as far as there is room for it, when it is gone through."""
        return chain(self.writing(line), map(self._read.extend, (self._receiving(),)))

    def end(self) -> None:
        """Keeps what was answered, and frees the server."""
        while self._library.metad_output_len(self._server):
            self._read.extend(self._receiving())
        self._library.metad_close(ctypes.byref(self._server))
