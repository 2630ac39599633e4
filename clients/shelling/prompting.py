"""The prompt of a terminal, which is hidden while a message is shown, and then shown again with the typed line."""

from __future__ import annotations

import ctypes
import sys
from contextlib import contextmanager
from typing import Callable, Iterator, Optional

try:
    import readline
except ImportError:  # lines can be typed all the same
    readline = None  # type: ignore[assignment]

AT_A_PROMPT, COMPLETING = 0x80000, 0x4000  # of `rl_readline_state`, in readline.h
CLEAR = b"\r\x1b[K"


class Editor:
    """The functions of the line editor that Python has loaded, as far as Python's module does not offer them."""

    def __init__(self) -> None:
        library = ctypes.CDLL(readline.__file__)
        self._clear: Callable[[], int] = library.rl_clear_visible_line
        self._begin: Callable[[], int] = library.rl_on_new_line
        self._show: Callable[[], int] = library.rl_forced_update_display
        self._state = ctypes.c_ulong.in_dll(library, "rl_readline_state")
        self._flush = ctypes.CDLL(None).fflush

    def is_reading(self) -> bool:
        """Whether a line is being typed, and not completed at this moment."""
        return bool(self._state.value & AT_A_PROMPT) and not self._state.value & COMPLETING

    def clear(self) -> None:
        """Removes the prompt and the typed text from the screen."""
        self._clear()
        self._flush(None)

    def show(self) -> None:
        """Shows them again, with the cursor at its place."""
        self._begin()
        self._show()
        self._flush(None)


def editor() -> Optional[Editor]:
    """The line editor, if it has all that is needed: GNU readline has, as a library."""
    try:
        return None if readline is None else Editor()
    except (AttributeError, OSError, TypeError, ValueError):
        return None


class Prompt:
    """Asks for lines at a terminal."""

    def __init__(self) -> None:
        self.is_shown = False
        """Whether a line is being typed."""
        self._text = ""
        self._editor = editor()

    def ask(self, text: str) -> str:
        """Shows a prompt, and returns the line that is typed."""
        self._text = text
        if readline is None:
            self.is_shown = True
        else:
            readline.set_pre_input_hook(self._begin)
        try:
            return input(text)
        finally:
            self.is_shown = False

    def _begin(self) -> None:
        """Is called when the prompt is shown."""
        self.is_shown = True

    def can_be_hidden(self) -> bool:
        """Whether a line is being typed that can make room now."""
        return self.is_shown and (self._editor is None or self._editor.is_reading())

    @contextmanager
    def hidden(self) -> Iterator[None]:
        """Hides the prompt and the typed text meanwhile, if they are shown."""
        if not self.is_shown:
            yield
            return
        self.is_shown = False
        self._clear()
        try:
            yield
        finally:
            self._show()
            self.is_shown = True

    def _clear(self) -> None:
        if self._editor is not None:
            self._editor.clear()
        else:
            self._write(b"\n" if readline is None else CLEAR)

    def _show(self) -> None:
        if self._editor is not None:
            self._editor.show()
        else:
            typed = "" if readline is None else readline.get_line_buffer()
            self._write(f"{self._text}{typed}".encode("utf-8", "surrogateescape"))

    def _write(self, data: bytes) -> None:
        sys.stdout.buffer.write(data)
        sys.stdout.buffer.flush()
