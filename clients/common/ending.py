"""How a program ends: its exit status, and what it says on standard error."""

from __future__ import annotations

import os
import sys
from typing import Callable


class Stop(Exception):
    """The end of a run that cannot go on: what is to be said on standard error."""

    status = 0  # of the program; 0 leaves it to the program


def leave_output() -> None:
    """Nothing more is written, at the end of Python neither."""
    if sys.stdout is not None:
        os.dup2(os.open(os.devnull, os.O_WRONLY), sys.stdout.fileno())


def complain(name: str, message: str) -> None:
    """Says on standard error, where that is open, why a program cannot do something."""
    if sys.stderr is not None:
        text = f"{name}: {message}\n"
        sys.stderr.write(text.encode("utf-8", "backslashreplace").decode())
        sys.stderr.flush()


def ended(name: str, work: Callable[[], int], unable: int = 1, unread: int = 0) -> int:
    """Does the work of a program and answers the exit status: `unable` if the output cannot be written, and `unread` if its
    reader has gone."""
    status = unable
    try:
        return work()
    except Stop as stop:
        status, message = stop.status or unable, str(stop)
    except BrokenPipeError:
        leave_output()
        return unread
    except OSError as error:
        leave_output()
        message = f"standard output cannot be written: {error.strerror}"
    except KeyboardInterrupt:
        return 130
    complain(name, message)
    return status
