"""The words and the exit status of the programs that measure."""

from __future__ import annotations

import sys
from pathlib import Path
from typing import Callable, Sequence, Tuple, Type

Faults = Tuple[Type[BaseException], ...]


def ended(name: str, work: Callable[[], object], faults: Faults) -> int:
    """Does the work of a program; the status is 1 where one of the faults ends it, which is then shown in one line."""
    try:
        work()
    except faults as error:
        print(f"{name}: {error}", file=sys.stderr)
        return 1
    except KeyboardInterrupt:
        return 130
    return 0


def measured(name: str, text: str, words: Sequence[str], measure: Callable[[str], object], faults: Faults) -> int:
    """Measures the program that is the only word. `--help` shows a text, and other words are status 2."""
    if len(words) != 1 or words[0].startswith("-"):
        is_help = list(words) == ["--help"]
        print(text if is_help else f"usage: {name} PROGRAM", file=sys.stdout if is_help else sys.stderr)
        return 0 if is_help else 2
    return ended(name, lambda: measure(str(Path(words[0]).resolve())), faults)
