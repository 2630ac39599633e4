"""The tools of metad, where they are installed with this package or are on the path."""

from __future__ import annotations

import json
import shutil
import subprocess
import sys
from contextlib import contextmanager
from os import fspath
from pathlib import Path
from typing import Any, Dict, Iterator, List, Optional, Sequence

from .errors import ClassFileRefused
from .programs import Word

CHECK_SECONDS = 60.0  # in which a class file has to be checked, else it is not explained why it is refused


def tool_beside(name: str) -> Optional[str]:
    """The tool of this name next to this package, as in a clone of the repository and where all is installed; None where
    the package is alone."""
    beside = Path(__file__).resolve().parents[2] / name
    return str(beside) if beside.is_file() else None


def check_words() -> Optional[List[str]]:
    """The words that start the tool that checks class files; None where it is not found."""
    beside, on_path = tool_beside("check"), shutil.which("metad-check")
    if beside is not None and sys.executable:
        return [sys.executable, beside]
    return None if on_path is None else [on_path]


@contextmanager
def explained(given: Sequence[Word]) -> Iterator[None]:
    """Has a `ClassFileRefused` that is raised meanwhile say where the first fault is, where one of these words is the path of
    the class file."""
    try:
        yield
    except ClassFileRefused as refused:
        refused.fault = fault_in(given[-1]) if given else ""
        raise


def fault_in(path: Word) -> str:
    """Where the first fault of a class file is and what it is, as the tool says it; empty where there is no tool, or it finds
    none."""
    words = check_words()
    if words is None:
        return ""
    null = subprocess.DEVNULL
    try:
        ran = subprocess.run(
            [*words, "--format", "json", fspath(path)],
            stdin=null, stdout=subprocess.PIPE, stderr=null, timeout=CHECK_SECONDS,
        )
        found = [json.loads(line) for line in ran.stdout.splitlines()]
        return next((fault_said(it) for it in found if it["named"]), "")
    except (OSError, ValueError, LookupError, TypeError, subprocess.SubprocessError):
        return ""


def fault_said(found: Dict[str, Any]) -> str:
    """What the tool has found, as a text: where it is in the file, and what it is."""
    parts = [f"{word} {found[key]}" for word, key in (("class", "class"), ("slot", "slot"), ("action", "action")) if found[key]]
    place = f"in {', '.join(parts)}: " if parts else ""
    path = f" ({found['path']})" if found["path"] else ""
    return f"{place}{found['message']}{path}"
