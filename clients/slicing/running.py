"""The program, where it is found, and runs of it."""

from __future__ import annotations

import subprocess
from dataclasses import dataclass
from pathlib import Path
from typing import List, Optional

from common.ending import Stop

ABOVE = (2, 3)  # how far above this file the folder of `bin` is: in the repository, and where it is installed


def program_beside() -> str:
    """The program next to this tool, or the one on the path."""
    folders = Path(__file__).resolve().parents
    beside = [folders[above] / "bin" / "metad" for above in ABOVE if above < len(folders)]
    return next((str(it) for it in beside if it.is_file()), "metad")


@dataclass(frozen=True)
class Program:
    """The program, with the class file and the turns that it is given in each run."""

    path: str
    classes: Optional[str] = None
    turns: Optional[str] = None

    def words(self) -> List[str]:
        turns = [] if self.turns is None else [f"--turns={self.turns}"]
        return turns + ([] if self.classes is None else ["--", self.classes])

    def told(self, given: bytes) -> bytes:
        """What it writes for an input."""
        return self.run(given)

    def slice(self, given: bytes, name: str) -> bytes:
        """The lines of an input that can affect what a session receives."""
        return self.run(given, f"--slice={name}")

    def run(self, given: bytes, *options: str) -> bytes:
        """What it writes, where it ends well. Otherwise it says why on standard error."""
        try:
            ran = subprocess.run([self.path, *options, *self.words()], input=given, stdout=subprocess.PIPE)
        except (OSError, ValueError) as error:
            raise Stop(f"{self.path} cannot be started: {getattr(error, 'strerror', None) or error}") from None
        if ran.returncode < 0:
            raise Stop(f"{self.path} was ended by signal {-ran.returncode}")
        if ran.returncode:
            raise Stop(f"{self.path} has ended with status {ran.returncode}")
        written: bytes = ran.stdout
        return written
