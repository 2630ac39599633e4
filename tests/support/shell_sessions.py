"""Shell sessions of the documents: what is typed into `clients/shell`, and what the shell prints below each line.

A fenced block that begins with three backticks and the word `shell` is one run of the shell; what follows on that line are
words for the program. Lines with a prompt in front, as `a> `, are typed; the prompt names the session. A block that
begins with `json NAME` is a file, which the runs and recipes below it find by this name in their folder.
"""

import re
import subprocess
import sys
from dataclasses import dataclass
from functools import lru_cache
from pathlib import Path
from typing import List, Tuple

from .documents import BLOCK, line_number
from .program import ROOT, SECONDS

SHELL = ROOT / "clients" / "shell"
RUN = re.compile(rf"^```shell((?: .*)?)\n{BLOCK}```$", re.MULTILINE)
NAMED_FILE = re.compile(rf"^```json (\S+)\n{BLOCK}```$", re.MULTILINE)
TYPED = re.compile(r"^(\w+)> (.*)$")
GO_TO = re.compile(r"session (\w+)")
FIRST_SESSION = "a"
MARK = "help quit"  # typed after each line; what it prints, always the same, ends the line's answer


@dataclass
class ShellRun:
    """A block with a run of the shell: where it is, the words for the program, and its lines."""

    name: str
    words: Tuple[str, ...]
    lines: List[str]


def shell_runs_in(page: Path) -> List[ShellRun]:
    """The runs of the shell that a page shows."""
    text = page.read_text()
    return [ShellRun(f"{page.name}:{line_number(text, it)}", tuple(it[1].split()), it[2].splitlines()) for it in RUN.finditer(text)]


def lay_out_files(page: Path, room: str) -> None:
    """Writes the named files of a page into a folder."""
    for name, text in NAMED_FILE.findall(page.read_text()):
        Path(room, name).write_text(text)


def shell_said(program: str, words: Tuple[str, ...], given: str, room: str) -> str:
    """What the shell prints for an input."""
    line = [sys.executable, str(SHELL), program, *words]
    ran = subprocess.run(line, input=given, capture_output=True, text=True, cwd=room, timeout=SECONDS)
    return ran.stdout + ran.stderr


@lru_cache(maxsize=None)
def mark_said(program: str) -> str:
    """What the shell prints for the mark."""
    return shell_said(program, (), f"{MARK}\n", "/")


def shown_by(run: ShellRun, program: str, room: str) -> List[str]:
    """The lines that a run shows: each typed line after its prompt, and below it what the shell prints for it."""
    typed = [found[2] for found in map(TYPED.match, run.lines) if found]
    said = shell_said(program, run.words, "".join(f"{it}\n{MARK}\n" for it in typed), room)
    session, shown = FIRST_SESSION, []
    for line, answer in zip(typed, said.split(mark_said(program))):
        shown += [f"{session}> {line}", *answer.splitlines()]
        gone_to = GO_TO.fullmatch(line)
        session = gone_to[1] if gone_to else session
    return shown
