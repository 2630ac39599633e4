"""What the words of the command line ask for, and how a run ends."""

from __future__ import annotations

import argparse
import os
import sys
from bisect import bisect_right
from typing import Callable

from common.ending import Stop, complain, ended
from common.options import NAME, parser_of

from .files import MOST_BYTES, Checked, checked
from .findings import Finding, Findings, Mistake
from .words import counted, plain, shown_json

INPUT = "-"  # the word for standard input
FINE, FAULTY, UNABLE = 0, 1, 2  # the exit statuses
COLOURS = {True: "\033[31m", False: "\033[33m"}  # of faults and of warnings
MARKED, PLAIN = "\033[1m", "\033[0m"

HELP = """\
Faults are what metad refuses a class file for. docs/PROTOCOL.md lists their codes, C01 to C09. metad reports only the
first fault in its own order of reading, which may not be the first in the file: that one is marked. If the file is no
JSON or too large, nothing else is checked.

Warnings are about things that metad accepts but that are probably mistakes. Except for W01, they are checked only if
there is no fault.
{mistakes}
An object that is named by sender, child or a number may have any class of the file. self has the class of the slot, or
a class below it. A property that no class declares is warned about if its name is similar to a declared one and it is
not both written and read; with --declared it always is.

With --format json, each finding is a line with the keys file, line, column, path, code, severity (error or warning),
message, class, slot, action and named (true if metad reports this fault). Lines and columns count from 1; a column is
one character. Text is coloured on a terminal, unless NO_COLOR is set.

Exit status: 0 if no file has a fault; 1 if one has (with --strict also for a warning); 2 if a file cannot be read or
the output cannot be written, and after a mistake in the command line."""


class Words(argparse.Namespace):
    """The words of the command line."""

    files: list[str]
    format: str
    strict: bool
    declared: bool
    help: bool


def parser() -> argparse.ArgumentParser:
    codes = "\n".join(f"  {code}: {meaning}" for code, meaning in (it.value for it in Mistake))
    made = parser_of(NAME, "Says what is wrong in class files of metad, and where.", HELP.format(mistakes=codes))
    made.add_argument("files", metavar="FILE", nargs="*", help="a class file; - is standard input")
    made.add_argument("--strict", action="store_true", help="end with status 1 where there are warnings")
    made.add_argument("--declared", action="store_true", help="warn of all properties that no class declares")
    made.add_argument("--format", choices=("text", "json"), default="text", help="how findings are written; text if not said")
    return made


def words() -> Words:
    made = parser()
    given = made.parse_args(namespace=Words())
    if not given.files and not given.help:
        made.error("a class file is wanted, or - for standard input")
    return given


# What is found, as it is written.


class Places:
    """The lines of a text."""

    def __init__(self, text: str) -> None:
        self.starts = [0] + [at + 1 for at, character in enumerate(text) if character == "\n"]

    def of(self, at: int) -> tuple[int, int]:
        """The line and the column of a character, from 1."""
        line = bisect_right(self.starts, at)
        return line, at - self.starts[line - 1] + 1


class Written:
    """How the findings of a file are written."""

    def __init__(self, name: str, found: Checked, is_coloured: bool) -> None:
        self.name = name
        self.findings = found.findings
        self.first = found.findings.first()
        self.places = Places(found.text)
        self.is_coloured = is_coloured

    def painted(self, text: str, colour: str) -> str:
        return f"{colour}{text}{PLAIN}" if self.is_coloured else text

    def json(self, it: Finding) -> str:
        line, column = self.places.of(it.node.at)
        return shown_json({
            "file": self.name, "line": line, "column": column, "path": it.node.path(), "code": it.code,
            "severity": severity(it), "message": it.words, "class": it.place.class_name, "slot": it.place.signature,
            "action": it.place.action, "named": it is self.first,
        })

    def text(self, it: Finding) -> str:
        line, column = self.places.of(it.node.at)
        where = self.painted(f"{self.name}:{line}:{column}:", MARKED)
        kind = self.painted(f"{severity(it)} {it.code}", COLOURS[it.is_fault])
        mark = " (metad names this fault)" if it is self.first else ""
        path = f" [{it.node.path()}]" if it.node.path() else ""
        return f"{where} {kind}{place_in_words(it)}: {it.words}{path}{mark}"

    def summary(self) -> str:
        """How much is found, and what metad says of the file."""
        first, faults = self.first, len(self.findings.faults())
        found = f"{counted(faults, 'fault')}, {counted(len(self.findings.found) - faults, 'warning')}"
        said = f"metad refuses it: {first.code} at class {first.place.number}" if first else "metad takes it"
        return f"{self.name}: {found}; {said}"


def severity(it: Finding) -> str:
    return "error" if it.is_fault else "warning"


def place_in_words(it: Finding) -> str:
    """The class, the slot and the action of a finding; empty outside classes."""
    place = it.place
    if not place.number:
        return ""
    parts = [f"class {plain(place.class_name or str(place.number))}"]
    parts += [f"slot {plain(place.signature or str(place.slot))}"] if place.slot else []
    parts += [f"action {place.action}"] if place.action else []
    return " in " + ", ".join(parts)


# The run.


def bytes_of(path: str) -> bytes:
    """The bytes of a file, at most one more than a class file may have; raises `OSError` or `ValueError`."""
    if path == INPUT:
        if sys.stdin is None:
            raise Stop("standard input has to be open")
        return sys.stdin.buffer.read(MOST_BYTES + 1)
    with open(path, "rb") as file:
        return file.read(MOST_BYTES + 1)


def is_coloured() -> bool:
    return sys.stdout.isatty() and not os.environ.get("NO_COLOR") and os.environ.get("TERM") != "dumb"


def writer() -> Callable[[str], None]:
    """What writes a line."""
    if sys.stdout is None:
        raise Stop("standard output has to be open")
    stream = sys.stdout.buffer

    def say(line: str) -> None:
        stream.write(line.encode("utf-8", "backslashreplace") + b"\n")

    return say


def tell(name: str, found: Checked, given: Words, say: Callable[[str], None]) -> int:
    """Writes what is found in a file; answers the exit status that it asks for."""
    shown = "<standard input>" if name == INPUT else name
    written = Written(shown, found, given.format == "text" and is_coloured())
    for it in found.findings.in_order():
        say(written.json(it) if given.format == "json" else written.text(it))
    if given.format == "text":
        say(written.summary())
    findings: Findings = found.findings
    return FAULTY if findings.faults() or given.strict and findings.found else FINE


def told(given: Words) -> int:
    """Checks all files, or shows the help; answers the exit status."""
    say = writer()
    if given.help:
        say(parser().format_help().rstrip("\n"))
        sys.stdout.buffer.flush()
        return FINE
    status = FINE
    for name in given.files:
        try:
            raw = bytes_of(name)
        except (OSError, ValueError) as error:
            complain(NAME, f"{name} cannot be read: {getattr(error, 'strerror', None) or error}")
            status = UNABLE
        else:
            status = max(status, tell(name, checked(raw, given.declared), given, say))
        sys.stdout.buffer.flush()
    return status


def main() -> int:
    return ended(NAME, lambda: told(words()), UNABLE, UNABLE)
