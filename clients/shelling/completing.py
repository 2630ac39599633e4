"""Completion of what is typed, from what the server knows, and the history of lines."""

from __future__ import annotations

import os
from pathlib import Path
from typing import List, Optional

import metad

from .form_commands import BEFORE_CLASS
from .forms import FORMS, OWN_FORMS, TRUTHS, WAYS
from .shell import Shell

try:
    import readline
except ImportError:  # lines can be typed all the same
    readline = None  # type: ignore[assignment]

DELIMITERS = " \t=<>+-&(,"  # between words that are completed
LINES_MOST = 1_000  # of the history
ALL_MOST, FEW = 4_096, 20  # the most objects whose numbers are offered, if a digit is typed and if nothing is
INNER_WORDS = ("in", "as", "to", "for", "name", "class", *WAYS, *TRUTHS)


class Completer:
    """Completes words as readline asks for it: one after the other, by their numbers."""

    def __init__(self, shell: Shell) -> None:
        self.shell = shell
        self.found: List[str] = []

    def __call__(self, word: str, state: int) -> Optional[str]:
        """The candidate of this number, or None after the last."""
        if state == 0:
            try:
                self.found = candidates(self.shell, readline.get_line_buffer()[: readline.get_begidx()], word)
            except metad.MetadError:
                self.found = []  # which the next line tells
        return self.found[state] if state < len(self.found) else None


def candidates(shell: Shell, before: str, word: str) -> List[str]:
    """What a word may be that begins so, after the words before it."""
    words = before.split()
    if "." in word:
        found = members(shell, word.split(".", 1)[0], is_first=not words)
    elif not words:
        found = [*(f"{it} " if " " in usage else it for it, usage in usages()), *(f"{it}." for it in names(shell))]
    elif words[-1] in (*BEFORE_CLASS, "class"):
        found = shell.classes()
    elif words[-1] == "help":
        found = [it for it, _ in usages()]
    elif words[-1] == "session":
        found = list(shell.sessions)
    elif words in (["ls"], ["tree"], ["show"]):
        found = [*names(shell), *numbers(shell, word)]
    else:
        found = [*names(shell), *numbers(shell, word), *INNER_WORDS]
    return sorted({it for it in found if it.startswith(word)})


def usages() -> List[List[str]]:
    """Each command with how it is written."""
    return [*([word, form.usage] for word, form in FORMS.items()), *([word, it[0]] for word, it in OWN_FORMS.items())]


def names(shell: Shell) -> List[str]:
    """The names of objects that are not known to have gone."""
    known = shell.known(shell.name)
    return [name for name, number in known.numbers.items() if number not in known.gone]


def numbers(shell: Shell, word: str) -> List[str]:
    """The numbers of objects that begin with what is typed. If nothing is typed, all numbers, but only of few objects."""
    if word and not word.isdigit():
        return []
    try:
        return shell.looking.numbers(ALL_MOST if word else FEW)
    except metad.Refused:
        return []  # by a server that does not tell them, or a session that has failed


def property_names(shell: Shell, number: int) -> List[str]:
    """The names of an object's properties, as far as they are known."""
    try:
        return shell.looking.property_names(number)
    except metad.Refused:
        return shell.scene().members(number, "properties")


def members(shell: Shell, label: str, is_first: bool) -> List[str]:
    """The methods and properties of an object; a method that takes values ends with a bracket."""
    scene = shell.scene()
    number = int(label) if label.isdigit() else scene.known.numbers.get(label)
    if number is None:
        return []
    methods = scene.methods(number)
    if is_first:
        methods = [it if it.endswith("()") else it[: it.index("(") + 1] for it in methods]
    return [f"{label}.{it}" for it in [*methods, *property_names(shell, number)]]


def history_path() -> Optional[Path]:
    """Where the history is kept; None where there is no home for it."""
    state = os.environ.get("XDG_STATE_HOME", "")
    try:
        folder = Path(state) if os.path.isabs(state) else Path.home() / ".local" / "state"
    except RuntimeError:
        return None
    return folder / "metad" / "history"


def prepare(shell: Shell) -> None:
    """Sets up completion, and takes up the history."""
    if readline is None:
        return
    readline.set_completer(Completer(shell))
    readline.set_completer_delims(DELIMITERS)
    is_other = "libedit" in (readline.__doc__ or "")
    readline.parse_and_bind("bind ^I rl_complete" if is_other else "tab: complete")
    readline.set_history_length(LINES_MOST)
    path = history_path()
    try:
        if path is not None:
            readline.read_history_file(path)
    except (OSError, ValueError):
        pass  # it does not exist yet, or cannot be read


def keep_history() -> None:
    """Writes the history, where that can be done."""
    path = history_path()
    if readline is None or path is None:
        return
    try:
        path.parent.mkdir(mode=0o700, parents=True, exist_ok=True)
        readline.write_history_file(path)
    except (OSError, ValueError):
        pass  # then it is not there
