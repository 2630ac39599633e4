"""The lines that metad writes, and those that a front adds for a live session, and what each of them means."""

from __future__ import annotations

from dataclasses import dataclass
from typing import Any, Callable, Collection, Dict, NoReturn

from common.changes import LINE_CODES
from common.objects import Misfit

from . import replies
from .commands import IS_META, IS_SPIN, IS_STATUS, Command
from .faults import faults_in
from .held import Holds, has, is_any, is_list, is_number, is_text, is_whole, json_object
from .words import arguments, coded, in_error, listed, misfit, plain, shown

NO_SESSION = "-"  # what a line names where its command names no session
NO_COMMAND, NO_OBJECT = "E02", "E04"
NO_TURNS = "E23"  # the one warning that names no object
Missing = Callable[[str, Collection[int]], str]  # says which of some objects of a session are missing
SAID = ((IS_SPIN, replies.said_of_spin), (IS_STATUS, replies.said_of_status), (IS_META, replies.said_of_meta))


@dataclass(frozen=True)
class Line:
    """What the program writes: a reply, an error, a call or a warning."""

    session: str

    ends = False  # whether its command ends with it

    def said(self) -> str:
        """What it means, whichever command it answers."""
        raise NotImplementedError

    def said_to(self, command: Command) -> str:
        """What it means where it answers this command."""
        return self.said()


@dataclass(frozen=True)
class Reply(Line):
    reply: Any

    ends = True

    def said(self) -> str:
        for holds, said in SAID:
            if holds(self.reply):
                return said({}, self.reply)
        if is_list(self.reply):
            return f"done, and the reply is a list: {listed(map(shown, self.reply)) or 'nothing'}"
        return f"done, and the reply is {'null, for nothing' if self.reply is None else shown(self.reply)}"

    def said_to(self, command: Command) -> str:
        form = command.form()
        if form is None:
            return f"{plain(command.word)} is {self.said()}" if command.word else misfit()
        return form.said(command.asked, self.reply) if form.reply(self.reply) else misfit()


@dataclass(frozen=True)
class Error(Line):
    error: str

    ends = True

    def said(self) -> str:
        if self.error == "E21" and self.session == NO_SESSION:
            return coded(self.error, "there was no memory to read the line")
        return coded(self.error)

    def said_to(self, command: Command, missing: Missing | None = None) -> str:
        """What it means where it answers this command; it is known which of the objects that this names are missing."""
        if self.error in LINE_CODES:
            return self.said()
        form = command.form()
        meaning: str | None = None
        if form and self.error == NO_OBJECT and missing:
            meaning = missing(self.session, command.objects() or misfit())
        elif form and self.error in form.refused:
            meaning = form.refused[self.error].format_map(Asked(command.asked))
        return f"{plain(command.word)} is refused, {coded(self.error, meaning)}"

    def faults(self, command: Command) -> list[str]:
        """What is wrong with the command that it answers, where the code is for its form."""
        return faults_in(command.raw) if self.error == NO_COMMAND else []


class Asked(Dict[str, Any]):
    """What a command holds, for sentences about it."""

    def __getitem__(self, key: str) -> Any:
        held = super().__getitem__(key)
        return plain(held) if is_text(held) else held

    def __missing__(self, key: str) -> NoReturn:
        raise Misfit


@dataclass(frozen=True)
class Call(Line):
    call: str
    object: int
    sender: int
    args: list[Any]

    def said(self) -> str:
        by = f"object {self.sender}" if self.sender else "a command or a post"
        called = "slot" if "(" in self.call else "functor"
        return f"object {self.object}: {called} {plain(self.call)} called by {by}, {arguments(self.args)}"


@dataclass(frozen=True)
class Warned(Line):
    """A warning: of an object whose slot or functor was refused an action, or that no turn is left."""

    warning: str
    object: int = 0

    def said(self) -> str:
        if self.warning == NO_TURNS:
            return f"{coded(self.warning)}, so what is still to be called is not called, and events stay where they are"
        refused = f"object {self.object}: an action of its slot or functor is refused, {coded(self.warning)}"
        return f"{refused}, or its signal is nested too deep and calls nothing" if self.warning == "E14" else refused


@dataclass(frozen=True)
class InError(Line):
    """A warning of a bound property that is in an error, which is new or another one."""

    object: int
    property: str
    warning: str

    def said(self) -> str:
        return f"{plain(self.property)} of object {self.object} is in error, {in_error(self.warning)}"


@dataclass(frozen=True)
class OfFront(Line):
    """The result of a `spin` that a front has given for a live session. It answers no command of the client."""

    front: str
    reply: Any = None
    error: str = ""

    def said(self) -> str:
        if self.error:
            return f"the front's own spin is refused, {coded(self.error)}; events do not come by themselves any more"
        return f"by the front's own spin: {replies.said_of_spin({}, self.reply)}"


LINES: list[tuple[type[Line], dict[str, Holds]]] = [
    (Reply, {"reply": is_any, "session": is_text}),
    (Error, {"error": is_text, "session": is_text}),
    (OfFront, {"front": lambda word: bool(word == "spin"), "reply": IS_SPIN, "session": is_text}),
    (OfFront, {"error": is_text, "front": lambda word: bool(word == "spin"), "session": is_text}),
    (Call, {"args": is_list, "call": is_text, "object": is_number, "sender": is_whole, "session": is_text}),
    (Warned, {"object": is_number, "session": is_text, "warning": lambda code: is_text(code) and code != NO_TURNS}),
    (Warned, {"session": is_text, "warning": lambda code: bool(code == NO_TURNS)}),
    (InError, {"object": is_number, "property": is_text, "session": is_text, "warning": is_text}),
]


def line_of(raw: bytes) -> Line | None:
    """The line that some bytes are, or None."""
    held = json_object(raw)
    for kind, keys in LINES:
        if held is not None and held.keys() == keys.keys() and has(**keys)(held):
            return kind(**held)
    return None
