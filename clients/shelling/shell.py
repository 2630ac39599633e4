"""What a line of the shell does."""

from __future__ import annotations

import json
import re
from functools import partial
from pathlib import Path
from typing import Any, Callable, Dict, List, Mapping, Optional, Set

import metad
from common.asked import named_in, objects_of
from common.changes import FAILED, lose
from explaining.faults import faults_of, is_name
from explaining.refusing import missing_said

from .forms import FORMS, OBJECT_FORMS, OWN_FORMS, Request, request_of, strange
from .known import Known
from .link import Link, reason
from .looking import Looking
from .reading import NAME, Mistake, Words
from .saying import Speaker, advice, call_said, refusal_said, reply_said, warning_said
from .scene import Meta, Scene

BLANK = b" \t\r"
NO_OBJECT = "E04"
NO_COMMAND = "E02"
FIRST_CLASSES = ("QObject", "Cell", "Probe")  # of every server, and of one without a class file
OF_LINES = {"{..}": "a line that begins with a brace is sent as it is", "# ..": "does nothing"}


class Shell:
    """A server, the session that is spoken for, and what is known of all of them."""

    def __init__(self, link: Link, speaker: Speaker, name: str, is_strict: bool = False) -> None:
        self.link = link
        self.speaker = speaker
        self.name = name
        self.is_strict = is_strict
        self.is_over = False
        self.was_refused = False
        self.sessions: Dict[str, metad.Session] = {}
        self.knowns: Dict[str, Known] = {}
        self.metas: Dict[str, Meta] = {}
        self.seen: Set[str] = set()  # classes that were named
        self.looking = Looking(self)
        self.own: Dict[str, Callable[[str], None]] = {
            "ls": self.looking.list,
            "tree": self.looking.draw,
            "show": self.looking.show,
            "session": self.go_to,
            "names": self.list_names,
            "save": self.save,
            "save!": self.save_over,
            "run": self.run,
            "help": self.help,
            "quit": self.leave,
        }

    # ---- what is known ----

    def known(self, name: str) -> Known:
        """What is known of a session."""
        return self.knowns.setdefault(name, Known())

    def session(self, name: str) -> metad.Session:
        """A session, whose calls and warnings are said."""
        if name not in self.sessions:
            hear = partial(self.hear_call, name), partial(self.hear_warning, name)
            self.sessions[name] = self.link.server.session(name, *hear)
        return self.sessions[name]

    def scene(self) -> Scene:
        """What the next line can name."""
        return Scene(self.known(self.name), self.meta_of, self.looking.class_of)

    def meta_of(self, class_name: str) -> Optional[Meta]:
        """What there is in a class, where the server tells it."""
        if class_name not in self.metas:
            try:
                self.metas[class_name] = self.link.ask_aside(self.session(self.name), "meta", {"class": class_name})
            except metad.Refused:
                return None
        self.seen.add(class_name)
        return self.metas[class_name]

    def classes(self) -> List[str]:
        """The classes that there are, or where the server does not tell those that were named and that a first user finds."""
        try:
            return [str(it) for it in self.looking.ask("classes")]
        except metad.Refused:
            names = [*FIRST_CLASSES, *sorted(self.seen)]
        return [it for it in dict.fromkeys(names) if it in self.seen or self.meta_of(it) is not None]

    def stands(self, name: str, number: int) -> bool:
        """Whether a session has an object."""
        try:
            self.link.ask_aside(self.session(name), "children", {"object": number})
        except metad.Refused as refused:
            return refused.code not in (NO_OBJECT, FAILED)
        return True

    # ---- what is said ----

    def say(self, kind: str, text: str, name: Optional[str] = None) -> None:
        """Says something of a session, which is named where it is not the one that is spoken for."""
        self.speaker.say(kind, text if name in (None, self.name) else f"{name}: {text}")

    def hear_call(self, name: str, call: metad.Call) -> None:
        """Says that a slot or a functor is called."""
        self.say("call", call_said(call, self.known(name)), name)

    def hear_warning(self, name: str, warned: metad.Warned) -> None:
        """Says a warning."""
        self.say("warning", warning_said(warned, self.known(name)), name)

    def refuse(self, text: str, further: List[str], name: Optional[str] = None) -> None:
        """Says that a line was refused, by the server or before it was sent."""
        self.was_refused = True
        self.is_over = self.is_over or self.is_strict
        self.say("refusal", text, name)
        for it in further:
            self.say("note", f"    {it}", name)

    # ---- what a line does ----

    def do(self, line: bytes) -> None:
        """Does a line; one that is blank or begins with `#` does nothing."""
        try:
            if line.lstrip(BLANK).startswith(b"{"):
                self.give_line(line)
            else:
                self.do_short(text_of(line))
        except Mistake as mistake:
            self.refuse(f"not sent: {mistake}", [])

    def do_short(self, text: str) -> None:
        """Does what is no line of JSON."""
        if not text or text.startswith("#"):
            return
        word, *rest = text.split(None, 1)
        if word in self.own:
            self.own[word]("".join(rest))
            return
        try:
            request = request_of(text, self.scene())
        except Mistake as mistake:
            form = FORMS.get(word)
            self.refuse(f"not sent: {mistake}", [] if form is None else [f"write: {form.usage}"])
            return
        self.give(request)

    def give(self, request: Request) -> None:
        """Gives the command of a short form."""
        asked = {**request.keys, "do": request.do, "session": self.name}
        self.answer(self.name, asked, lambda: self.link.ask(self.session(self.name), request.do, request.keys), request.name)

    def give_line(self, line: bytes) -> None:
        """Gives a line as it is."""
        asked = json_of(line)
        named = asked.get("session") if isinstance(asked, dict) else None
        name = named if isinstance(named, str) and is_name(named) and not self.link.is_fronted else self.name
        self.answer(name, asked, lambda: self.link.ask_line(self.session(name), line))

    def answer(self, name: str, asked: Any, ask: Callable[[], Any], called: Optional[str] = None) -> None:
        """Asks, and says what the answer means."""
        held: Mapping[str, Any] = asked if isinstance(asked, dict) else {}
        try:
            reply = ask()
        except metad.Refused as refused:
            self.refuse_command(name, asked, held, refused.code)
            return
        known = self.known(name)
        known.heed(held, reply)
        if isinstance(held.get("class"), str):
            self.seen.add(held["class"])
        said = reply_said(held, reply, known)
        if called is not None and reply is not None:
            known.give(called, reply)
            said = f"{said}; it is {called}"
        self.say("reply", said, name)

    def refuse_command(self, name: str, asked: Any, held: Mapping[str, Any], code: str) -> None:
        """Says why the server has refused a command."""
        known = self.known(name)
        lose(known, code)
        missing = self.missing(name, held) if code == NO_OBJECT else []
        said = f"refused, {code}: {' and '.join(missing)}" if missing else refusal_said(held, code, known)
        self.refuse(said, advice(code, faults_of(asked) if code == NO_COMMAND else []), name)

    def missing(self, name: str, asked: Mapping[str, Any]) -> List[str]:
        """Which of the objects that a command names are not there."""
        known = self.known(name)
        numbers = dict.fromkeys([*named_in(asked), *sorted(objects_of(asked.get("to")))])
        lacking = [it for it in numbers if not self.stands(name, it)]
        known.miss(lacking)
        return [missing_said(it, it in known.classes, known.label(it)) for it in lacking]

    # ---- the shell's own words ----

    def go_to(self, rest: str) -> None:
        """Speaks for another session from here on."""
        name = only(rest, "the name of a session")
        if self.link.is_fronted:
            own = self.session(self.name).known_as
            raise Mistake(f"behind a front there is one session{'' if own is None else f', {own}'}")
        self.name = name

    def list_names(self, rest: str) -> None:
        """Lists the names, and asks whether their objects exist."""
        none_behind(rest)
        known = self.known(self.name)
        for name, number in known.numbers.items():
            if number not in known.gone and not self.stands(self.name, number):
                known.gone.add(number)
            state = "gone" if number in known.gone else f"of class {known.classes.get(number, 'unknown')}"
            self.say("reply", f"{name}: object {number}, {state}")
        if not known.numbers:
            self.say("reply", "no names were given")

    def save(self, rest: str) -> None:
        """Writes the lines that were sent into a new file."""
        self.write_into(path_of(rest), "xb")

    def save_over(self, rest: str) -> None:
        """Writes the lines that were sent into a file, over what is there."""
        self.write_into(path_of(rest), "wb")

    def write_into(self, path: Path, mode: str) -> None:
        """Writes the lines that were sent into a file, which is opened so."""
        try:
            with path.open(mode) as file:
                file.write(b"".join(self.link.tap.kept))
        except FileExistsError:
            raise Mistake(f"{path} exists already; `save! {path}` writes over it") from None
        except (OSError, ValueError) as error:
            raise Mistake(f"{path} cannot be written: {reason(error)}") from None
        count = len(self.link.tap.kept)
        self.say("note", f"{count} line{'' if count == 1 else 's'} in {path}")

    def run(self, rest: str) -> None:
        """Sends the lines of a file as they are, except those that the server passes over."""
        path = path_of(rest)
        try:
            lines = path.read_bytes().split(b"\n")
        except (OSError, ValueError) as error:
            raise Mistake(f"{path} cannot be read: {reason(error)}") from None
        for line in lines:
            if line.strip(BLANK) and not self.is_over:
                self.give_line(line)

    def help(self, rest: str) -> None:
        """Says how a command is written and what it does, or all of them."""
        forms = {word: (form.usage, form.does) for word, form in FORMS.items()}
        forms.update(OWN_FORMS)
        if rest:
            if rest not in forms:
                raise Mistake(strange(rest, list(forms)))
            usage, does = forms[rest]
            self.say("reply", usage)
            self.say("note", f"    {does}")
            return
        for usage, does in [*OBJECT_FORMS.items(), *forms.values(), *OF_LINES.items()]:
            self.say("reply", usage)
            self.say("note", f"    {does}")

    def leave(self, rest: str) -> None:
        """Ends the shell after this line."""
        none_behind(rest)
        self.is_over = True


def text_of(line: bytes) -> str:
    """The text of a line."""
    try:
        return line.decode().strip()
    except UnicodeDecodeError:
        raise Mistake("the line is no UTF-8") from None


def json_of(line: bytes) -> Any:
    """What a line holds as JSON; None where it is not JSON."""
    try:
        return json.loads(line.decode())
    except (ValueError, RecursionError):
        return None


def only(rest: str, wanted: str) -> str:
    """The one name in the rest of a line."""
    words = Words(rest)
    name = words.take(NAME, wanted)
    words.end()
    if not is_name(name):
        raise Mistake(f"wanted is {wanted}, of at most 64 letters")
    return name


def none_behind(rest: str) -> None:
    """Says that nothing may be in the rest of a line."""
    Words(rest).end()


def path_of(rest: str) -> Path:
    """The path in the rest of a line."""
    if not rest:
        raise Mistake("wanted is a file, and the line ends")
    return Path(re.sub(r"^~(?=/|$)", lambda _: str(Path.home()), rest))
