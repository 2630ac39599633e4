"""How answers are said: replies, calls, warnings and refusals, with the names that objects were given."""

from __future__ import annotations

import json
from contextlib import nullcontext
from typing import IO, Any, Dict, List, Mapping, Optional

import metad
from common.asked import OBJECT_KEYS
from common.objects import Misfit
from explaining.commands import FORMS
from explaining.refusing import further
from explaining.words import CODES, ERRORS, plain, shown

from .known import Known
from .prompting import Prompt

OF_OBJECTS = ("bindings", "connections", "publications", "joins")  # commands whose replies are lists of what names objects
COLOURS = {"reply": "32", "call": "36", "warning": "33", "refusal": "31", "note": "2"}


class Speaker:
    """Writes lines for people, in colours where these are wanted."""

    def __init__(self, stream: IO[bytes], is_coloured: bool, prompt: Optional[Prompt] = None) -> None:
        self.stream = stream
        self.is_coloured = is_coloured
        self.prompt = prompt

    def say(self, kind: str, text: str) -> None:
        """Says something, in which only the end of its line moves the cursor."""
        seen = "".join(it if it.isprintable() else ascii(it)[1:-1] for it in text)
        said = f"\x1b[{COLOURS[kind]}m{seen}\x1b[0m" if self.is_coloured else seen
        with nullcontext() if self.prompt is None else self.prompt.hidden():
            self.stream.write(said.encode("utf-8", "backslashreplace") + b"\n")
            self.stream.flush()


def compact(value: Any) -> str:
    """A value as JSON, in the form in which the server writes it."""
    return json.dumps(value, ensure_ascii=False, separators=(",", ":"))


def call_said(call: metad.Call, known: Known) -> str:
    """A call of a slot or a functor."""
    by = known.label(call.sender) if call.sender else "a command or a post"
    target = known.label(call.object)
    called = f"{target}.{plain(call.method)} called" if "(" in call.method else f"{plain(call.method)} called for {target}"
    return f"{called} with {compact(call.args)} by {by}"


def warning_said(warned: metad.Warned, known: Known) -> str:
    """A warning: of an action, of a signal, of the turns, or of a property in error."""
    label = known.label(warned.object)
    if warned.property_name is not None:
        meaning = ERRORS.get(warned.code, metad.meaning_of(warned.code))
        return f"warning: {label}.{plain(warned.property_name)} is in error, {plain(warned.code)}: {meaning}"
    meaning = CODES.get(warned.code, metad.meaning_of(warned.code))
    about = "" if warned.object is None else f" of {label}"
    return f"warning{about}, {plain(warned.code)}: {meaning}; {metad.advice_on(warned.code) or 'see PROTOCOL'}"


def labelled(asked: Mapping[str, Any], known: Known) -> Dict[str, Any]:
    """A command with the names of its objects in place of their numbers."""
    named = {key: known.label(asked[key]) for key in OBJECT_KEYS if asked.get(key) is not None}
    return {**asked, **named}


def reply_said(asked: Mapping[str, Any], reply: Any, known: Known) -> str:
    """What the reply to a command means."""
    do = asked.get("do")
    named: Any = reply
    if do in ("children", "findAll"):
        named = [known.label(it) for it in reply]
    elif do in ("find", "parent") and reply is not None:
        named = known.label(reply)
    elif do in OF_OBJECTS and isinstance(reply, list):
        named = [labelled(it, known) if isinstance(it, dict) else it for it in reply]
    elif do == "object" and isinstance(reply, dict):
        named = labelled(reply, known)
    for form in FORMS.get(str(do), []):
        try:
            if form.is_of(dict(asked)) and form.reply(reply):
                return str(form.said(labelled(asked, known), named))
        except (Misfit, LookupError, TypeError, AttributeError, ValueError):
            continue
    return f"done, and the reply is {shown(reply)}"


def refusal_said(asked: Mapping[str, Any], code: str, known: Known) -> str:
    """What a refusal means, in the words of its command where it has its own."""
    for form in FORMS.get(str(asked.get("do")), []):
        try:
            if form.is_of(dict(asked)) and code in form.refused:
                said = form.refused[code].format_map({key: plain(str(it)) for key, it in labelled(asked, known).items()})
                return f"refused, {plain(code)}: {said}"
        except (Misfit, LookupError, TypeError, AttributeError, ValueError):
            continue
    return f"refused, {plain(code)}: {CODES.get(code, metad.meaning_of(code))}"


def advice(code: str, faults: List[str]) -> List[str]:
    """What is wrong, where that is known, and what to do."""
    return further(faults, metad.advice_on(code))
