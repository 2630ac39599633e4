"""The generated files of the shell, of what explains lines, and of the front."""

from __future__ import annotations

import json
from typing import Iterable, List, Optional, Tuple

from tools import protocol
from tools.protocol import Command, Form, Key

from .names import HEAD, WIDTH

PLAIN = {
    (): ("", "nothing"),
    ("object",): (" OBJECT", "object"),
    ("object", "property"): (" OBJECT.PROPERTY", "property"),
    ("class",): (" CLASS", "class"),
    ("name",): (" NAME", "name"),
}  # keys that a command has, how they are typed in the shell, and what reads them
SHELL = '''\
# {head}
"""The short forms of commands that have nothing but an object, a property or a name, and what each command does."""

from __future__ import annotations

from typing import Dict, Tuple

PLAIN: Dict[str, Tuple[str, str]] = {{
{plain}
}}  # how a command is typed, and what follows its word
DOES: Dict[str, str] = {{
{does}
}}
BEFORE_CLASS = {before_class}  # commands that a class follows
'''
KNOWN = '''\
# {head}
"""The commands of metad: what each holds at its keys, what it replies, and for which codes it may be refused."""

from __future__ import annotations

from typing import Dict, FrozenSet, List, Tuple

KNOWN: Dict[str, List[Tuple[Dict[str, str], Dict[str, str], str, Tuple[str, ...]]]] = {{
{known}
}}  # for each form of a command: the keys that are required, those that are not, the kind of the reply, the codes
READING: Dict[str, FrozenSet[str]] = {{
{reading}
}}  # commands that change nothing, and the keys that each may have
LINE_BYTES = {line:_}  # that a line has at most; a longer one is answered, also where it is blank
'''
FRONT = """\
// {head}
//! The commands of the server that the front has to know by their effects.

/// Commands that only read a session, each with its keys.
pub const READING: [(&str, &[&str]); {number}] = [
{reading}
];
/// Commands that call no slot and post no event, whatever their arguments.
pub const POST_NOTHING: [&[u8]; {silent}] = [
{quiet}
];
"""


def rows(pairs: Iterable[Tuple[str, str]]) -> str:
    """The rows of a dictionary in Python."""
    return "\n".join(f"    {json.dumps(key)}: {value}," for key, value in pairs)


def tuple_of(words: Iterable[str]) -> str:
    """A tuple of texts in Python."""
    found = [json.dumps(it) for it in words]
    return f"({', '.join(found)}{',' if len(found) == 1 else ''})"


def plain_form(command: Command) -> Optional[Tuple[str, str]]:
    """How a command is typed in the shell that has no keys but an object, a property or a name, and what reads these."""
    form = command.forms[0]
    is_plain = len(command.forms) == 1 and not any(key.is_optional for key in form.keys)
    return PLAIN.get(tuple(form.required())) if is_plain else None


def shell_forms() -> str:
    """The plain forms of the shell."""
    commands = protocol.all_commands()
    plain = [(it.word, plain_form(it)) for it in commands]
    return SHELL.format(
        head=HEAD,
        plain=rows((word, tuple_of((word + form[0], form[1]))) for word, form in plain if form is not None),
        does=rows((it.word, json.dumps(it.does, ensure_ascii=False)) for it in commands),
        before_class=tuple_of(it.word for it in commands if it.forms[0].required()[:1] == ["class"]),
    )


def known_commands() -> str:
    """What explains lines knows of commands, as data."""
    commands = protocol.all_commands()
    return KNOWN.format(
        head=HEAD,
        known=rows((it.word, known_forms(it)) for it in commands),
        reading=rows((it.word, f"frozenset({tuple_of(all_keys(it))})") for it in reading(commands)),
        line=protocol.limit("bytes of a line of input"),
    )


def known_forms(command: Command) -> str:
    """The forms of a command, each with its keys, its reply and its codes."""
    parts = [known_parts(form) for form in command.forms]
    text = "[" + ", ".join(f"({', '.join(form)})" for form in parts) + "]"
    if len(text) <= WIDTH:
        return text
    rows_of = "".join("        (\n" + "".join(f"            {it},\n" for it in form) + "        ),\n" for form in parts)
    return f"[\n{rows_of}    ]"


def known_parts(form: Form) -> List[str]:
    """The keys of a form that are required, those that are not, the kind of the reply, and the codes."""
    required, optional = (kinds(key for key in form.keys if key.is_optional == is_optional) for is_optional in (False, True))
    return [required, optional, json.dumps(form.kind), tuple_of(form.codes)]


def kinds(keys: Iterable[Key]) -> str:
    """Keys with what they hold, in Python."""
    return "{" + ", ".join(f"{json.dumps(key.name)}: {json.dumps(key.kind)}" for key in keys) + "}"


def reading(commands: List[Command]) -> List[Command]:
    """The commands that only read."""
    return [it for it in commands if it.effect == "reads"]


def all_keys(command: Command) -> List[str]:
    """The keys that a command may have."""
    return [key.name for form in command.forms for key in form.keys]


def front_commands() -> str:
    """What the front knows of commands."""
    read = reading(protocol.all_commands())
    silent = sorted(it.word for it in protocol.all_commands() if it.effect != "calls")
    keys = [", ".join(map(json.dumps, all_keys(it))) for it in read]
    return FRONT.format(
        head=HEAD,
        number=len(read),
        reading="\n".join(f"    ({json.dumps(it.word)}, &[{of}])," for it, of in zip(read, keys)),
        silent=len(silent),
        quiet="\n".join(f"    b{json.dumps(word)}," for word in silent),
    )
