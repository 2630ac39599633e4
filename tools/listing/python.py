"""The generated files of the Python client: its commands, the methods of its sessions, and what codes mean."""

from __future__ import annotations

import json
import textwrap
from typing import Iterable, List

from tools import protocol
from tools.protocol import Command, Key

from .names import HEAD, WIDTH, name_of, safe, sentence

TYPES = {
    **dict.fromkeys(("name", "text", "signature", "way"), "str"),
    **dict.fromkeys(("number", "priority"), "int"),
    "number or null": "Optional[int]",
    "place": "BindingInfo",
    "texts": "Sequence[str]",
    "truth": "bool",
    "value": "Value",
    "values": "Sequence[Value]",
}
REPLIES = {
    **dict.fromkeys(("number", "count"), "int"),
    **dict.fromkeys(("true", "truth"), "bool"),
    **dict.fromkeys(("value", "expression or null"), "Value"),
    "number or null": "Optional[int]",
    "error or null": "Optional[str]",
    "numbers": "List[int]",
    "names": "List[str]",
    "spun": "Spun",
    "status": "Status",
    "meta": "Meta",
    "object": "ObjectInfo",
    "class": "ClassInfo",
    "properties": "List[PropertyInfo]",
    "connections": "List[ConnectionInfo]",
    "places": "List[BindingInfo]",
    "publications": "List[PublicationInfo]",
    "joins": "List[JoinInfo]",
    "functors": "List[FunctorInfo]",
}
BY_NAME = ("way", "truth", "priority")  # kinds of optional keys that are given by their names only
LISTS = ("texts", "values")
OF_SESSIONS = ("reset",)  # what the sessions have as methods of their own, which do more than to give the command
COMMANDS = '''\
# {head}
"""The commands of the protocol: each function returns what is to be asked, with the kind of its reply.

The sessions that wait for replies and those of `metad.aio` have a method for each of them. Objects and connections are
numbers, as in the protocol. The parameters are the keys of the commands; where a key is not required, None leaves it
out. Nothing is checked here: the server does that, and `values` looks at what can be sent at all.
"""

from __future__ import annotations

from typing import List, Optional, Sequence

from .asking import Asked, given
from .descriptions import (
    BindingInfo,
    ClassInfo,
    ConnectionInfo,
    FunctorInfo,
    JoinInfo,
    ObjectInfo,
    PropertyInfo,
    PublicationInfo,
)
from .lines import Meta, Spun, Status, Value
'''
METHODS = '''\
# {head}
"""The commands as methods: of sessions that wait for the reply, of those of `metad.aio`, which are awaited, and of batches."""

from __future__ import annotations

from . import commands
from .asking import awaiting, batching, waiting


class Waiting:
    """The commands, each as a method that gives it and waits for the reply; `reset` is written in `Session`."""

{waiting}


class Awaiting:
    """The commands, each as a method that gives it and awaits the reply; `reset` is written in `Session`."""

{awaiting}


class Batching:
    """The commands, each as a method that adds it to a batch and returns what will have the reply."""

{batching}
'''


def commands() -> str:
    """The functions that build commands."""
    return COMMANDS.format(head=HEAD) + "".join(f"\n\n{function(it)}" for it in protocol.all_commands())


def session_commands() -> str:
    """The methods of both kinds of sessions, and of batches."""
    names = [name_of(it.word) for it in protocol.all_commands()]
    of_sessions = [name for name in names if name not in OF_SESSIONS]
    made = {
        way: "\n".join(f"    {name} = {way}(commands.{name})" for name in those)
        for way, those in (("waiting", of_sessions), ("awaiting", of_sessions), ("batching", names))
    }
    return METHODS.format(head=HEAD, **made)


def code_meanings() -> str:
    """What the codes mean."""
    rows = [f"    {json.dumps(code)}: {json.dumps(protocol.plain(said))},\n" for code, said in protocol.codes().items()]
    text = '"""What the codes of refusals and warnings mean."""\n\nfrom __future__ import annotations\n\nMEANINGS = {\n'
    return f"# {HEAD}\n{text}{''.join(rows)}}}\n"


def function(command: Command) -> str:
    """The function that builds a command."""
    reply = REPLIES[command.forms[-1].kind]
    head = f"def {name_of(command.word)}({', '.join(parameters(command))}) -> Asked[{reply}]:"
    if len(head) > WIDTH:
        rows = "".join(f"    {it},\n" for it in parameters(command))
        head = f"def {name_of(command.word)}(\n{rows}) -> Asked[{reply}]:"
    return f"{head}\n{docstring(command)}\n    return Asked({', '.join(arguments(command))})\n"


def parameters(command: Command) -> Iterable[str]:
    """The parameters: those of keys that are required, those of others, and those that are given by their names."""
    first, *further = command.forms
    optional = [key for key in first.keys if key.is_optional or further]
    yield from (required(key) for key in first.keys if key not in optional)
    yield from (left_out(key) for key in optional if key.kind not in BY_NAME)
    by_name = [key for key in optional if key.kind in BY_NAME] + [key for form in further for key in form.keys]
    yield from ["*", *map(left_out, by_name)] if by_name else []


def required(key: Key) -> str:
    """The parameter of a key that is required. The arguments of a call may be left out if it has no parameters."""
    return f"{safe(key.name)}: {TYPES[key.kind]}{' = ()' if key.kind == 'values' else ''}"


def left_out(key: Key) -> str:
    """The parameter of a key that may be left out."""
    return f"{safe(key.name)}: Optional[{TYPES[key.kind]}] = None"


def arguments(command: Command) -> List[str]:
    """The word and the keys as they are handed on."""
    keys = [key for form in command.forms for key in form.keys]
    is_needed = len(command.forms) == 1
    fixed = [key for key in keys if is_needed and not key.is_optional]
    given = ", ".join(f"{safe(key.name)}={safe(key.name)}" for key in keys if key not in fixed)
    return [
        json.dumps(command.word),
        *(f"{safe(key.name)}={f'list({safe(key.name)})' if key.kind in LISTS else safe(key.name)}" for key in fixed),
        *([f"**given({given})"] if given else []),
    ]


def docstring(command: Command) -> str:
    """What a command does, and what it returns."""
    said = [sentence(command.does)]
    returned = ", or ".join(it.reply for it in command.forms if it.kind != "true")
    if returned:
        for word, value in (("`true`", "True"), ("`false`", "False"), ("null", "None"), ('`"', "`"), ('"`', "`"), ("an array", "a list")):
            returned = returned.replace(word, value)
        said.append(f"Returns {returned}.")
    line = f'    """{" ".join(said)}"""'
    if len(line) <= WIDTH:
        return line
    paragraphs = ["\n".join(textwrap.wrap(it, WIDTH, initial_indent="    ", subsequent_indent="    ")) for it in said]
    return f'    """{paragraphs[0].lstrip()}\n' + "".join(f"\n{it}\n" for it in paragraphs[1:]) + '    """'
