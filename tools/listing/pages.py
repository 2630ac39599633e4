"""The lists in pages that people write: in the manual page the commands, codes, limits and exit statuses, in the README the limits."""

from __future__ import annotations

from typing import Iterable, Tuple

from tools import protocol

IN_PROSE = ("turns of a command", "sessions")  # limits that the manual page explains in sentences


def marks(path: str, name: str) -> Tuple[str, str]:
    """The two comments around a list."""
    begin, end = ("<!-- ", " -->\n") if path.endswith(".md") else ('.\\" ', "\n")
    return f"{begin}list: {name}{end}", f"{begin}end of list{end}"


def roff(text: str) -> str:
    """A text as the manual page has it."""
    return protocol.unlinked(protocol.plain(text)).replace("-", "\\-")


def entries(pairs: Iterable[Tuple[str, str]]) -> str:
    """A list of words in bold with what is said of them."""
    return "".join(f".TP\n.B {head}\n" + (f"{said}\n" if said else "") for head, said in pairs)


def manual_commands() -> str:
    """The commands with their keys."""
    forms = [form for command in protocol.all_commands() for form in command.forms]
    return entries((form.word, ", ".join(f"[{it.name}]" if it.is_optional else it.name for it in form.keys)) for form in forms)


def manual_codes() -> str:
    """The codes with their meanings."""
    return entries((code, roff(meaning)) for code, meaning in protocol.codes().items())


def manual_limits() -> str:
    """The limits, except those that the page explains in sentences."""
    listed = [(what, most) for what, most in protocol.limits() if not what.startswith(IN_PROSE)]
    return entries((roff(most.partition(":")[0]), roff(what.replace(" above", ""))) for what, most in listed)


def manual_statuses() -> str:
    """The exit statuses with what they say."""
    return entries((status, roff(when)) for status, when in protocol.statuses().items())


def short_limits() -> str:
    """The limits that anybody may meet, in two sentences."""
    line = protocol.limit("bytes of a line of input")
    kinds = {"objects": "objects", "connections": "connections", "events": "queued events", "bindings": "bindings", "joins": "joins"}
    held = [f"{protocol.limit(f'{kind} of a session'):,} {said}" for kind, said in kinds.items()]
    return f"A line has at most {line:,} bytes. A session has at most {', '.join(held[:-1])} and {held[-1]}.\n"
