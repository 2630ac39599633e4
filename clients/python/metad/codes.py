"""The codes of refusals and warnings: what they mean, and what to do about them."""

from __future__ import annotations

from .code_meanings import MEANINGS

__all__ = ["ADVICE", "BINDING_ERRORS", "MEANINGS", "advice_on", "meaning_of"]

ADVICE = {
    "E01": "fix what writes the line; only the place of the answer shows which line it was",
    "E02": "compare it with the row of its command in PROTOCOL.md",
    "E03": "check which class file the server runs with",
    "E04": "forget the number; it never means another object",
    "E05": "look it up with `meta`",
    "E06": "write it as `meta` does: a name and types in parentheses",
    "E07": "connect to a slot that takes fewer arguments, or the same types",
    "E08": "usually nothing: the connection exists",
    "E09": "leave `unique` out, and keep the number of the connection",
    "E10": "look at the table of functors",
    "E11": "look it up with `meta`",
    "E12": "move the parent out first",
    "E13": "do not connect, move or delete it",
    "E14": (
        "make room: delete, disconnect, `unbind`, `end`, `unpublish`, `leave`, `spin`; shorten the text or expression; "
        "for the warning look for a cycle of signals"
    ),
    "E15": "`unpublish` it first, or choose another name",
    "E16": "connect the signal within the session",
    "E17": "match each `end` with a `begin`",
    "E18": 'put `"bindable":true` into the class file',
    "E19": "`reset`, or go on in a new session",
    "E20": "`reset` the session, and make its objects again",
    "E21": "if the session has failed, `reset` it and make its objects again; for the session `-` send the line again",
    "E22": "give a value of the type; numbers in quotes are texts, and bindings have no `arg`",
    "E23": "look for a slot that calls itself; `spin` again, or give more `--turns`",
}
"""What to do about each code, as docs/PROTOCOL.md has it."""

BINDING_ERRORS = {
    "BindingLoop": "the value of the property depends on itself",
    "EvaluationError": "the binding of the property has no value",
}
"""What the errors of properties mean. Warnings report them."""


def meaning_of(code: str) -> str:
    """What a code, or an error of a property, means; one that is not known here has the meaning `unknown`."""
    return {**MEANINGS, **BINDING_ERRORS}.get(code, "unknown")


def advice_on(code: str) -> str:
    """What to do about a code; empty where nothing is known."""
    return ADVICE.get(code, "")
