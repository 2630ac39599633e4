"""Expressions of bindings, in words."""

from __future__ import annotations

from typing import Any

from .held import is_number, is_text
from .words import misfit, plain, shown

OPERATORS = {"+": "+", "-": "-", "<": "<", "=": "=", "cat": "followed by"}


def spelled(form: Any) -> str:
    """An expression as one would say it."""
    if not isinstance(form, dict):
        return misfit()
    if is_text(form.get("prop")):
        return plain(form["prop"]) + (f" of object {form['of']}" if is_number(form.get("of")) else "")
    if "const" in form:
        return shown(form["const"])
    if "if" in form:
        test, held, failed = map(part, operands(form["if"], 3))
        return f"if {test} then {held} else {failed}"
    for key, word in OPERATORS.items():
        if key in form:
            return f" {word} ".join(map(part, operands(form[key], 2)))
    return misfit()


def operands(forms: Any, count: int) -> list[Any]:
    return forms if isinstance(forms, list) and len(forms) == count else misfit()


def part(form: Any) -> str:
    """An expression within another one, in brackets where it is made of others."""
    said = spelled(form)
    return said if form.keys() & {"prop", "const"} else f"({said})"
