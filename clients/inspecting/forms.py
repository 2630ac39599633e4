"""Expressions of bindings, as formulas, and what they read."""

from __future__ import annotations

import json
from typing import Any

from common.values import reads_of

__all__ = ["formula", "reads_of"]

SIGNS = {"+": "+", "-": "−", "<": "<", "=": "=", "cat": "&"}


def formula(form: Any, own: int) -> str:
    """An expression as a formula: `#2.x + (y − 1)`."""
    if not isinstance(form, dict):
        return json.dumps(form, ensure_ascii=False)
    if "prop" in form:
        of = form.get("of", "self")
        return str(form["prop"]) if of in ("self", own) else f"#{of}.{form['prop']}"
    if "const" in form:
        return json.dumps(form["const"], ensure_ascii=False)
    if "if" in form:
        test, held, failed = (part(it, own) for it in form["if"])
        return f"{test} ? {held} : {failed}"
    for key, sign in SIGNS.items():
        if key in form:
            return f" {sign} ".join(part(it, own) for it in form[key])
    return json.dumps(form, ensure_ascii=False)


def part(form: Any, own: int) -> str:
    """An expression within another one."""
    text = formula(form, own)
    return text if isinstance(form, dict) and form.keys() & {"prop", "const"} else f"({text})"
