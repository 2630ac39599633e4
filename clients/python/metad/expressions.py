"""Expressions for `bind`, written with Python's operators.

    button.property("enabled").bind((prop("text", name) != "") & (prop("count", seats) < 5))

Nothing is calculated in this program: the server evaluates the expression whenever something that it reads changes.
"""

from __future__ import annotations

from typing import Any, Dict, Optional

from .errors import NoValue


class Expression:
    """An expression of the protocol, which `form` holds as JSON. It is made by `prop`, `constant`, `choose`, `concat` and
    operators.

    The operators are `+`, `-`, `<`, `>`, `<=`, `>=`, `==` and `!=`, and for conditions `&`, `|` and `~`, since Python's
    `and`, `or` and `not` cannot be given a meaning. An operand is an expression, a property of an object, or a bool, int
    or str as a constant. What the server lacks (`>`, `<=`, `>=`, `!=`, `&`, `|`, `~`) becomes an expression that means
    the same.
    """

    __slots__ = ("form",)
    __hash__ = None  # type: ignore[assignment]

    def __init__(self, form: Dict[str, Any]) -> None:
        self.form = form

    def __add__(self, other: Any) -> Expression:
        return _of_two("+", self, other)

    def __radd__(self, other: Any) -> Expression:
        return _of_two("+", other, self)

    def __sub__(self, other: Any) -> Expression:
        return _of_two("-", self, other)

    def __rsub__(self, other: Any) -> Expression:
        return _of_two("-", other, self)

    def __lt__(self, other: Any) -> Expression:
        return _of_two("<", self, other)

    def __gt__(self, other: Any) -> Expression:
        return _of_two("<", other, self)

    def __le__(self, other: Any) -> Expression:
        return ~_of_two("<", other, self)

    def __ge__(self, other: Any) -> Expression:
        return ~_of_two("<", self, other)

    def __eq__(self, other: Any) -> Expression:  # type: ignore[override]
        return _of_two("=", self, other)

    def __ne__(self, other: Any) -> Expression:  # type: ignore[override]
        return ~_of_two("=", self, other)

    def __invert__(self) -> Expression:
        return choose(self, False, True)

    def __and__(self, other: Any) -> Expression:
        return choose(self, other, False)

    def __rand__(self, other: Any) -> Expression:
        return choose(other, self, False)

    def __or__(self, other: Any) -> Expression:
        return choose(self, True, other)

    def __ror__(self, other: Any) -> Expression:
        return choose(other, True, self)

    def __bool__(self) -> bool:
        raise TypeError("an expression has no value in this program: join conditions by & and |, and negate them by ~")

    def __repr__(self) -> str:
        return f"Expression({self.form})"


def prop(name: str, of: Optional[Any] = None) -> Expression:
    """A property: of an object, which a proxy or a number names, or of the object whose property is bound."""
    return Expression({"prop": name} if of is None else {"prop": name, "of": of})


def constant(value: Any) -> Expression:
    """A constant: a bool, an int or a str."""
    return Expression({"const": value})


def choose(condition: Any, first: Any, second: Any) -> Expression:
    """The first of two operands where the condition is true, otherwise the second. The other one is not evaluated."""
    return Expression({"if": [operand(condition), operand(first), operand(second)]})


def concat(one: Any, other: Any, *more: Any) -> Expression:
    """Two texts or more, in their order."""
    joined = _of_two("cat", one, other)
    for it in more:
        joined = _of_two("cat", joined, it)
    return joined


def operand(value: Any) -> Any:
    """What stands for an operand in JSON."""
    if isinstance(value, Expression):
        return value.form
    if isinstance(value, (bool, int, str)):
        return {"const": value}
    if isinstance(value, dict):
        return value
    owner, name = getattr(value, "owner", None), getattr(value, "name", None)
    if owner is None or not isinstance(name, str):
        raise NoValue(f"{value!r} is no expression, no property and no constant")
    return {"prop": name, "of": owner}


def _of_two(word: str, one: Any, other: Any) -> Expression:
    return Expression({word: [operand(one), operand(other)]})
