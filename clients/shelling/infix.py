"""Expressions of bindings as one writes them, `if a < 3 then b + 1 else c.x`, as the JSON that the server is given.

    EXPRESSION = `if` COMPARISON `then` EXPRESSION `else` EXPRESSION | COMPARISON
    COMPARISON = SUM [(`<` | `=`) SUM]
    SUM        = PART {(`+` | `-` | `&`) PART}, from left to right; `&` puts two texts together
    PART       = [`-`] NUMBER | `true` | `false` | TEXT | PROPERTY | OBJECT `.` PROPERTY | `(` EXPRESSION `)`
"""

from __future__ import annotations

import json
from typing import Any, Callable, Dict

from explaining.held import is_deep

from .reading import NAME, NUMBER, TOO_DEEP, Mistake, Words

TEXT = r'"(?:[^"\\]|\\.)*"'
RESERVED = ("if", "then", "else", "true", "false")
SELF = "self"
CAT, EQUAL = "&", "=="
FORMS = {CAT: "cat", EQUAL: "="}  # signs that stand for another word of the protocol

Form = Dict[str, Any]


class Infix:
    """What is left of an expression."""

    def __init__(self, words: Words, number_of: Callable[[str], int]) -> None:
        self.words = words
        self.number_of = number_of

    def expression(self) -> Form:
        """A choice, or what can be compared."""
        if self.words.maybe_word("if") is None:
            return self.comparison()
        test = self.comparison()
        self.words.take_word("then")
        held = self.expression()
        self.words.take_word("else")
        return {"if": [test, held, self.expression()]}

    def comparison(self) -> Form:
        """One sum, or two that are compared by `<` or `=`."""
        first = self.sum()
        sign = self.words.maybe(r"<|==?")
        return first if sign is None else {FORMS.get(sign, sign): [first, self.sum()]}

    def sum(self) -> Form:
        """Parts that are added, subtracted or put together, from left to right."""
        found = self.part()
        sign = self.words.maybe("[-+&]")
        while sign is not None:
            found = {FORMS.get(sign, sign): [found, self.part()]}
            sign = self.words.maybe("[-+&]")
        return found

    def part(self) -> Form:
        """What is between signs."""
        if self.words.maybe(r"\(") is not None:
            found = self.expression()
            self.words.take(r"\)", "`)`")
            return found
        text = self.words.maybe(TEXT)
        if text is not None:
            return {"const": text_of(text)}
        if self.words.maybe("-") is not None:
            return {"const": -int(self.words.take(NUMBER, "a number"))}
        truth = self.words.maybe_word("true", "false")
        return self.read() if truth is None else {"const": truth == "true"}

    def read(self) -> Form:
        """A property, or a number, which may be that of an object."""
        word = self.words.take(rf"{NAME}|{NUMBER}", "a property, a number, a text or `(`")
        if self.words.maybe(r"\.") is not None:
            name = self.words.take(NAME, "a property")
            return {"prop": name} if word == SELF else {"prop": name, "of": self.number_of(word)}
        if word[0].isdigit():
            return {"const": int(word)}
        if word in RESERVED:
            raise Mistake(f"`{word}` cannot be here; a property of this name is `{SELF}.{word}`")
        return {"prop": word}


def text_of(text: str) -> str:
    """The text in quotes."""
    try:
        return str(json.loads(text))
    except ValueError:
        raise Mistake(f"{text} is no text as JSON has it") from None


def infix_of(form: Form, label: Callable[[int], str]) -> str:
    """An expression as `bind` of the shell takes it, with brackets around its parts."""
    if "prop" in form:
        of = f"{label(form['of'])}." if isinstance(form.get("of"), int) else f"{SELF}." if form["prop"] in RESERVED else ""
        return f"{of}{form['prop']}"
    if "const" in form:
        return json.dumps(form["const"], ensure_ascii=False)
    [(word, parts)] = form.items()
    said = [infix_of(it, label) if it.keys() & {"prop", "const"} else f"({infix_of(it, label)})" for it in parts]
    return f"if {said[0]} then {said[1]} else {said[2]}" if word == "if" else f" {CAT if word == 'cat' else word} ".join(said)


def expression_of(text: str, number_of: Callable[[str], int]) -> Form:
    """The JSON of an expression."""
    words = Words(text)
    try:
        form = Infix(words, number_of).expression()
    except RecursionError:
        raise Mistake(TOO_DEEP) from None
    words.end()
    if is_deep(form):
        raise Mistake(TOO_DEEP)
    return form
