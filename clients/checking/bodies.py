"""The bodies of slots: whether they have the form of one, and keep to the limits."""

from __future__ import annotations

from typing import Callable, NamedTuple

from .findings import Findings, Step
from .forms import Form
from .nodes import Node
from .words import counted, listed, meant, quoted

MOST_ACTIONS = 32
MOST_FORMS = 64
MOST_BYTES = 4096  # of a text
MOST_NUMBER = 2**32 - 1
TYPES = ("auto", "direct", "queued")
OPERANDS = {"+": 2, "-": 2, "<": 2, "=": 2, "cat": 2, "if": 3}
EXPRESSIONS = ("const", "arg", "prop", *OPERANDS)

Check = Callable[["Body", Node], None]


class ActionForm(NamedTuple):
    """An action: the values of its word, of the keys that it needs, and of those that it may have."""

    holds: Check
    needed: dict[str, Check] = {}
    further: dict[str, Check] = {}


class Body:
    """The body of a slot, whose parameters are `None` where they are not known."""

    def __init__(self, findings: Findings, parameters: int | None) -> None:
        self.form = Form(findings, Step.BODY)
        self.size = Form(findings, Step.BODY_SIZE)
        self.parameters = parameters
        self.done: list[Node] = []  # the actions that were met
        self.forms = 0  # those of an expression that were met

    def check(self, node: Node) -> None:
        """Checks a whole body."""
        self.actions(node)
        if len(self.done) > MOST_ACTIONS:
            last = sorted(self.done, key=lambda it: it.at)[MOST_ACTIONS]
            words = f"a body has at most {MOST_ACTIONS} actions, those in branches among them, and this one has {len(self.done)}"
            self.size.fault(last, f"{words}; the first one too many is this")

    # ---- actions ----

    def actions(self, node: Node) -> None:
        for it in self.form.items(node, "a list of actions"):
            self.action(it)

    def action(self, node: Node) -> None:
        self.done.append(node)
        members = node.members()
        if members is None:
            return self.form.fault(node, f"an action is an object, and this is {node.kind()}")
        words = [word for word in ACTIONS if word in members]
        if not words:
            near = next(filter(None, (meant(key, ACTIONS) for key in members)), "")
            known = listed(map(quoted, ACTIONS), "or")
            return self.form.fault(node, f"this is no action, which has one of the keys {known}{near}")
        if len(words) > 1:
            return self.form.fault(node, f"an action does one thing, and this has the keys {listed(map(quoted, words))}")
        word, form = words[0], ACTIONS[words[0]]
        self.form.keys(node, f"the action {quoted(word)}", [word, *form.needed], list(form.further))
        if word == "disconnect" and "method" in members and "to" not in members:
            self.form.fault(members["method"].key, 'a "method" is disconnected only together with the key "to", whose method it is')
        for key, holds in {word: form.holds, **form.needed, **form.further}.items():
            if key in members:
                holds(self, members[key].value)

    def signature(self, node: Node) -> None:
        self.form.signature(node, "a signature")

    def signature_or_null(self, node: Node) -> None:
        if node.held is not None:
            self.form.signature(node, "what is disconnected, where it is not null,")

    def property_name(self, node: Node) -> None:
        self.form.name(node, "what a property is called")

    def type(self, node: Node) -> None:
        self.form.one_of(node, "the type of a connection", TYPES)

    def truth(self, node: Node) -> None:
        self.form.truth(node, f"the value of {quoted(str(node.step))}")

    def target(self, node: Node) -> None:
        """An object that is meant."""
        number, text = node.whole(), node.text()
        if node.members() is not None:
            self.form.keys(node, "a target", ["child"])
            self.form.text(node.get("child"), "the name of a child")
        elif text is not None:
            self.form.one_of(node, "a target that is a text", ("self", "sender"))
        elif number is None:
            words = '"self", "sender", an object number or {"child":name}'
            self.form.fault(node, f"a target is {words}, and this is {node.kind()}")
        elif not 1 <= number <= MOST_NUMBER:
            self.form.fault(node, f"an object number is a whole number from 1 to {MOST_NUMBER}, and not {number}")

    def target_or_null(self, node: Node) -> None:
        if node.held is not None:
            self.target(node)

    # ---- expressions ----

    def expressions(self, node: Node) -> None:
        for it in self.form.items(node, "the value of \"args\""):
            self.expression(it)

    def expression(self, node: Node) -> None:
        """A whole expression."""
        self.forms = 0
        self.part(node)
        if self.forms > MOST_FORMS:
            words = f"an expression is made of at most {MOST_FORMS} objects, and this one of {self.forms}"
            self.size.fault(node, words)

    def part(self, node: Node) -> None:
        self.forms += 1
        members = node.members()
        if members is None:
            return self.form.fault(node, f"an expression is an object, as {{\"const\":1}}, and this is {node.kind()}")
        if "prop" in members:
            self.form.keys(node, "the expression \"prop\"", ["prop"], ["of"])
            self.form.name(members["prop"].value, "what a property is called")
            return self.target(members["of"].value) if "of" in members else None
        if len(members) != 1:
            has = f"the keys {listed(map(quoted, members))}" if members else "none"
            return self.form.fault(node, f"an expression has one key, and this has {has}")
        [(word, member)] = members.items()
        if word not in EXPRESSIONS:
            known = listed(map(quoted, EXPRESSIONS), "or")
            near = meant(word, EXPRESSIONS)
            return self.form.fault(member.key, f"an expression has the key {known}, and not {quoted(word)}{near}")
        if word == "const":
            return self.constant(member.value)
        return self.argument(member.value) if word == "arg" else self.operands(word, member.value)

    def constant(self, node: Node) -> None:
        text = node.text()
        if text is not None and len(text.encode()) > MOST_BYTES:
            self.size.fault(node, f"a text has at most {MOST_BYTES:,} bytes, and this one has {len(text.encode()):,}")
        elif text is None and node.truth() is None and node.whole() is None:
            more = " of 64 bits, without a point and an exponent" if isinstance(node.held, float) else ""
            self.form.fault(node, f"a constant is a truth, a whole number{more} or a text, and this is {node.kind()}")

    def argument(self, node: Node) -> None:
        number = node.whole()
        if number is None or number < 0:
            return self.form.fault(node, "an argument is named by a whole number from 0")
        if self.parameters is not None and number >= self.parameters:
            has = counted(self.parameters, "parameter")
            self.form.fault(node, f"there is no argument {number}: the slot has {has}, and they are counted from 0")

    def operands(self, word: str, node: Node) -> None:
        wanted = OPERANDS[word]
        items = node.items()
        if items is None or len(items) != wanted:
            has = node.kind() if items is None else f"an array of {len(items)}"
            self.form.fault(node, f"{quoted(word)} takes an array of {wanted} expressions, and this is {has}")
        for it in items or []:
            self.part(it)


OF: dict[str, Check] = {"of": Body.target}
WAYS: dict[str, Check] = {"type": Body.type, "unique": Body.truth, "single": Body.truth}
ACTIONS: dict[str, ActionForm] = {
    "set": ActionForm(Body.property_name, {"to": Body.expression}, OF),
    "emit": ActionForm(Body.signature, {"args": Body.expressions}, OF),
    "connect": ActionForm(Body.signature, {"to": Body.target, "method": Body.signature}, {**OF, **WAYS}),
    "disconnect": ActionForm(Body.signature_or_null, {}, {**OF, "to": Body.target, "method": Body.signature}),
    "delete": ActionForm(Body.target),
    "deleteLater": ActionForm(Body.target),
    "block": ActionForm(Body.truth, {}, OF),
    "setParent": ActionForm(Body.target_or_null, {}, OF),
    "when": ActionForm(Body.expression, {"then": Body.actions}, {"else": Body.actions}),
}
