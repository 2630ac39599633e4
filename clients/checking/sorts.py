"""What sort of value an expression of a body has: a truth, a number or a text, where that is known."""

from __future__ import annotations

from common.kinds import RANGES

from .declaring import Declared
from .findings import Findings, Mistake
from .nodes import Node
from .signatures import Signature
from .words import quoted

TRUTH, NUMBER, TEXT = "truth", "number", "text"
SORTS = {"bool": TRUTH, "QString": TEXT, **dict.fromkeys(RANGES, NUMBER)}
TAKES = {"+": NUMBER, "-": NUMBER, "<": NUMBER, "cat": TEXT}
GIVES = {"+": NUMBER, "-": NUMBER, "<": TRUTH, "=": TRUTH, "cat": TEXT}


def a(sort: str | None) -> str:
    return f"a {sort}"


class Sorts:
    """The sorts of expressions in the body of a slot."""

    def __init__(self, findings: Findings, own: Declared, slot: Signature) -> None:
        self.findings = findings
        self.own = own
        self.slot = slot

    def wrong(self, node: Node, words: str) -> None:
        self.findings.mistake(Mistake.VALUE, node, words)

    def fits(self, node: Node, kind: str | None, what: str) -> None:
        """Looks at a whole expression, whose value is to be of a type, or is a truth, or of any sort."""
        sort, wanted = self.sort_of(node), SORTS.get(kind or "", kind)
        constant = node.get("const")
        number = None if constant is None else constant.whole()
        if sort and wanted and sort != wanted:
            self.wrong(node, f"{what} takes {a(wanted)}, and this is {a(sort)}")
        elif number is not None and kind in RANGES and not RANGES[kind][0] <= number <= RANGES[kind][1]:
            self.wrong(node, f"{what} takes numbers from {RANGES[kind][0]} to {RANGES[kind][1]}, and not {number}")

    def sort_of(self, node: Node) -> str | None:
        """The sort of an expression; None where it is not known."""
        members = node.members() or {}
        if "prop" in members:
            return self.sort_of_property(node)
        word, held = next((key, member.value) for key, member in members.items())
        if word == "const":
            return sort_of_constant(held)
        if word == "arg":
            return SORTS[self.slot.kinds[held.whole() or 0]]
        sorts = [self.sort_of(it) for it in held.items() or []]
        if word == "if":
            return self.sort_of_choice(held, sorts)
        if word == "=" and None not in sorts and sorts[0] != sorts[1]:
            self.wrong(held, f"{a(sorts[0])} and {a(sorts[1])} cannot be compared")
        for it, sort in zip(held.items() or [], sorts):
            if word in TAKES and sort not in (None, TAKES[word]):
                self.wrong(it, f"{quoted(word)} takes {TAKES[word]}s, and this is {a(sort)}")
        return GIVES[word]

    def sort_of_property(self, node: Node) -> str | None:
        """Of a property of self that its class or a superclass declares, the sort of its type."""
        of = node.get("of")
        if of is not None and of.held != "self":
            return None
        return SORTS.get(self.own.kind(node.text_at("prop") or "") or "")

    def sort_of_choice(self, held: Node, sorts: list[str | None]) -> str | None:
        test = (held.items() or [])[0]
        if sorts[0] not in (None, TRUTH):
            self.wrong(test, f"the condition of \"if\" takes {a(TRUTH)}, and this is {a(sorts[0])}")
        return sorts[1] if sorts[1] == sorts[2] else None


def sort_of_constant(node: Node) -> str:
    if node.truth() is not None:
        return TRUTH
    return TEXT if node.text() is not None else NUMBER
