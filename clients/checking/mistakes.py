"""What loads and is surely not meant. A file is looked at in which there is no fault."""

from __future__ import annotations

from typing import Collection, Iterable, NamedTuple

from .declaring import SIGNAL, Declared
from .findings import BRANCHES, Findings, Mistake
from .forms import ClassForm
from .nodes import Node
from .signatures import Signature, signature_of
from .sorts import Sorts
from .words import alike, counted, meant, quoted

SHORT = 4  # a name of fewer characters is not taken for another one that is spelled wrongly
DIGITS = dict.fromkeys(map(ord, "0123456789"))


class Reach:
    """What objects of some classes may have; the superclasses are given too."""

    def __init__(self, classes: Iterable[Declared]) -> None:
        self.methods: dict[Signature, set[str]] = {}
        self.properties: set[str] = set()
        for it in classes:
            self.properties.update(it.properties)
            for signature, word in it.methods.items():
                self.methods.setdefault(signature, set()).add(word)

    def texts(self, is_signal: bool) -> list[str]:
        """The normal texts of all methods, or of all signals."""
        return [one.text() for one, words in self.methods.items() if SIGNAL in words or not is_signal]


class Known:
    """The classes of a file."""

    def __init__(self, classes: Collection[Declared]) -> None:
        self.all = Reach(classes)
        self.below: dict[str, list[Declared]] = {}
        self.own: dict[str, Reach] = {}
        for it in classes:
            if it.above is not None:
                self.below.setdefault(it.above.name, []).append(it)

    def of(self, own: Declared, target: Node | None) -> Reach:
        """What the object of a target may have: `self` is of the class of the slot, or of one below it."""
        if not is_self(target):
            return self.all
        if own.name not in self.own:
            classes = [own]
            for it in classes:
                classes += self.below.get(it.name, [])
            self.own[own.name] = Reach([*own.chain(), *classes])
        return self.own[own.name]


class Use(NamedTuple):
    """A property that a body names, and what its object may have."""

    node: Node
    name: str
    reach: Reach
    is_written: bool


def is_self(target: Node | None) -> bool:
    return target is None or target.held == "self"


def look_for_mistakes(forms: list[ClassForm], classes: dict[str, Declared], findings: Findings, is_declared_only: bool) -> None:
    """Looks through the bodies and the properties of all classes."""
    known = Known(classes.values())
    uses: list[Use] = []
    for form in forms:
        own = classes[form.name or ""]
        for slot in form.slots:
            signature = signature_of((slot.sig.text() if slot.sig else None) or "")
            body = BodyMistakes(findings, known, own, signature)
            body.actions(slot.body)
            uses += body.uses
        properties_alike(form, own, findings)
    undeclared(uses, findings, is_declared_only)


def properties_alike(form: ClassForm, own: Declared, findings: Findings) -> None:
    """Looks for a property whose name differs from another one only by the case of letters."""
    seen = {name for it in own.chain() if it is not own for name in it.properties}
    for it in form.properties:
        name = it.name or ""
        other = sorted(one for one in seen if one.casefold() == name.casefold() and one != name)
        if other:
            words = f"the property {quoted(name)} differs from {quoted(other[0])} only by the case of letters"
            findings.mistake(Mistake.CASE, it.node.get("name") or it.node, words)
        seen.add(name)


def undeclared(uses: list[Use], findings: Findings, is_declared_only: bool) -> None:
    """Looks for properties that no class declares. A name that is both written and read is meant."""
    written = {use.name for use in uses if use.is_written}
    read = {use.name for use in uses if not use.is_written}
    for use in uses:
        if use.name in use.reach.properties:
            continue
        near = [] if use.name in written & read else misspelt(use.name, use.reach.properties)
        if near or is_declared_only:
            more = meant(use.name, near) if near else ""
            does = "written" if use.is_written else "read"
            words = f"no class of this object declares the property {quoted(use.name)}, so that a dynamic one is {does}{more}"
            findings.mistake(Mistake.PROPERTY, use.node, words)


def misspelt(name: str, names: Iterable[str]) -> list[str]:
    """The name that another one is taken for, which is spelled wrongly; none where they may be different ones."""
    near = alike(name, names)
    if not near or near[0].casefold() == name.casefold():
        return near
    is_numbered = near[0].translate(DIGITS) == name.translate(DIGITS)
    return [] if is_numbered or min(len(name), len(near[0])) < SHORT else near


class BodyMistakes:
    """What is surely not meant in the body of a slot."""

    def __init__(self, findings: Findings, known: Known, own: Declared, slot: Signature) -> None:
        self.findings = findings
        self.known = known
        self.own = own
        self.sorts = Sorts(findings, own, slot)
        self.uses: list[Use] = []

    def actions(self, node: Node | None) -> None:
        for it in (node.items() if node else None) or []:
            self.action(it)

    def action(self, node: Node) -> None:
        for key, look in LOOKS.items():
            if node.get(key) is not None:
                look(self, node)
        for key in BRANCHES:
            self.actions(node.get(key))

    def when(self, node: Node) -> None:
        self.expression(node.get("when"), "truth", "the condition of \"when\"")

    def set(self, node: Node) -> None:
        name, of = node.text_at("set") or "", node.get("of")
        self.uses.append(Use(node.get("set") or node, name, self.known.of(self.own, of), True))
        kind = self.own.kind(name) if is_self(of) else None
        self.expression(node.get("to"), kind, f"the property {quoted(name)}, of the type {kind},")

    def emit(self, node: Node) -> None:
        signal = self.method(node, "emit", "of", True)
        args = node.items_at("args")
        kinds: list[str | None] = [None] * len(args)
        if signal is not None and len(args) == len(signal.kinds):
            kinds = list(signal.kinds)
        elif signal is not None:
            has = counted(len(signal.kinds), "parameter")
            words = f"the number of arguments is {len(args)}, and {signal.text()} has {has}"
            self.findings.mistake(Mistake.VALUE, node.get("args") or node, words)
        for number, (arg, kind) in enumerate(zip(args, kinds), 1):
            self.expression(arg, kind, f"parameter {number} of {node.text_at('emit')}")

    def connect(self, node: Node) -> None:
        signal = self.method(node, "connect", "of", True)
        method = self.method(node, "method", "to", False)
        if signal is not None and method is not None and signal.kinds[: len(method.kinds)] != method.kinds:
            words = f"the types of {method.text()} are not the first of those of {signal.text()}, so that the two do not fit"
            self.findings.mistake(Mistake.FIT, node.get("method") or node, words)

    def disconnect(self, node: Node) -> None:
        if node.text_at("disconnect") is not None:
            self.method(node, "disconnect", "of", True)
        if node.get("method") is not None:
            self.method(node, "method", "to", False)

    def set_parent(self, node: Node) -> None:
        """An object cannot be below itself, nor below a child."""
        parent, of = node.get("setParent"), node.get("of")
        moved = "self" if of is None else of.held
        if parent is None or parent.held is None:
            return
        if parent.held == moved:
            self.findings.mistake(Mistake.PARENT, parent, "an object cannot be its own parent")
        elif moved == "self" and parent.get("child") is not None:
            self.findings.mistake(Mistake.PARENT, parent, "a child of self is below it, and cannot be its parent")

    def method(self, node: Node, key: str, target: str, is_signal: bool) -> Signature | None:
        """The signature at a key, if the object of a target may have such a method or signal; otherwise None."""
        written, of = node.get(key) or node, node.get(target)
        signature = signature_of(written.text() or "")
        reach = self.known.of(self.own, of)
        words = reach.methods.get(signature, set())
        if SIGNAL in words or words and not is_signal:
            return signature
        what = "signal" if is_signal else "signal or slot"
        whose = f"neither {self.own.name} nor a class above or below it" if is_self(of) else "no class of this file"
        missing = f"{whose} has a {what} {signature.text()}{meant(signature.text(), reach.texts(is_signal))}"
        said = f"{signature.text()} is a slot, and a signal is needed here" if words else missing
        self.findings.mistake(Mistake.METHOD, written, said)
        return None

    def expression(self, node: Node | None, kind: str | None, what: str) -> None:
        if node is None:
            return
        self.sorts.fits(node, kind, what)
        for it in expressions(node):
            name, of = it.text_at("prop"), it.get("of")
            if name is not None:
                self.uses.append(Use(it.get("prop") or it, name, self.known.of(self.own, of), False))


def expressions(node: Node) -> list[Node]:
    """An expression and all those that it is made of."""
    found = [node]
    for it in found:
        for member in (it.members() or {}).values():
            found += member.value.items() or []
    return found


LOOKS = {
    "when": BodyMistakes.when,
    "set": BodyMistakes.set,
    "emit": BodyMistakes.emit,
    "connect": BodyMistakes.connect,
    "disconnect": BodyMistakes.disconnect,
    "setParent": BodyMistakes.set_parent,
}
