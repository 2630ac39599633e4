"""The keys and values of the parts of a class file, and the classes as they are written."""

from __future__ import annotations

from dataclasses import dataclass, field
from typing import Iterable, Sequence

from .findings import Findings, Step
from .nodes import Node
from .signatures import KINDS, NoSignature, Signature, signature_of, why_no_name
from .words import listed, meant, quoted

MOST_CLASSES = 1024


class Form:
    """What is asked of values, whose faults are all of one step."""

    def __init__(self, findings: Findings, step: Step) -> None:
        self.findings = findings
        self.step = step

    def fault(self, node: Node, words: str) -> None:
        self.findings.fault(self.step, node, words)

    def keys(self, node: Node, what: str, needed: Sequence[str], further: Sequence[str] = ()) -> bool:
        """Whether a value is an object; it has to have the keys that are needed, and no others but the further ones."""
        members = node.members()
        if members is None:
            self.fault(node, f"{what} is an object, and this is {node.kind()}")
            return False
        for name in (it for it in needed if it not in members):
            self.fault(node, f"{what} needs the key {quoted(name)}")
        known = (*needed, *further)
        for name, member in members.items():
            if name not in known:
                unused = [it for it in known if it not in members]
                self.fault(member.key, f"{what} has no key {quoted(name)}{meant(name, unused)}")
        return True

    def text(self, node: Node | None, what: str) -> str | None:
        if node is not None and node.text() is None:
            self.fault(node, f"{what} is a text, and this is {node.kind()}")
        return None if node is None else node.text()

    def name(self, node: Node | None, what: str) -> str | None:
        text = self.text(node, what)
        if node is None or text is None or not why_no_name(text):
            return text
        self.fault(node, f"{what} is a name: {why_no_name(text)}")
        return None

    def truth(self, node: Node | None, what: str) -> None:
        if node is not None and node.truth() is None:
            self.fault(node, f"{what} is true or false, and this is {node.kind()}")

    def items(self, node: Node | None, what: str) -> list[Node]:
        """The elements of an array; none where there is no array."""
        if node is not None and node.items() is None:
            self.fault(node, f"{what} is an array, and this is {node.kind()}")
        return (node.items() if node is not None else None) or []

    def one_of(self, node: Node | None, what: str, known: Iterable[str]) -> str | None:
        """The text that a value is, which has to be one of these."""
        text, words = self.text(node, what), list(known)
        if node is None or text is None or text in words:
            return text
        self.fault(node, f"{what} is {listed(map(quoted, words), 'or')}, and not {quoted(text)}{meant(text, words)}")
        return None

    def signature(self, node: Node | None, what: str) -> Signature | None:
        text = self.text(node, what)
        if node is None or text is None:
            return None
        try:
            return signature_of(text)
        except NoSignature as why:
            self.fault(node, f"{quoted(text)} is no signature: {why}")
            return None


@dataclass
class SlotForm:
    """A slot as it is written."""

    node: Node
    sig: Node | None
    body: Node | None


@dataclass
class PropertyForm:
    """A property as it is written, as far as it keeps to the form."""

    node: Node
    name: str | None
    kind: str | None


@dataclass
class ClassForm:
    """A class as it is written, as far as it keeps to the form."""

    node: Node
    name: str | None = None
    above: str | None = None
    signals: list[Node] = field(default_factory=list)
    slots: list[SlotForm] = field(default_factory=list)
    properties: list[PropertyForm] = field(default_factory=list)


def classes_in(root: Node, findings: Findings) -> list[ClassForm]:
    """The classes of a file."""
    form = Form(findings, Step.FORM)
    form.keys(root, "a class file", ["classes"])
    nodes = form.items(root.get("classes"), "the value of \"classes\"")
    if len(nodes) > MOST_CLASSES:
        words = f"a class file has at most {MOST_CLASSES} classes, and this one has {len(nodes)}"
        findings.fault(Step.CLASSES, root.get("classes") or root, words)
    return [class_in(node, form) for node in nodes]


def class_in(node: Node, form: Form) -> ClassForm:
    if not form.keys(node, "a class", ["name", "super"], ["signals", "slots", "properties"]):
        return ClassForm(node)
    signals = form.items(node.get("signals"), "the value of \"signals\"")
    slots = form.items(node.get("slots"), "the value of \"slots\"")
    properties = form.items(node.get("properties"), "the value of \"properties\"")
    return ClassForm(
        node,
        form.name(node.get("name"), "what a class is called"),
        form.name(node.get("super"), "a superclass"),
        [it for it in signals if form.text(it, "a signal") is not None],
        [slot_in(it, form) for it in slots],
        [property_in(it, form) for it in properties],
    )


def slot_in(node: Node, form: Form) -> SlotForm:
    form.keys(node, "a slot", ["sig", "body"])
    sig, body = node.get("sig"), node.get("body")
    form.items(body, "a body")
    return SlotForm(node, sig if form.text(sig, "the signature of a slot") is not None else None, body)


def property_in(node: Node, form: Form) -> PropertyForm:
    form.keys(node, "a property", ["name", "type"], ["notify", "bindable"])
    name = form.name(node.get("name"), "what a property is called")
    kind = form.one_of(node.get("type"), "the type of a property", KINDS)
    form.text(node.get("notify"), "the value of \"notify\"")
    form.truth(node.get("bindable"), "the value of \"bindable\"")
    return PropertyForm(node, name, kind)
