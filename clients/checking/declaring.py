"""What the classes of a file declare, one after another, and the faults in that."""

from __future__ import annotations

from typing import Iterator, Sequence

from .bodies import Body
from .findings import Findings, Step
from .forms import ClassForm, Form, PropertyForm
from .nodes import Node
from .signatures import Signature, signature_of
from .words import meant, quoted

MOST_METHODS = 256
MOST_PROPERTIES = 64
BASE = "QObject"
SIGNAL, SLOT = "signal", "slot"


class Declared:
    """A class with what it declares itself: its methods, each a signal or a slot, and the types of its properties."""

    def __init__(self, name: str, above: Declared | None) -> None:
        self.name = name
        self.above = above
        self.upper = above  # the nearest superclass that declares something
        if above is not None and not above.methods and not above.properties:
            self.upper = above.upper
        self.methods: dict[Signature, str] = {}
        self.properties: dict[str, str] = {}
        self.method_count: int = above.method_count if above else 0
        self.property_count: int = above.property_count if above else 0
        self.is_whole: bool = above is not None and above.is_whole  # whether all its methods are known

    def chain(self) -> Iterator[Declared]:
        """The class and its superclasses."""
        found: Declared | None = self
        while found is not None:
            yield found
            found = found.above

    def owners(self) -> Iterator[Declared]:
        """The class, and its superclasses that declare something."""
        found: Declared | None = self
        while found is not None:
            yield found
            found = found.upper

    def method(self, signature: Signature) -> str | None:
        """Whether a method is a signal or a slot; None where there is no such method."""
        owner = self.owner(signature)
        return None if owner is None else owner.methods[signature]

    def owner(self, signature: Signature) -> Declared | None:
        """The class or superclass that declares a method."""
        return next((it for it in self.owners() if signature in it.methods), None)

    def kind(self, name: str) -> str | None:
        """The type of a property; None where none of this name is declared."""
        return next((it.properties[name] for it in self.owners() if name in it.properties), None)

    def signals(self) -> list[str]:
        """The normal texts of the signals, those of the superclasses among them."""
        return [one.text() for it in self.chain() for one, word in it.methods.items() if word == SIGNAL]


def base() -> Declared:
    """The class that every other one is below."""
    made = Declared(BASE, None)
    words = {"destroyed()": SIGNAL, "objectNameChanged(QString)": SIGNAL, "deleteLater()": SLOT}
    made.methods = {signature_of(text): word for text, word in words.items()}
    made.properties = {"objectName": "QString"}
    made.method_count, made.property_count = len(made.methods), len(made.properties)
    made.is_whole = True
    return made


class Declaring:
    """The classes that are declared so far, by their names."""

    def __init__(self, findings: Findings) -> None:
        self.findings = findings
        self.classes: dict[str, Declared] = {BASE: base()}

    def declare(self, form: ClassForm, names: set[str]) -> None:
        """Declares a class. `names` has those of all classes of the file."""
        if form.node.members() is None:
            return
        made = Declared(form.name or "", self.superclass(form, names))
        self.methods(form, made)
        self.properties(form, made)
        self.limits(form, made)
        for it in form.properties:
            self.notify(it, made)
        for slot in form.slots:
            self.body(slot.sig, slot.body)
        self.name(form, made)

    def name(self, form: ClassForm, made: Declared) -> None:
        if form.name is None:
            return
        if form.name in self.classes:
            whose = "which every file has" if form.name == BASE else "which is earlier in the file"
            self.fault(Step.NAME, form.node.get("name"), f"there is a class {quoted(form.name)} already, {whose}")
        else:
            self.classes[form.name] = made

    def superclass(self, form: ClassForm, names: set[str]) -> Declared | None:
        if form.above is None or form.above in self.classes:
            return self.classes.get(form.above or "")
        if form.above in names:
            where = "is this class itself" if form.above == form.name else "is declared after this class, and has to be declared before it"
            words = f"the superclass {quoted(form.above)} {where}"
        else:
            words = f"there is no class {quoted(form.above)} before this one{meant(form.above, self.classes)}"
        self.fault(Step.SUPERCLASS, form.node.get("super"), words)
        return None

    def fault(self, step: Step, node: Node | None, words: str) -> None:
        if node is not None:
            self.findings.fault(step, node, words)

    # ---- methods and properties ----

    def methods(self, form: ClassForm, made: Declared) -> None:
        """Declares the signals and then the slots."""
        signed = Form(self.findings, Step.SIGNATURE)
        written = [(it, SIGNAL) for it in form.signals] + [(it.sig, SLOT) for it in form.slots if it.sig is not None]
        for node, word in written:
            signature = signed.signature(node, f"a {word}")
            if signature is None:
                made.is_whole = False
            else:
                self.method(node, signature, word, made)

    def method(self, node: Node, signature: Signature, word: str, made: Declared) -> None:
        owner = made.owner(signature)
        if owner is None:
            made.methods[signature] = word
            return
        where = "in this class" if owner is made else f"in {owner.name}"
        self.fault(Step.TWICE, node, f"{signature.text()} is declared already, as a {owner.methods[signature]} {where}")

    def properties(self, form: ClassForm, made: Declared) -> None:
        for it in form.properties:
            if it.name is None:
                continue
            owner = next((one for one in made.owners() if it.name in one.properties), None)
            if owner is None:
                made.properties[it.name] = it.kind or ""
                continue
            where = "in this class" if owner is made else f"in {owner.name}"
            self.fault(Step.TWICE, it.node.get("name"), f"the property {quoted(it.name)} is declared already, {where}")

    def limits(self, form: ClassForm, made: Declared) -> None:
        """Counts the methods and the properties, those of the superclasses among them."""
        made.method_count += len(form.signals) + len(form.slots)
        made.property_count += len(form.properties)
        counts: Sequence[tuple[str, int, int]] = (
            ("methods", made.method_count, MOST_METHODS), ("properties", made.property_count, MOST_PROPERTIES),
        )
        for what, number, most in counts:
            if number > most:
                words = f"a class has at most {most} {what}, those of its superclasses among them, and this one has {number}"
                self.findings.fault(Step.NUMBER, form.node, words)

    def notify(self, form: PropertyForm, made: Declared) -> None:
        """Looks at the signal that announces a property's changes."""
        node = form.node.get("notify")
        if node is None or node.text() is None:
            return
        signature = Form(self.findings, Step.NOTIFY).signature(node, "a signal that announces changes")
        if signature is None:
            return
        word = made.method(signature)
        if word == SLOT:
            self.fault(Step.NOTIFY, node, f"{signature.text()} is a slot, and only a signal announces changes")
        elif word is None and made.is_whole:
            words = f"neither this class nor a superclass has a signal {signature.text()}"
            self.fault(Step.NOTIFY, node, words + meant(signature.text(), made.signals()))
        elif len(signature.kinds) > 1 or form.kind and signature.kinds not in ((), (form.kind,)):
            asked = f"one of the type {form.kind}" if form.kind else "one of the property's type"
            words = f"a signal that announces changes has no parameter, or {asked}, unlike {signature.text()}"
            self.fault(Step.NOTIFY, node, words)

    def body(self, sig: Node | None, body: Node | None) -> None:
        """Looks at what a slot does."""
        if body is None or body.items() is None:
            return
        signature = Form(Findings(), Step.SIGNATURE).signature(sig, "a slot")
        Body(self.findings, None if signature is None else len(signature.kinds)).check(body)
