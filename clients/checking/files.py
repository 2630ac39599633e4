"""How a class file is checked as a whole."""

from __future__ import annotations

from typing import NamedTuple

from .declaring import Declaring
from .findings import Findings, Mistake, Step
from .forms import classes_in
from .mistakes import look_for_mistakes
from .nodes import Members, Node
from .reading import NoJson, read
from .words import quoted

MOST_BYTES = 1_048_576


class Checked(NamedTuple):
    """A file with what is found in it, and the JSON that it is where it is any."""

    text: str
    findings: Findings
    root: Node | None = None


def checked(raw: bytes, is_declared_only: bool = False) -> Checked:
    """Checks a class file of these bytes; `is_declared_only` says that no dynamic properties are meant."""
    findings = Findings()
    if len(raw) > MOST_BYTES:
        words = f"a class file has at most {MOST_BYTES:,} bytes, and this is larger; its content is not checked"
        findings.fault(Step.BYTES, Node(0), words)
        return Checked("", findings)
    try:
        text = raw.decode()
    except UnicodeDecodeError as error:
        text = raw[: error.start].decode()
        findings.fault(Step.JSON, Node(len(text)), f"the byte 0x{raw[error.start]:02X} is no UTF-8 here")
        return Checked(text, findings)
    root = root_of(text, findings)
    if root is not None:
        check(root, findings, is_declared_only)
    return Checked(text, findings, root)


def root_of(text: str, findings: Findings) -> Node | None:
    try:
        return read(text)
    except NoJson as why:
        findings.fault(Step.JSON, Node(why.at), f"this is no JSON: {why.words}")
        return None


def check(root: Node, findings: Findings, is_declared_only: bool) -> None:
    """Looks for all faults, and if there are no faults, for mistakes."""
    keys_again(root, findings)
    forms = classes_in(root, findings)
    declaring = Declaring(findings)
    names = {form.name for form in forms if form.name is not None}
    for form in forms:
        declaring.declare(form, names)
    if not findings.faults():
        look_for_mistakes(forms, declaring.classes, findings, is_declared_only)


def keys_again(root: Node, findings: Findings) -> None:
    """Looks for keys that occur twice in an object."""
    left = [root]
    while left:
        node = left.pop()
        left += node.items() or []
        if isinstance(node.held, Members):
            left += [member.value for member in node.held.counted.values()]
            for key in node.held.again:
                name = quoted(key.text() or "")
                words = f"the key {name} occurs here again, and its earlier value does not count"
                findings.mistake(Mistake.KEY, key, words)
