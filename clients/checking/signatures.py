"""Names and signatures, and why a text is not one."""

from __future__ import annotations

import re
from typing import NamedTuple

from .words import listed, meant, quoted, shown_json

KINDS = ("bool", "int", "uint", "qlonglong", "qulonglong", "QString")
MOST_BYTES = 64  # of a name
MOST_PARAMETERS = 10
BLANKS = " \t\n\r"
NAME = re.compile(r"[A-Za-z_][A-Za-z0-9_]*", re.ASCII)
WORD = re.compile(r"[A-Za-z0-9_]+", re.ASCII)
KIND = f"({'|'.join(KINDS)})"
SPACE = f"[{BLANKS}]+"
PARAMETER = re.compile(rf"{KIND}|const{SPACE}{KIND}(?:[{BLANKS}]*&)?|{KIND}{SPACE}const(?:[{BLANKS}]*&)?", re.ASCII)
DECLARED = re.compile(rf"[A-Za-z0-9_&{BLANKS}]+", re.ASCII)  # what a parameter in a declaration is made of
ENDS = re.compile(rf"(?:const|noexcept|override|final|;|{SPACE})*", re.ASCII)  # what a declaration has after its brackets
HEAD = re.compile(rf"[{BLANKS}]*([A-Za-z0-9_]*)[{BLANKS}]*(\(?)", re.ASCII)


class Signature(NamedTuple):
    """The name of a signal or a slot, and the types of its parameters."""

    name: str
    kinds: tuple[str, ...]

    def text(self) -> str:
        """The normal text."""
        return f"{self.name}({','.join(self.kinds)})"


class NoSignature(Exception):
    """Why a text is no signature."""


def why_no_name(text: str) -> str:
    """Why a text is no name; empty where it is one."""
    if not text:
        return "a name has at least one character"
    if not NAME.fullmatch(text):
        return f"{quoted(text)} is no name, which is a letter or _, and then letters, digits and _, all of them ASCII"
    return f"a name has at most {MOST_BYTES} bytes, and this one has {len(text)}" if len(text) > MOST_BYTES else ""


def signature_of(text: str) -> Signature:
    """The signature that a text spells; raises `NoSignature` where it spells none."""
    try:
        return spelled(text)
    except NoSignature as why:
        raise NoSignature(why_declared(text) or str(why)) from None


def spelled(text: str) -> Signature:
    """The signature that a text spells, read from the left; raises `NoSignature` at the first fault."""
    head = HEAD.match(text)
    name, bracket = (head[1], head[2]) if head else ("", "")
    if why_no_name(name):
        raise NoSignature(why_no_name(name) if name else "a signature begins with a name")
    if not bracket:
        raise NoSignature("a signature has its types in brackets after its name, or ()")
    inside, closing, rest = text[head.end() if head else 0 :].partition(")")
    if not closing:
        raise NoSignature("the bracket is not closed")
    if rest.strip(BLANKS):
        raise NoSignature(f"{quoted(rest.strip(BLANKS))} is after the closing bracket")
    return Signature(name, kinds_of(inside.strip(BLANKS)))


def kinds_of(inside: str) -> tuple[str, ...]:
    """The types between the brackets of a signature."""
    if inside in ("", "void"):
        return ()
    parts = inside.split(",")
    if len(parts) > MOST_PARAMETERS:
        raise NoSignature(f"a signature has at most {MOST_PARAMETERS} parameters, and this one has {len(parts)}")
    return tuple(kind_of(part.strip(BLANKS)) for part in parts)


def kind_of(part: str) -> str:
    """The type of a parameter, which may be written as a constant or as a reference to one."""
    found = PARAMETER.fullmatch(part)
    if found is None or found.lastindex is None:
        raise NoSignature(why_no_parameter(part))
    return found[found.lastindex]


def why_no_parameter(part: str) -> str:
    words = [word for word in WORD.findall(part) if word != "const"]
    unknown = [word for word in words if word not in KINDS]
    if not part:
        return "a parameter is missing next to a comma"
    if unknown == ["void"]:
        return "void must be alone between the brackets"
    if unknown:
        return f"{quoted(unknown[0])} is no type, which is {listed(KINDS, 'or')}{meant(unknown[0], KINDS)}"
    if re.fullmatch(rf"{KIND}[{BLANKS}]*&", part):
        return f"{quoted(part)} is a reference that is not const, which is not allowed"
    return f"{quoted(part)} is no parameter, which is a type, optionally with const before or after it, and then &"


def why_declared(text: str) -> str:
    """What to write in place of a declaration as C++ has it, as `int go(int x)`; empty where the text is no declaration, or where its
    signature is not known."""
    before, opening, rest = text.partition("(")
    inside, closing, behind = rest.rpartition(")")
    *result, name = re.split(SPACE, before.strip(BLANKS))
    parts = [] if inside.strip(BLANKS) in ("", "void") else inside.split(",")
    declared = [parameter_of(part) for part in parts]
    kinds = tuple(it[0] for it in declared if it is not None)
    if not (opening and closing and ENDS.fullmatch(behind)) or why_no_name(name):
        return ""
    if len(kinds) < len(parts) or len(parts) > MOST_PARAMETERS:
        return ""
    faults = ["return type"] if result else []
    faults += ["parameter names"] if any(it is not None and it[1] for it in declared) else []
    faults += ["words after the brackets"] if behind.strip(BLANKS) else []
    write = shown_json(Signature(name, kinds).text())
    return f"a signature has no {listed(faults, 'or')}: write {write}" if faults else ""


def parameter_of(part: str) -> tuple[str, bool] | None:
    """The type of a parameter that C++ declares, and whether it has a name; None where metad does not have its type."""
    declared = part.partition("=")[0].strip(BLANKS)
    kind, *names = [word for word in WORD.findall(declared) if word != "const"] or [""]
    is_known = kind in KINDS and len(names) < 2 and not any(map(why_no_name, names))
    return (kind, bool(names)) if is_known and DECLARED.fullmatch(declared) else None
