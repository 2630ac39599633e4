"""The kinds of values, names and numbers, and signatures over kinds."""

import re

TEXT_BYTES = 4_096

RANGES = {
    "int": (-(2**31), 2**31 - 1),
    "uint": (0, 2**32 - 1),
    "qlonglong": (-(2**63), 2**63 - 1),
    "qulonglong": (0, 2**64 - 1),
}
NUMBERS = (-(2**63), 2**64 - 1)
KINDS = ("bool", *RANGES, "QString")

NAME = r"[A-Za-z_][A-Za-z0-9_]{0,63}"
TYPE = f"({'|'.join(KINDS)})"
SPACE = r"[ \t\n\r]"
PARAMETER = re.compile(rf"{TYPE}|const{SPACE}+{TYPE}(?:{SPACE}*&)?|{TYPE}{SPACE}+const(?:{SPACE}*&)?", re.ASCII)
SIGNATURE = re.compile(rf"{SPACE}*({NAME}){SPACE}*\(([^()]*)\){SPACE}*", re.ASCII)
PARAMETERS = 10
NUMBER = 2**32 - 1  # the last one that an object or a connection may have


class Refused(Exception):
    """A command or an action was refused, by this code."""


def refuse(code):
    raise Refused(code)


def is_text(value):
    return isinstance(value, str)


def is_name(value):
    return is_text(value) and re.fullmatch(NAME, value) is not None


def is_number(value):
    return isinstance(value, int) and not isinstance(value, bool)


def is_known_by(value):
    """Whether an object or a connection may have this number."""
    return is_number(value) and 1 <= value <= NUMBER


def is_of_kind(value, kind):
    if kind in RANGES:
        return is_number(value) and RANGES[kind][0] <= value <= RANGES[kind][1]
    return isinstance(value, bool if kind == "bool" else str)


def default_of(kind):
    """The value of a kind where no other value is given."""
    return {"bool": False, "QString": ""}.get(kind, 0)


def is_value(value):
    """Whether a value is of any kind, which is inferred from it."""
    return is_of_kind(value, "bool") or is_of_kind(value, "QString") or is_number(value) and NUMBERS[0] <= value <= NUMBERS[1]


def is_long(value):
    return is_text(value) and len(value.encode()) > TEXT_BYTES


def signature_of(text):
    """The name and the kinds of a signature, however it is spelled."""
    found = SIGNATURE.fullmatch(text) or refuse("E06")
    inside = found[2].strip(" \t\n\r")
    if inside in ("", "void"):
        return found[1], []
    parts = [PARAMETER.fullmatch(part.strip(" \t\n\r")) or refuse("E06") for part in inside.split(",")]
    if len(parts) > PARAMETERS:
        refuse("E06")
    return found[1], [part[part.lastindex] for part in parts]


def normal(text):
    """A signature in its normal form."""
    name, kinds = signature_of(text)
    return f"{name}({','.join(kinds)})"
