"""What is said about a refusal in addition to its code: which objects are missing, which keys are at fault, and what to do. `explain` and
the shell say the same."""

from __future__ import annotations

from typing import List


def missing_said(number: int, was_made: bool, label: str = "") -> str:
    """That an object is not there, and whether it was; the label is a name that it was given, or its number."""
    if label and not label.isdigit():
        return f"{label} is gone: object {number} was deleted"
    return f"object {number} is gone, it was deleted" if was_made else f"there is no object {number}"


def further(faults: List[str], to_do: str) -> List[str]:
    """What is printed below a refusal: the faults of its line, where they are known, and what to do about its code."""
    return [*faults, *([f"to do: {to_do}"] if to_do else [])]
