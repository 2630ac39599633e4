"""The types that hold whole numbers, and the numbers that each of them holds."""

from __future__ import annotations

RANGES = {
    "int": (-(2**31), 2**31 - 1),
    "uint": (0, 2**32 - 1),
    "qlonglong": (-(2**63), 2**63 - 1),
    "qulonglong": (0, 2**64 - 1),
}
