"""A session that receives a line which is longer than a line of input may be, and whose text needs memory."""

from __future__ import annotations

from pathlib import Path

from tests.support.lines import lines_of, text_of
from tests.support.program import Row

PARAMETERS = 10
KINDS = ",".join(["QString"] * PARAMETERS)
TEXT = "\n" * 4_096  # each is written by two bytes
TOLD, HEAR = f"told({KINDS})", f"hear({KINDS})"
TELL = [{"emit": TOLD, "args": [{"prop": "label"}] * PARAMETERS}]
CLASS = {
    "name": "Teller",
    "super": "QObject",
    "signals": [TOLD],
    "slots": [{"sig": HEAR, "body": []}, {"sig": "tell()", "body": TELL}],
    "properties": [{"name": "label", "type": "QString"}],
}
STEPS = [
    ({"do": "new", "class": "Teller"}, {"reply": 1}),
    ({"do": "set", "object": 1, "property": "label", "value": TEXT}, {"reply": True}),
    ({"do": "connect", "sender": 1, "signal": TOLD, "receiver": 1, "method": HEAR}, {"reply": 1}),
    (
        {"do": "invoke", "object": 1, "method": "tell()", "args": []},
        {"args": [], "call": "tell()", "object": 1, "sender": 0},
        {"args": [TEXT] * PARAMETERS, "call": HEAR, "object": 1, "sender": 1},
        {"reply": True},
    ),
]


def long_line_row(folder: Path) -> Row:
    """The row of it, whose class file is put into a folder."""
    (folder / "teller.json").write_text(text_of({"classes": [CLASS]}))
    given = lines_of((command for command, *_ in STEPS), session="a")
    wanted = lines_of((line for _, *told in STEPS for line in told), session="a")
    return Row("a line longer than one of input", given, wanted, words=("teller.json",), folder=folder)
