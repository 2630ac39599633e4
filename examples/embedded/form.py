"""A form whose button is enabled by a binding, in a server inside this program: form.py CLASSES"""

from __future__ import annotations

import json
import sys
from pathlib import Path

import metad

WHILE_NAMED = {"if": [{"=": [{"prop": "text", "of": 2}, {"const": ""}]}, {"const": False}, {"const": True}]}


def run(path: str) -> None:
    """Prints whether the button is enabled, as a name is typed and then deleted."""
    with metad.inside(classes=json.loads(Path(path).read_text())) as server:
        session = server.session("form")
        form = session.create("Form")
        name, button = session.create("Text", form), session.create("Button", form)
        button.enabledChanged.connect(form.enable)
        session.on(form.number, "enable(bool)", lambda call: print("enabled:", *call.args))
        button.property("enabled").bind(WHILE_NAMED)
        for text in ("ann", ""):
            print("name:", repr(text))
            name.text = text


if __name__ == "__main__":
    if len(sys.argv) != 2:
        sys.exit("usage: form.py CLASSES")
    try:
        run(sys.argv[1])
    except (OSError, ValueError, metad.MetadError) as error:
        sys.exit(f"form.py: {error}")
