"""Changes that open groups hold back. The end of the outermost group announces what differs from its beginning, and no query
shows what that is: so only the record tells whether a group may hold back anything."""

from __future__ import annotations

import json
from pathlib import Path
from typing import Dict, Set

from .leaving_out import command_in
from .record import given_in, told_in
from .serving import ANSWERS

CHANGING = frozenset(("bind", "delete", "deleteLater", "invoke", "set", "spin", "unbind"))
"""The commands that may change properties in a group: by docs/PROTOCOL.md those that call, except `end`."""


def holding_back(path: Path, size: int) -> Set[str]:
    """The sessions that may hold back changes: their outermost group is open, and since its beginning they have given a command
    that may change properties and was not refused."""
    found: Dict[str, bool] = {}
    answers = (line for line in told_in(path, size) if line.startswith(ANSWERS))
    for line, answer in zip(given_in(path, size), answers):
        command, told = command_in(line), json.loads(answer)
        name, do = str(command.get("session")), command.get("do")
        if do == "begin" and told.get("reply") == 1:
            found[name] = False
        elif do == "reset" or do == "end" and told.get("reply") == 0:
            found.pop(name, None)
        elif name in found and do in CHANGING and "reply" in told:
            found[name] = True
    return {name for name, has_changed in found.items() if has_changed}
