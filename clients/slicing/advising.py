"""What is to be said about a record that cannot be sliced as requested."""

from __future__ import annotations

import json
from difflib import get_close_matches
from typing import Iterable, List, Optional, Sequence

from checking.words import listed, plain

from .record import Entry

NO_CLASS = "E03"
SHOWN_MOST = 20  # names that a text lists


def no_session(record: str, name: str, entries: Sequence[Entry]) -> Optional[str]:
    """What is wrong where no command of a record is of this session, with the sessions that there are; else None."""
    names = list(dict.fromkeys(it.session for it in entries if it.is_command))
    if name in names:
        return None
    if not names:
        return f"{record} has no command of {name}, nor of any other session"
    near = get_close_matches(name, names, 1)
    return f"{record} has no command of {name}; its sessions are {some_of(names)}" + "".join(f"; did you mean {it}?" for it in near)


def no_classes(entries: Iterable[Entry]) -> Optional[str]:
    """What is wrong where the slice makes objects of classes that the program does not have without a class file; else
    None."""
    refused = [json.loads(it.raw) for it in entries if it.is_kept and it.told[-1].error == NO_CLASS]
    names = list(dict.fromkeys(plain(str(it["class"])) for it in refused if it["do"] == "new"))
    if not names:
        return None
    return (
        f"without a class file metad knows no class {some_of(names, 'or')}, which the record names (E03), so that the output"
        " cannot be compared: give the class file of the recorded run by --classes FILE"
    )


def some_of(names: List[str], last: str = "and") -> str:
    """Names as a sentence has them, not more than a few."""
    more = len(names) - SHOWN_MOST
    return listed(names, last) if more <= 0 else f"{', '.join(names[:SHOWN_MOST])} and {more} more"
