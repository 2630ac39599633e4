"""What the page receives about what has happened: commands, their calls within one another, emissions, and slots."""

from __future__ import annotations

import json
from dataclasses import dataclass
from typing import Any, Dict, FrozenSet, Iterator, List, Optional

from common.asked import OBJECT_KEYS
from common.objects import Misfit
from explaining.commands import Command
from explaining.lines import Error, Reply

from .entries import Call, Entry
from .views import told
from .world import NOBODY, World

COUNT_MOST = 300
LOOKED_AT = 20_000  # commands that are looked at for one answer
TEXT_SHOWN = 200

Json = Dict[str, Any]


@dataclass(frozen=True)
class Sought:
    """Which commands are to be shown."""

    session: str = ""
    object: Optional[int] = None
    signal: str = ""
    kept: Optional[FrozenSet[int]] = None  # numbers of a slice

    def is_met(self, entry: Entry) -> bool:
        """Whether a command is one of these."""
        if self.session and entry.session != self.session:
            return False
        if self.kept is not None and entry.number not in self.kept:
            return False
        if self.object is not None and not self.names_object(entry):
            return False
        return not self.signal or self.names_signal(entry)

    def names_object(self, entry: Entry) -> bool:
        """Whether a command or a call of it names the object."""
        is_asked = any(entry.asked.get(key) == self.object for key in OBJECT_KEYS)
        is_new = entry.word == "new" and entry.reply == self.object
        return is_asked or is_new or any(self.object in (it.object, it.sender) for it in entry.calls)

    def names_signal(self, entry: Entry) -> bool:
        """Whether a command or a call has a text in the names of its signals, methods or properties, or the word of it."""
        words = [entry.word, *(str(entry.asked.get(key, "")) for key in ("signal", "method", "property", "class", "name"))]
        if any(self.signal in it for it in words):
            return True
        return any(self.signal in it.call or any(self.signal in step[1] for step in it.path) for it in entry.calls)


def shortened(raw: bytes) -> str:
    """The first of a line."""
    text = raw[: TEXT_SHOWN * 4].decode("utf-8", "replace")
    return text if len(text) <= TEXT_SHOWN else text[:TEXT_SHOWN] + " …"


def meaning(entry: Entry) -> Optional[str]:
    """What the answer means, in words."""
    if entry.session == NOBODY or not entry.word:
        return None
    answer = Reply(entry.session, entry.reply) if entry.error is None else Error(entry.session, entry.error)
    try:
        said = answer.said_to(Command(entry.number, entry.raw, entry.asked))
    except (Misfit, KeyError, TypeError, ValueError, AttributeError):
        return None
    return said if len(said) <= TEXT_SHOWN else said[:TEXT_SHOWN] + " …"


def row(entry: Entry) -> Json:
    """A command as the list shows it."""
    return {
        "entry": entry.number,
        "session": entry.session,
        "time": entry.given,
        "taken": entry.taken,
        "word": entry.word,
        "text": shortened(entry.raw),
        "said": meaning(entry),
        "calls": len(entry.calls) + entry.left_out,
        "warnings": len(entry.warnings),
        "error": entry.error,
        "by_inspector": entry.by_inspector,
    }


def newest(world: World, sought: Sought, before: Optional[int]) -> Iterator[Entry]:
    """The commands that are sought, the newest first; it looks at `LOOKED_AT` commands at most."""
    looked_at = 0
    for entry in reversed(world.entries.kept):
        if before is not None and entry.number >= before:
            continue
        looked_at += 1
        if looked_at > LOOKED_AT:
            return
        if sought.is_met(entry):
            yield entry


def lines(world: World, sought: Sought, before: Optional[int], count: int) -> Json:
    """Some commands, the newest first."""
    rows = []
    for entry in newest(world, sought, before):
        rows.append(row(entry))
        if len(rows) >= min(count, COUNT_MOST):
            break
    return {"rows": rows, "first": world.entries.first(), "count": world.entries.count}


# ---- one command ----


def call_row(number: int, call: Call) -> Json:
    return {
        "number": number,
        "object": call.object,
        "class": call.class_name,
        "call": call.call,
        "args": [told(it) for it in call.args] if len(str(call.args)) < 20_000 else [str(call.args)[:20_000]],
        "sender": call.sender,
        "parent": call.parent,
        "path": [list(it) for it in call.path],
        "connection": call.connection,
        "posted": list(call.posted) if call.posted else None,
        "traced": call.is_traced,
    }


def whole(world: World, number: int) -> Optional[Json]:
    """A command with all its calls, warnings and its reply."""
    entry = world.entries.get(number)
    if entry is None:
        return None
    return {
        **row(entry),
        "text": entry.raw.decode("utf-8", "replace"),
        "answer": entry.answer.decode("utf-8", "replace"),
        "call_rows": [call_row(at, it) for at, it in enumerate(entry.calls)],
        "warning_rows": [[it.code, it.object, it.property, it.behind] for it in entry.warnings],
        "emissions": [[it.object, it.signal, it.call, it.calls, it.events] for it in entry.emissions],
        "left_out": entry.left_out,
    }


def step_of(kind: str, entry: Entry, text: str, number: Optional[int] = None, **more: Any) -> Json:
    """A step of a chain."""
    return {"kind": kind, "entry": entry.number, "session": entry.session, "text": text, "object": number, **more}


def chain(world: World, number: int, call: int) -> List[Json]:
    """What has led to a call, from the first command on: commands, signals and slots, also by way of events."""
    found: List[Json] = []
    entry, at = world.entries.get(number), call
    for _ in range(100):
        if entry is None:
            found.append({"kind": "unknown", "entry": number})
            break
        while at >= 0:
            it = entry.calls[at]
            found.append(step_of("call", entry, it.call, it.object, call=at))
            found += [step_of("signal", entry, signal, number) for number, signal, _ in reversed(it.path)]
            if it.posted or it.parent < 0:
                break
            at = it.parent
        posted = entry.calls[at].posted if at >= 0 else None
        if posted is None:
            found.append(step_of("command", entry, shortened(entry.raw)))
            break
        found.append({"kind": "event", "entry": entry.number, "session": posted[2], "text": "waited as an event"})
        number, at = posted[0], posted[1]
        entry = world.entries.get(number)
        if at < 0 or entry is None:
            found.append({"kind": "command", "entry": number, "session": posted[2], "text": shortened(entry.raw) if entry else ""})
            break
    return found[::-1]


# ---- slots ----


def busiest(world: World, session: str, order: str, count: int) -> Json:
    """The slots that were called, those first that were most, or whose commands took longest."""
    rows: List[Json] = []
    for name in [session] if session else world.slots:
        for (class_name, slot), (calls, commands, taken, worst, entry) in world.slots.get(name, {}).items():
            rows.append({
                "session": name, "class": class_name, "slot": slot, "calls": calls, "commands": commands,
                "mean": taken // max(1, commands), "worst": worst, "entry": entry,
            })  # fmt: skip
    order = order if order in ("calls", "mean", "worst") else "calls"
    rows.sort(key=lambda it: -int(it[order]))
    total = sum(it["calls"] for it in rows)
    return {"rows": rows[: min(count, COUNT_MOST)], "total": len(rows), "calls": total}


def dumped(value: Any) -> bytes:
    """A value as the page reads it."""
    return json.dumps(value, separators=(",", ":")).encode()
