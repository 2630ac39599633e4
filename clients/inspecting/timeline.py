"""What the timeline shows of a span of time: signals that were sent, how often in each part of it, and values of a property."""

from __future__ import annotations

from typing import Any, Dict, Iterator, List, Optional, Tuple

from common.values import UNKNOWN, Spot

from .entries import Emission, Entry
from .happened import Sought
from .views import told
from .world import World

ROWS_MOST = 1_500  # emissions
BINS_MOST = 400
POINTS_MOST = 2_000  # values

Json = Dict[str, Any]
Span = Tuple[Optional[int], Optional[int]]  # from which time to which, in millionths of a second


def time_of(entry: Entry) -> int:
    return entry.ended or entry.given


def within(world: World, span: Span) -> Iterator[Entry]:
    """The commands of a span of time, the newest first."""
    start, end = span
    for entry in reversed(world.entries.kept):
        if start is not None and time_of(entry) < start:
            return
        if end is None or time_of(entry) <= end:
            yield entry


def sent(world: World, sought: Sought, span: Span) -> Iterator[Tuple[Entry, int, Emission]]:
    """The signals that were sent in a span of time, the newest first."""
    for entry in within(world, span):
        if entry.emissions and sought.is_met(entry):
            for at in range(len(entry.emissions) - 1, -1, -1):
                it = entry.emissions[at]
                if (sought.object is None or it.object == sought.object) and sought.signal in it.signal:
                    yield entry, at, it


def emissions(world: World, sought: Sought, span: Span, count: int, bins: int) -> Json:
    """The newest signals of a span of time, in the order in which they were sent, and how many there were in each part of it."""
    found = list(sent(world, sought, span))
    times = [time_of(entry) for entry, _, _ in found]
    start = span[0] if span[0] is not None else min(times, default=0)
    end = span[1] if span[1] is not None else max([*times, start + 1])
    rows = [
        [entry.number, at, entry.session, it.object, it.signal, len(it.calls) + len(it.events), time_of(entry)]
        for entry, at, it in found[: min(count, ROWS_MOST)]
    ]  # fmt: skip
    return {
        "rows": rows[::-1], "total": len(found), "from": start, "to": max(end, start + 1), "now": world.now,
        "epoch": world.epoch or None, "rates": rates(times, start, max(end, start + 1), min(bins, BINS_MOST)),
        "kept_from": time_of(world.entries.kept[0]) if world.entries.kept else None,
    }  # fmt: skip


def rates(times: List[int], start: int, end: int, bins: int) -> List[int]:
    """How many of some times are in each part of a span, which ends with the last part."""
    counts = [0] * max(1, bins)
    for time in times:
        if start <= time <= end:
            counts[min(len(counts) - 1, (time - start) * len(counts) // (end - start))] += 1
    return counts


def values(world: World, session: str, spot: Spot, span: Span) -> Json:
    """The values that a property is known to have had in a span of time, each with its time and its command, in order; first the
    one that it had before."""
    found: List[Json] = []
    start = span[0]
    for entry in within(world, (None, span[1])):
        if entry.session == session:
            found += [{"time": time_of(entry), "value": told(value), "entry": entry.number} for value in newest_of(entry, spot)]
            if len(found) >= POINTS_MOST or found and start is not None and found[-1]["time"] < start:
                break
    return {"points": found[::-1]}


def newest_of(entry: Entry, spot: Spot) -> List[Any]:
    """The value that a command has left a property with, if that is known."""
    known = [value for at, value in entry.changes if at == spot and value is not UNKNOWN]
    return known[-1:]
