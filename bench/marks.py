"""The marks of each figure: a guard, which a run must keep, and a goal, which decides nothing.

`marks.json` has them, with the count that each guard was made from. The tables of docs/internals/MEASURES.md show counts and
goals; they have no guards, because each is made from its count.
"""

from __future__ import annotations

import json
import math
import re
from dataclasses import asdict, dataclass
from pathlib import Path
from typing import Dict, Iterable, Iterator, List, Union

from figures import FIGURES, Figure, Ratio

Number = Union[int, float]

MARKS = Path(__file__).with_name("marks.json")
PAGE = Path(__file__).resolve().parent.parent / "docs" / "internals" / "MEASURES.md"
TABLES = re.compile(r"(<!-- tables: counts -->\n).*?(<!-- end of tables -->\n)", re.DOTALL)  # on the page
GROWTH = ("figure", "per", "small", "large", "ratio", "goals")  # the columns of each table
LINES = ("figure", "per", "count", "goal")
MEMORY = ("figure", "unit", "count", "goal")

GOALS_OF_MEMORY = {
    "another Cell": 600,
    "another binding": 550,
    "another queued event": 90,
    "another join": 80,
    "a call, until its command ends": 80,
}  # in bytes

ROOM = 1.03  # a guard is so many times the count that it was made from
SMALLEST = 0.01  # and at least so much more than that, which is the last digit that is shown


@dataclass(frozen=True)
class Mark:
    """What a figure was when it was last written down, and what it may and should be at most; None where nothing is said."""

    name: str
    unit: str
    count: Number
    guard: Number | None
    goal: Number | None


def rounded(value: float) -> Number:
    """A figure as it is shown, written down and compared with its marks."""
    return round(value) if value >= 100 else round(value, 2)


def shown(value: Number | None) -> str:
    """The text of a figure, or of none."""
    if value is None:
        return "-"
    return f"{value:,}" if isinstance(value, int) else f"{value:,.2f}"


def is_reached(count: Number, goal: Number | None) -> str:
    """Whether a count has reached a goal, in a word."""
    if goal is None:
        return "-"
    return "yes" if count <= goal else "no"


def guard_of(count: Number) -> Number:
    """The most that a count may become before a run fails, rounded up to what is shown."""
    most = max(ROOM * count, count + SMALLEST)
    return math.ceil(round(most, 6)) if most >= 100 else round(math.ceil(round(100 * most, 6)) / 100, 2)


def read(path: Path = MARKS) -> Dict[str, Mark]:
    """The marks by the names of their figures."""
    return {it["name"]: Mark(**it) for it in json.loads(path.read_text())}


def faults_of(figure: Figure | Ratio, count: Number, mark: Mark | None, last: Number | None) -> Iterator[str]:
    """Why a run fails with this count of a figure, given its mark and the count of an earlier program, where there is one.

    A ratio never decides: both figures that it is made of have guards of their own, and it grows where the smaller one
    becomes cheaper.
    """
    if isinstance(figure, Ratio):
        return
    if mark is None or mark.guard is None:
        yield "it has no guard"
    elif count > mark.guard:
        yield f"it is over its guard of {shown(mark.guard)}"
    if last is not None and count > ROOM * last:
        yield f"it is more than {ROOM} times that of the last program"


def of_run(figures: Iterable[Figure | Ratio], values: Dict[str, float], known: Dict[str, Mark]) -> List[Mark]:
    """The marks that a run gives: its counts, guards made from these, and the goals as they are."""
    made = []
    for figure in figures:
        count = rounded(values[figure.name])
        guard = None if isinstance(figure, Ratio) else guard_of(count)
        goal = known[figure.name].goal if figure.name in known else None
        made.append(Mark(figure.name, figure.counts, count, guard, goal))
    return made


def write(marks: List[Mark], sessions: Dict[str, float]) -> None:
    """Writes down marks, here and on the page, which has the bytes of sessions and of what they hold too."""
    MARKS.write_text("[\n" + ",\n".join(json.dumps(asdict(it)) for it in marks) + "\n]\n")
    write_page({it.name: it for it in marks}, marks_of_memory(sessions))


def marks_of_memory(sessions: Dict[str, float]) -> List[Mark]:
    """The marks of bytes of sessions and of what they hold, which have goals and no guards."""
    return [Mark(name, "bytes", round(value), None, GOALS_OF_MEMORY.get(name)) for name, value in sessions.items()]


def table_of(columns: Iterable[str], rows: Iterable[Iterable[str]]) -> str:
    """A table in Markdown."""
    cells = [list(columns), *map(list, rows)]
    lines = ["| " + " | ".join(row) + " |\n" for row in cells]
    return "".join([lines[0], "|---" * len(cells[0]) + "|\n", *lines[1:]])


def marked(mark: Mark) -> str:
    """A count as the page shows it: in bold if it misses its goal."""
    text = shown(mark.count)
    return f"**{text}**" if is_reached(mark.count, mark.goal) == "no" else text


def goals_of(marks: Iterable[Mark]) -> str:
    """The goals of some marks, in one cell."""
    goals = [it.goal for it in marks]
    return "; ".join(map(shown, goals)) if any(it is not None for it in goals) else "-"


def row_of(mark: Mark, unit: str) -> List[str]:
    """The row of one figure."""
    return [mark.name, unit, marked(mark), shown(mark.goal)]


def tables_of(marks: Dict[str, Mark], sessions: Iterable[Mark]) -> str:
    """The tables of the page: pairs of figures with their ratio, the other figures, and memory."""
    ratios = [it for it in FIGURES if isinstance(it, Ratio)]
    pairs = {it: [marks[name] for name in (it.small.name, it.large.name, it.name)] for it in ratios}
    listed = {it.name for of_ratio in pairs.values() for it in of_ratio}
    others = [it for it in FIGURES if isinstance(it, Figure) and it.name not in listed]
    growth = ([it.name, it.small.unit, *map(marked, found), goals_of(found)] for it, found in pairs.items())
    lines = (row_of(marks[it.name], it.unit) for it in others if it.counts_instructions)
    memory = [*(marks[it.name] for it in others if not it.counts_instructions), *sessions]
    return "\n".join((table_of(GROWTH, growth), table_of(LINES, lines), table_of(MEMORY, (row_of(it, it.unit) for it in memory))))


def write_page(marks: Dict[str, Mark], sessions: Iterable[Mark]) -> None:
    """Writes the tables of the page again."""
    made = tables_of(marks, sessions)
    PAGE.write_text(TABLES.sub(lambda found: f"{found[1]}\n{made}\n{found[2]}", PAGE.read_text()))
