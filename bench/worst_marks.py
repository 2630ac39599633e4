"""What the most expensive lines took when they were last counted; each has a guard, and may have a goal.

`worst.json` has them, and the table of docs/internals/MEASURES.md is made from it.
"""

from __future__ import annotations

import json
from dataclasses import asdict, dataclass, replace
from itertools import groupby
from pathlib import Path
from typing import Dict, Iterable, Iterator, List, Tuple

from counting import Fault
from marks import PAGE, guard_of, shown

MARKS = Path(__file__).with_name("worst.json")
PAGE_HEAD = "| session | line: times what it may take |\n|---|---|\n"
ITSELF, ROW = 3_000, 300  # instructions that are allowed
FAR = 3  # the page has lines that take at least so many times what they may
KIBIBYTES = 512  # by which a peak of memory may differ from run to run

Name = Tuple[str, str]  # of a state, and of a line in it


@dataclass(frozen=True)
class Cost:
    """What a line takes after a state, and alone: instructions, None where it takes too long.

    `memory` is by how many KiB the line raises the peak of resident memory, None where that is not measured. What is written
    down also has a guard for each of the two, and where one is known a goal for the instructions.
    """

    state: str
    line: str
    rows: int
    does: int
    taken: int | None
    alone: int
    memory: int | None = None
    guard: int | None = None
    memory_guard: int | None = None
    goal: int | None = None

    @property
    def name(self) -> Name:
        return self.state, self.line

    @property
    def share(self) -> float:
        """How many times the allowance it takes, beyond what it takes alone."""
        may = ITSELF * self.does + ROW * self.rows
        return float("inf") if self.taken is None else max(0, self.taken - self.alone) / may

    @property
    def kind(self) -> str:
        """The command that it is, or what it does if it calls a slot for its actions."""
        return self.line.split("`")[1] if self.line.startswith("`") else self.line


def text_of(cost: Cost, lines: int, mark: Cost | None) -> str:
    """A row of the table that is printed: what a line with so many lines of output took, and its mark."""
    share = "-" if cost.taken is None else f"{cost.share:.2f}"
    guards = [mark.guard, mark.goal] if mark else [None, None]
    numbers = (lines, cost.rows, cost.does, cost.taken, cost.alone)
    return "| " + " | ".join([cost.state, cost.line, *map(shown, numbers), share, *map(shown, (*guards, cost.memory))]) + " |"


def faults_of(cost: Cost, mark: Cost | None) -> Iterator[str]:
    """Why a run fails because of what a line took, by its mark."""
    if mark is None:
        yield "it has no guard"
        return
    if mark.guard is not None and (cost.taken is None or cost.taken > mark.guard):
        yield f"it is over its guard of {mark.guard:,} instructions"
    if mark.memory_guard is not None and (cost.memory is None or cost.memory > mark.memory_guard):
        yield f"it is over its guard of {mark.memory_guard:,} KiB"


def reached(costs: Iterable[Cost], known: Dict[Name, Cost]) -> List[bool]:
    """Whether each line that has a goal has reached it."""
    goals = {name: it.goal for name, it in known.items() if it.goal is not None}
    return [it.taken is not None and it.taken <= goals[it.name] for it in costs if it.name in goals]


def read(path: Path = MARKS) -> Dict[Name, Cost]:
    """The marks by the names of states and lines."""
    return {it.name: it for it in (Cost(**it) for it in json.loads(path.read_text()))}


def marked(cost: Cost, known: Dict[Name, Cost]) -> Cost:
    """The mark that a count gives, with the goal that is known."""
    guard = None if cost.taken is None else int(guard_of(cost.taken))
    memory_guard = None if cost.memory is None else int(guard_of(cost.memory)) + KIBIBYTES
    goal = known[cost.name].goal if cost.name in known else None
    return replace(cost, guard=guard, memory_guard=memory_guard, goal=goal)


def merged(costs: Iterable[Cost], known: Dict[Name, Cost], names: Iterable[Name]) -> List[Cost]:
    """The marks of all these names in their order: those that a run gives, and where it has not counted a line those known."""
    made = {it.name: marked(it, known) for it in costs}
    return [it for it in (made.get(name, known.get(name)) for name in names) if it is not None]


def write(costs: List[Cost]) -> None:
    """Writes down marks, here and in the table of the page."""
    MARKS.write_text("[\n" + ",\n".join(json.dumps(asdict(it)) for it in costs) + "\n]\n")
    write_page(costs)


def chosen(costs: List[Cost]) -> List[Cost]:
    """Of each state and each command in it the line that takes most of what it may, if that is far too much."""
    most = {(it.state, it.kind): it for it in sorted(costs, key=lambda it: it.share)}
    return [it for it in costs if it.share >= FAR and it in most.values()]


def page_rows(costs: List[Cost]) -> Iterator[str]:
    """The rows of the page, one for each state that has such a line."""
    for state, found in groupby(chosen(costs), key=lambda it: it.state):
        lines = (f"{it.line}: {'takes too long' if it.taken is None else f'{it.share:,.0f}'}" for it in found)
        yield f"| {state} | {'; '.join(lines)} |\n"


def write_page(costs: List[Cost]) -> None:
    """Writes the table of the page again."""
    before, head, after = PAGE.read_text().partition(PAGE_HEAD)
    if not head:
        raise Fault(f"{PAGE.name} has no table with this head: {PAGE_HEAD}")
    PAGE.write_text(before + head + "".join(page_rows(costs)) + "\n" + after.partition("\n\n")[2])
