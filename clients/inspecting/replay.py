"""A record in place of a live server: it is run once, and then shown as far as one likes, forward and back."""

from __future__ import annotations

import subprocess
import threading
from typing import Any, Dict, FrozenSet, List, Sequence, Tuple

from common.ending import Stop
from slicing.record import Entry, entries_of, mark

from .classes import classes_of
from .world import World

STEP = 1_000  # of the time that is shown, for each line of the record


class Replay:
    """A record, what the program tells to its lines, and how much of it is shown."""

    def __init__(self, record: bytes, words: Sequence[str]) -> None:
        self.record = record
        self.words = list(words)
        self.classes = classes_of(self.words[1:])
        self.steps: List[Tuple[bytes, List[bytes]]] = []
        self.entries: List[Entry] = []
        self.slices: Dict[str, FrozenSet[int]] = {}
        self.world = World(self.classes)
        self.moving = threading.Lock()
        self.at = 0
        self.moves = 0  # how often another line was chosen, by which a page tells what is older from what is newer

    def load(self) -> None:
        """Runs the program on the record."""
        self.entries = entries_of(self.record, self.run())
        self.steps = [(it.raw, [told.raw for told in it.told]) for it in self.entries]

    def run(self, *options: str) -> bytes:
        """What the program writes for the record."""
        program, *args = self.words
        try:
            ran = subprocess.run([program, *options, *args], input=self.record, stdout=subprocess.PIPE)
        except (OSError, ValueError) as error:
            raise Stop(f"{program} cannot be started: {getattr(error, 'strerror', None) or error}") from None
        if ran.returncode:
            raise Stop(f"{program} has ended with status {ran.returncode}")
        return ran.stdout

    def go(self, to: int) -> Dict[str, Any]:
        """Shows the record up to a line; back is from the beginning."""
        to = min(max(to, 0), len(self.steps))
        with self.moving:
            is_forward = to >= self.at
            world = self.world if is_forward else World(self.classes)
            with world.lock:
                for number in range(self.at if is_forward else 0, to):
                    self.step(world, number)
                world.version = max(world.version, self.world.version) + 1
            self.world, self.at = world, to
            self.moves += 1
            return self.place()

    def place(self) -> Dict[str, Any]:
        """How far the record is shown."""
        return {"at": self.at, "of": len(self.steps), "moves": self.moves}

    def step(self, world: World, number: int) -> None:
        """Shows one more line of the record."""
        raw, told = self.steps[number]
        world.now = number * STEP
        world.begin(raw)
        for line in told:
            world.tell(line)

    def slice(self, name: str) -> FrozenSet[int]:
        """The numbers of the lines that a session's output depends on; all, where the program does not say it."""
        if name not in self.slices:
            try:
                kept = self.run(f"--slice={name}")
            except Stop:
                return frozenset(range(1, len(self.steps) + 1))
            for entry in self.entries:
                entry.is_kept = False
            mark(self.entries, kept)
            self.slices[name] = frozenset(at for at, it in enumerate(self.entries, 1) if it.is_kept)
        return self.slices[name]
