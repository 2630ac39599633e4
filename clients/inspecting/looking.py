"""What the inspector asks sessions automatically if it may, instead of showing that something is not known."""

from __future__ import annotations

import threading
import time
from collections import deque
from typing import Any, Callable, Deque, Dict, List, Optional, Set, Tuple

from common.asked import OBJECT_NAME
from common.objects import ROOT
from common.told import ROOTS, WHOLE
from common.values import UNKNOWN

from .allowed import text_of
from .described import unknown_in
from .effects import cell_of
from .entries import Entry
from .session import Session
from .world import World

MOST = 5  # commands in each second
NO_COMMAND = "E02"

Json = Dict[str, Any]
Ask = Callable[[str, bytes], Optional[Entry]]


class Pace:
    """Limits how many commands are given in each second."""

    def __init__(self, most: int = MOST, clock: Callable[[], float] = time.monotonic) -> None:
        self.clock = clock
        self.taken: Deque[float] = deque(maxlen=most)
        self.lock = threading.Lock()

    def take(self) -> bool:
        """Whether one more may be given now. If so, it is counted."""
        with self.lock:
            now = self.clock()
            if len(self.taken) == self.taken.maxlen and now - self.taken[0] < 1:
                return False
            self.taken.append(now)
            return True


def wanted_of_object(world: World, session: Session, number: int) -> List[Json]:
    """The commands that tell what is not known of an object."""
    objects, of_object = session.objects, {"object": number}
    class_name = objects.classes.get(number)
    found: List[Json] = []
    if class_name is None or number not in objects.sure or session.blocked.get(number, False) is None:
        found.append({"do": "object", **of_object})
    if not are_values_known(world, session, number):
        found.append({"do": "properties", **of_object})
    unread = {spot for spot in (*session.unread, *session.loose) if spot[0] == number}
    found += [{"do": "binding", **of_object, "property": name} for _, name in sorted(unread)]
    if not session.are_connections_sure or has_unnumbered(session, number):
        found.append({"do": "connections"})
    unknown = unknown_in(world.classes, world.described, class_name)
    if unknown is not None:
        found.append({"do": "describe", "class": unknown})
    return found


def has_unnumbered(session: Session, number: int) -> bool:
    """Whether an object has a connection whose number is not known, as of those that slots make."""
    return any(it.number is None for it in session.connections.values() if number in (it.sender, it.receiver))


def are_values_known(world: World, session: Session, number: int) -> bool:
    """Whether all values of an object and all its errors are known for certain."""
    class_name = session.objects.classes.get(number)
    names = {*(it.name for it in world.classes.properties(class_name)), *session.of_object.get(number, ())}
    cells = [cell_of(world.classes, session, (number, name)) for name in names]
    errors = [session.errors[number, name] for name in names if (number, name) in session.errors]
    is_declared = class_name in world.classes or bool(session.of_object.get(number))
    return is_declared and all(it.is_sure and it.value is not UNKNOWN for it in (*cells, *errors))


def wanted_of_tree(session: Session) -> List[Json]:
    """The commands that tell what is not known of the places, the classes and the names of objects."""
    objects = session.objects
    is_missed = (not session.is_known or objects.has_earlier) and ROOTS not in session.read
    if ROOT not in objects.whole or is_missed:
        return [{"do": "children"}]
    numbers = [it for it in objects.tree_below(ROOT) if it != ROOT]
    found: List[Json] = [{"do": "children", "object": it} for it in numbers if it not in objects.whole]
    found += [{"do": "object", "object": it} for it in numbers if it not in objects.classes or it not in objects.sure]
    return found + [{"do": "get", "object": it, "property": OBJECT_NAME} for it in numbers if it not in objects.names]


def wanted_of_session(session: Session) -> List[Json]:
    """The commands that tell what is not known of the counts, the connections and the bindings of a session."""
    found: List[Json] = [] if session.is_queue_sure else [{"do": "status"}]
    if not session.are_connections_sure:
        found.append({"do": "connections"})
    found += [{"do": word} for word in WHOLE if not session.is_known and word not in session.read]
    return found + [{"do": "binding", "object": number, "property": name} for number, name in sorted(session.unread)]


class Looks:
    """Asks for what is not known of what the page shows, at the pace that is given. Commands that bring nothing new are not
    repeated until the session has done something, and commands that the server does not know are never repeated."""

    def __init__(self, ask: Ask, pace: Optional[Pace] = None) -> None:
        self.ask = ask
        self.pace = pace or Pace()
        self.lock = threading.Lock()
        self.rounds = 0  # looks so far
        self.asked: Dict[str, int] = {}  # the number of commands that were given here, by session
        self.unknown: Set[str] = set()  # words that the server does not know
        self.fruitless: Dict[Tuple[str, Optional[int]], Tuple[int, List[Json]]] = {}

    def wanted(self, world: World, name: str, number: Optional[int]) -> List[Json]:
        """The commands to give for an object of a session, or for its tree and its counts."""
        session = world.sessions.get(name)
        if session is None or session.failed or session.is_gone:
            return []
        found = [*wanted_of_tree(session), *wanted_of_session(session)] if number is None else wanted_of_object(world, session, number)
        found = [it for it in found if it["do"] not in self.unknown]
        is_known = self.fruitless.get((name, number)) == (self.others(session), found)
        return [] if is_known else found

    def others(self, session: Session) -> int:
        """The number of commands that others gave to a session."""
        return session.commands - self.asked.get(session.name, 0)

    def look(self, world: World, name: str, number: Optional[int]) -> Json:
        """Gives as many of the wanted commands as it may now; returns how many it gave and how many are left."""
        with self.lock:
            with world.lock:
                wanted = self.wanted(world, name, number)
            count = 0
            for command in wanted:
                if not self.pace.take() or not self.ask_one(name, command):
                    break
                count += 1
            with world.lock:
                left = self.wanted(world, name, number)
                if count and count == len(wanted) and all(it in wanted for it in left):
                    self.fruitless[name, number] = (self.others(world.sessions[name]), left)
                    left = []
                self.rounds += 1
        return {"asked": count, "left": len(left)}

    def ask_one(self, name: str, command: Json) -> bool:
        """Gives one command; returns whether it was given."""
        entry = self.ask(name, text_of(command))
        if entry is None:
            return False
        self.asked[name] = self.asked.get(name, 0) + 1
        if entry.error == NO_COMMAND:
            self.unknown.add(command["do"])
        return True
