"""What the page may ask for by name, and what it may have done."""

from __future__ import annotations

from dataclasses import dataclass
from typing import Any, Callable, Dict, FrozenSet, List, Optional, Set, Tuple

from . import graphs, happened, searching, timeline, views
from .allowed import is_allowed, is_session, text_of, value_of
from .answers import Answers
from .entries import Entry
from .drawing import Layouts, drawn
from .evaluating import settle_errors
from .feed import Asking
from .happened import Sought, dumped
from .looking import Looks
from .replay import Replay
from .world import MILLION, World

ASKED_MOST = 4_096  # objects that are asked for their children at once

Json = Dict[str, Any]
Asked = Dict[str, str]


class Refused(Exception):
    """Why something is not answered, as a status of HTTP."""

    def __init__(self, status: int) -> None:
        super().__init__(status)
        self.status = status


@dataclass(frozen=True)
class Leave:
    """What the page may do in addition to looking."""

    ask: bool = False
    write: bool = False


def number_in(asked: Asked, key: str, otherwise: Optional[int] = None) -> Optional[int]:
    """A whole number that is asked with."""
    word = asked.get(key, "")
    return int(word) if word.isdecimal() and len(word) < 16 else otherwise


def part_of(asked: Asked) -> Tuple[int, int]:
    """The part of a list that is asked for: its first row, and how many."""
    return number_in(asked, "from", 0) or 0, number_in(asked, "count", 60) or 0


def span_of(asked: Asked) -> timeline.Span:
    """The span of time that is asked for."""
    return number_in(asked, "from"), number_in(asked, "to")


class Pages:
    """Answers what the page asks for."""

    def __init__(self, world: World, asking: Asking, leave: Leave, words: Any, replay: Optional[Replay] = None) -> None:
        self.own_world = world
        self.asking = asking
        self.leave = leave
        self.words = words
        self.replay = replay
        self.looks = Looks(asking.ask)
        self.layouts = Layouts()
        self.answers = Answers()
        self.gets: Dict[str, Callable[[World, Asked], Any]] = {
            "about": self.about, "sessions": self.sessions, "place": self.place_of, "tree": self.tree, "object": self.object,
            "lines": self.lines, "entry": self.entry, "chain": self.chain, "emissions": self.emissions, "values": self.values,
            "slots": self.slots,
        }  # fmt: skip

    @property
    def world(self) -> World:
        return self.replay.world if self.replay else self.own_world

    def news(self) -> Json:
        """What the page receives at each moment."""
        world = self.world
        with world.lock:
            return {**views.summary(world), **self.place()}

    def place(self) -> Json:
        """How far a record is shown."""
        return self.replay.place() if self.replay else {}

    def moment(self, world: World) -> Tuple[int, ...]:
        """What answers depend on: what is known and was asked, the record's world, the second, and how late what is known is."""
        count = len(world.under_way)
        return (id(world), world.version, world.lines, count, world.clock() // MILLION, world.lag, self.looks.rounds)

    def answer(self, name: str, asked: Asked) -> bytes:
        """What is asked by a name, as the page reads it: made once for all browsers that ask for the same."""
        world = self.world
        with world.lock:
            moment = self.moment(world)
        return self.answers.get(moment, (name, *sorted(asked.items())), lambda: dumped(self.get(name, asked)))

    def answer_news(self) -> bytes:
        """The news as the page reads them."""
        world = self.world
        with world.lock:
            moment = self.moment(world)
        return self.answers.get(moment, "news", lambda: dumped(self.news()))

    def get(self, name: str, asked: Asked) -> Any:
        """Answers what is asked by a name, with null where nothing is known of it; refuses a name that there is not."""
        do = self.gets.get(name)
        world = self.world
        if name == "graph":
            return self.graph(asked)
        if name == "search":
            return searching.search(world, searching.query_of(asked.get("sought", ""), asked.get("by", "")))
        if do is None:
            raise Refused(404)
        with world.lock:
            return do(world, asked)

    # ---- what is known ----

    def about(self, world: World, _asked: Asked) -> Json:
        return {
            "record": self.replay is not None,
            "ask": self.leave.ask,
            "write": self.leave.write,
            "words": self.words,
            "classes": sorted(world.classes.own) if world.classes.is_whole else None,
            **views.summary(world),
            **self.place(),
        }

    def sessions(self, world: World, asked: Asked) -> Json:
        only = [it for it in asked.get("only", "").split(",") if it]
        sought, order = asked.get("sought", ""), asked.get("sort", "name")
        return views.sessions(world, *part_of(asked), sought, order, only, asked.get("chosen"))

    def place_of(self, world: World, asked: Asked) -> Optional[Json]:
        name, number = asked["session"], number_in(asked, "object")
        found = self.with_wanted(world, views.place(world, name, number), name, None)
        if found and "object" in found:
            found["object"] = self.with_wanted(world, found["object"], name, number)
        return found

    def tree(self, world: World, asked: Asked) -> Optional[Json]:
        closed: Set[int] = {int(it) for it in asked.get("closed", "").split(",") if it.isdecimal() and len(it) < 16}
        sought, class_name, chosen = asked.get("sought", ""), asked.get("class", ""), number_in(asked, "chosen")
        found = views.tree(world, asked["session"], *part_of(asked), closed, sought, class_name, chosen)
        return self.with_wanted(world, found, asked["session"], None)

    def object(self, world: World, asked: Asked) -> Optional[Json]:
        number = number_in(asked, "number", 0) or 0
        return self.with_wanted(world, views.object_of(world, asked["session"], number), asked["session"], number)

    def with_wanted(self, world: World, found: Optional[Json], session: str, number: Optional[int]) -> Optional[Json]:
        """What is known, with how much of it may be asked for by `look`."""
        if found is None:
            return None
        return {**found, "wanted": len(self.looks.wanted(world, session, number)) if self.leave.ask else 0}

    def sought(self, asked: Asked) -> Sought:
        """Which commands are sought."""
        kept: Optional[FrozenSet[int]] = None
        if asked.get("slice") and self.replay:
            kept = self.replay.slice(asked["slice"])
        return Sought(asked.get("session", ""), number_in(asked, "object"), asked.get("signal", ""), kept)

    def lines(self, world: World, asked: Asked) -> Json:
        return happened.lines(world, self.sought(asked), number_in(asked, "before"), number_in(asked, "count", 60) or 0)

    def entry(self, world: World, asked: Asked) -> Optional[Json]:
        return happened.whole(world, number_in(asked, "number", 0) or 0)

    def chain(self, world: World, asked: Asked) -> Any:
        entry: Optional[Entry] = world.entries.get(number_in(asked, "number", 0) or 0)
        call = number_in(asked, "call", 0) or 0
        return None if entry is None or call >= len(entry.calls) else happened.chain(world, entry.number, call)

    def emissions(self, world: World, asked: Asked) -> Json:
        count, bins = number_in(asked, "count", 500) or 0, number_in(asked, "bins", 100) or 1
        return timeline.emissions(world, self.sought(asked), span_of(asked), count, bins)

    def values(self, world: World, asked: Asked) -> Json:
        spot = (number_in(asked, "object", 0) or 0, asked["property"])
        return timeline.values(world, asked["session"], spot, span_of(asked))

    def slots(self, world: World, asked: Asked) -> Json:
        return happened.busiest(world, asked.get("session", ""), asked.get("sort", "calls"), number_in(asked, "count", 100) or 0)

    def graph(self, asked: Asked) -> Optional[Json]:
        """A graph with its layout, which is made while the world goes on."""
        world = self.world
        with world.lock:
            found = self.graph_of(world, asked)
        return None if found is None else drawn(found, self.layouts)

    def graph_of(self, world: World, asked: Asked) -> Optional[Json]:
        number, steps = number_in(asked, "object"), min(number_in(asked, "near", 0) or 0, 9)
        if asked["kind"] == "joins":
            return graphs.listening(world, asked.get("session", ""), steps)
        session = world.sessions.get(asked["session"])
        if session is None:
            return None
        settle_errors(world.classes, session, world.entries.count)
        if asked["kind"] == "bindings":
            return graphs.bindings(session, number, steps)
        return graphs.connections(world, session, number, steps)

    # ---- what is done ----

    def post(self, name: str, asked: Any) -> Any:
        """Does what the page asks for."""
        if name == "step" and self.replay:
            return self.replay.go(line_in(asked))
        if name == "ask":
            return self.ask(session_in(asked), asked["command"])
        if name == "ask_tree" and self.leave.ask:
            return self.ask_tree(session_in(asked))
        if name == "look" and self.leave.ask:
            return self.looks.look(self.own_world, session_in(asked), object_in(asked))
        raise Refused(403 if name in ("ask_tree", "look") else 404)

    def ask(self, session: str, command: Json) -> Json:
        """Gives a command in the name of a session, where that is allowed, and answers with its calls, warnings and reply."""
        if not isinstance(command, dict):
            raise Refused(400)
        if not is_allowed(command, self.leave.ask, self.leave.write):
            raise Refused(403)
        entry = self.asking.ask(session, text_of(with_numbers(command)))
        return {"answer": None} if entry is None else {**happened.row(entry), "answer": entry.answer.decode("utf-8", "replace")}

    def ask_tree(self, session: str) -> Json:
        """Asks a session for its roots, and each object for its children."""
        waiting: List[Json] = [{"do": "children"}]
        count = 0
        while waiting and count < ASKED_MOST:
            entry = self.asking.ask(session, text_of(waiting.pop()))
            count += 1
            if entry is None or entry.error in ("E20", None) and not isinstance(entry.reply, list):
                break
            waiting += [{"do": "children", "object": it} for it in entry.reply or ()]
        return {"asked": count, "left": len(waiting)}


def session_in(asked: Json) -> str:
    """The session that is asked for, which has to be a name."""
    name = asked["session"]
    if not is_session(name):
        raise Refused(400)
    return str(name)


def object_in(asked: Json) -> Optional[int]:
    """The object that is asked for, or None for the tree of a session."""
    number = asked.get("object")
    if number is not None and (not isinstance(number, int) or isinstance(number, bool) or number < 1):
        raise Refused(400)
    return number


def line_in(asked: Json) -> int:
    """The line of the record up to which it is to be shown."""
    to = asked["to"]
    if not isinstance(to, int) or isinstance(to, bool):
        raise Refused(400)
    return to


def with_numbers(command: Json) -> Json:
    """A command in which values that a browser had to write as texts of JSON are those values."""
    return {key: value_of(it["json"].encode()) if isinstance(it, dict) and "json" in it else it for key, it in command.items()}
