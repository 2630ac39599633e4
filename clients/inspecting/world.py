"""All that is known of a server: its sessions, and the newest commands with their calls, warnings and replies."""

from __future__ import annotations

import json
import threading
from collections import deque
from time import monotonic_ns, time_ns
from typing import Any, Deque, Dict, Iterator, List, Optional, Sequence, Set, Tuple

from common.objects import Living
from common.told import know_queue, know_read
from common.values import Spot
from explaining.held import is_deep

from .classes import Classes
from .described import Described, as_meta, is_description
from .effects import count_of
from .entries import CALLS_MOST, TEXT_MOST, Call, Entries, Entry, Warned
from .learning import Learning, done_of
from .session import Posting, Session

NOBODY = "-"
READER = json.JSONDecoder()
MILLION = 1_000_000
BEHIND = 500_000  # from which on what is known counts as late
DEPARTED_MOST = 16_384  # names of clients that have gone


class World:
    """What is known of a server. Whoever reads or changes it holds `lock`."""

    def __init__(self, classes: Classes) -> None:
        self.lock = threading.RLock()
        self.classes = classes
        self.learning = Learning(classes)
        self.sessions: Dict[str, Session] = {}
        self.entries = Entries()
        self.under_way: Deque[Entry] = deque()
        self.met: Dict[str, Any] = {}  # what `meta` has told of classes
        self.described: Described = {}  # what `describe` has told of them
        self.listeners: Dict[str, Set[str]] = {}  # by a session's name, those that have joined it
        self.slots: Dict[str, Dict[Tuple[str, str], List[int]]] = {}  # of a session, by class and slot: calls, commands, time, worst, its entry
        self.departed: Dict[str, None] = {}  # names whose clients have gone, the oldest first, and whose reset was not seen
        self.now = 0  # in millionths of a second, as the front says it
        self.last_end = 0
        self.lag = 0  # how late what is known is, at the last lines that came
        self.ahead: Optional[int] = None  # how far the clock here is ahead of the front's
        self.epoch = 0  # when the front has started, in millionths of a second since 1970, or 0 if it is not known
        self.is_live = False
        self.lines = 0
        self.left_out = 0
        self.total_rates = Session()
        self.version = 0

    def clock(self) -> int:
        """The time up to which all is known, as the front says it."""
        if not self.is_live or self.lag > BEHIND:
            return self.now
        return max(self.now, monotonic_ns() // 1_000 - (self.ahead or 0))

    def compare_clocks(self, here: int) -> None:
        """Some lines were taken at this time here. The front counts time from its own start: the lines that came soonest show
        how far its clock is from the one here, and others then show how late they came."""
        distance = here - self.now
        self.epoch = self.epoch or time_ns() // 1_000 - self.now
        self.ahead = distance if self.ahead is None else min(self.ahead, distance)
        self.lag = distance - self.ahead

    # ---- lines ----

    def begin(self, raw: bytes, session: Optional[str] = None, by_inspector: bool = False) -> Entry:
        """A command was given to the server."""
        self.entries.count += 1
        asked = asked_of(raw)
        name = session or asked.get("session")
        entry = Entry(self.entries.count, name if isinstance(name, str) else NOBODY, raw[:TEXT_MOST], asked, self.now, by_inspector)
        self.under_way.append(entry)
        return entry

    def tell(self, raw: bytes) -> Optional[Entry]:
        """The server has written a line; answers the command that it ends."""
        self.lines += 1
        if not self.under_way:
            self.left_out += 1
            return None
        entry, held = self.under_way[0], asked_of(raw)
        entry.lines += 1
        entry.size += len(raw)
        if "call" in held:
            self.hear_call(entry, held)
        elif "warning" in held:
            entry.warnings.append(Warned(held["warning"], held.get("object", 0), held.get("property", ""), len(entry.calls)))
        else:
            self.under_way.popleft()
            self.end(entry, raw, held)
            return entry
        return None

    def hear_call(self, entry: Entry, held: Dict[str, Any]) -> None:
        """A slot or a functor was called."""
        if len(entry.calls) >= CALLS_MOST:
            entry.left_out += 1
        else:
            entry.calls.append(Call(held["object"], held["call"], held["args"], held["sender"]))

    def end(self, entry: Entry, raw: bytes, held: Dict[str, Any]) -> None:
        """A command has ended."""
        entry.ended, entry.answer = self.now, raw[:TEXT_MOST]
        entry.taken = max(0, self.now - max(entry.given, self.last_end))
        self.last_end = self.now
        entry.reply, entry.error = held.get("reply"), held.get("error")
        entry.size += len(entry.raw) + 512 * (1 + len(entry.calls))
        entry.session = held.get("session", entry.session)
        self.version += 1
        second = self.now // MILLION
        self.total_rates.count_lines(entry.lines + 1, second)
        if entry.session != NOBODY and (entry.session in self.sessions or entry.session not in self.departed):
            session = self.session(entry.session)
            session.count_lines(entry.lines + 1, second)
            session.commands += 1
            self.learn_all(session, entry)
        elif entry.word == "reset":
            self.departed.pop(entry.session, None)
        self.entries.add(entry)

    def session(self, name: str) -> Session:
        """A session, which may be new."""
        found = self.sessions.get(name)
        if found is None:
            found = self.sessions[name] = Session(name=name)
        return found

    def learn_all(self, session: Session, entry: Entry) -> None:
        """Learns what a command has done, also where that is not what such commands do."""
        try:
            self.learn(session, entry)
        except (KeyError, TypeError, ValueError, AttributeError):
            session.is_known = False  # it was answered as a command, but is not known here
        if entry.word == "reset" and entry.error is None:
            self.reset(session)
        elif session.is_gone:
            self.slots.pop(session.name, None)

    def learn(self, session: Session, entry: Entry) -> None:
        """Learns what a command has done to its session, and to those that listen to it."""
        if entry.word == "meta" and isinstance(entry.reply, dict):
            self.met[entry.asked.get("class", "")] = entry.reply
        elif entry.word == "describe" and is_description(entry.reply):
            self.described[entry.asked.get("class", "")] = entry.reply
            self.met[entry.asked.get("class", "")] = as_meta(entry.reply)
        session.at, session.changes = entry.number, entry.changes
        trace = self.learning.trace(session, entry)
        may_post = bool(session.publications) and trace.may_post_unseen(entry.word == "spin")
        posted = [it for event, spot in trace.postings() for it in self.addressed(session, event, spot)] if entry.error is None else []
        self.learning.learn(session, entry, trace)
        self.count_slots(session, entry)
        for event, call in trace.met:
            poster = self.entries.get(event.entry)
            if poster is not None and event.path:
                poster.emission_of(*event.path[-1], event.call).events.append((entry.number, call))
        for to, event in posted:
            self.post(to, event)
        if may_post:
            self.doubt_listeners(session)
        done = done_of(entry)
        if know_queue(session, done) and not session.queued:
            session.postings.clear()
        session.note_doubts(entry.number)
        know_read(session, done)
        self.know_listening(session, entry)
        entry.size += 128 * len(entry.changes)

    def doubt_listeners(self, session: Session) -> None:
        """What a session publishes may have been sent unseen: how many events wait for those that listen is not known."""
        for name in self.listeners.get(session.name, ()):
            if name in self.sessions:
                self.sessions[name].is_queue_sure = False
                self.sessions[name].note_doubts(self.entries.count)

    def know_listening(self, session: Session, entry: Optional[Entry] = None) -> None:
        """Keeps which sessions listen to which, where that may have changed."""
        if len(session.joins) == session.joined and (entry is None or entry.word not in ("join", "joins")):
            return
        sources = {it.source for it in session.joins}
        for name in session.sources - sources:
            self.listeners[name].discard(session.name)
            if not self.listeners[name]:
                del self.listeners[name]
        for name in sources - session.sources:
            self.listeners.setdefault(name, set()).add(session.name)
        session.sources, session.joined = sources, len(session.joins)

    def forget(self, session: Session) -> None:
        """Nothing is kept of a session but its commands. Those that listen to it still do, up to their own ends."""
        session.joins = []
        self.know_listening(session)
        self.sessions.pop(session.name, None)
        self.slots.pop(session.name, None)

    def reset(self, session: Session) -> None:
        """A session is as before its first command. It is forgotten where its client has gone, and where nothing else was
        known of it."""
        if session.is_gone or session.commands == 1:
            self.forget(session)
            return
        session.joins = []
        self.know_listening(session)
        fresh = Session(name=session.name)
        fresh.lines, fresh.commands, fresh.rates = session.lines, session.commands, session.rates
        fresh.version = session.version + 1
        self.sessions[session.name] = fresh

    # ---- events ----

    def addressed(self, session: Session, posting: Posting, spot: Spot) -> Iterator[Tuple[Session, Posting]]:
        """The sessions at which an event arrives: its own where it names an object, and else those that listen."""
        if posting.object:
            yield session, posting
            return
        for name, published in session.publications.items():
            if published == spot:
                for listener in self.listeners.get(session.name, ()):
                    if listener in self.sessions:
                        yield from self.arriving(self.sessions[listener], session.name, name, posting, spot)

    def arriving(self, session: Session, source: str, name: str, posting: Posting, spot: Spot) -> Iterator[Tuple[Session, Posting]]:
        """What a session has published arrives at one that listens to it, once for each join that takes it."""
        kinds = spot[1].partition("(")[2].rstrip(")")
        for join in session.joins:
            if (join.source, join.name, ",".join(join.types)) == (source, name, kinds):
                args = posting.args[: count_of(join.method)] if isinstance(posting.args, list) else posting.args
                yield session, posting._replace(object=join.object, method=join.method, sender=0, args=args)

    def post(self, session: Session, posting: Posting) -> None:
        """An event is posted to a session, or may be."""
        session.postings.append(posting)
        session.version += 1
        session.queued += posting.is_sure
        if posting.path or not posting.is_sure:
            session.is_queue_sure = False  # a signal may be sent more often than is known, or not at all
            session.note_doubts(self.entries.count)

    # ---- what is counted ----

    def count_slots(self, session: Session, entry: Entry) -> None:
        """Counts the calls of each slot, and how long the commands took that have called it."""
        met: Dict[Tuple[str, str], int] = {}
        for call in entry.calls:
            key = (call.class_name or "", call.call)
            met[key] = met.get(key, 0) + 1
        for key, calls in met.items():
            counted = self.slots.setdefault(session.name, {}).setdefault(key, [0, 0, 0, 0, 0])
            counted[0] += calls
            counted[1] += 1
            counted[2] += entry.taken
            if entry.taken >= counted[3]:
                counted[3:] = [entry.taken, entry.number]

    # ---- what the front says ----

    def go(self, name: str) -> None:
        """The client of a session has gone. Its last answers and its reset may still come, or not be seen."""
        self.version += 1
        self.slots.pop(name, None)
        session = self.sessions.get(name)
        if session is None:
            self.depart(name)
        else:
            session.is_gone = True
            session.joins = []
            self.know_listening(session)

    def depart(self, name: str) -> None:
        """Keeps in mind that the client of a session has gone. Nothing else is kept of such a session. Names are given once,
        so lines of this one can only be its last."""
        self.departed[name] = None
        if len(self.departed) > DEPARTED_MOST:
            del self.departed[next(iter(self.departed))]

    def leave_out(self, lines: int, sessions: Sequence[str], under_way: Sequence[str]) -> None:
        """Lines were left out: of these sessions nothing is known for certain any more. Sessions whose clients have gone are
        forgotten, since their resets may have been among those lines."""
        self.left_out += lines
        self.version += 1
        for session in [it for it in self.sessions.values() if it.is_gone]:
            self.forget(session)
            self.depart(session.name)
        for name in sessions:
            if name in self.departed:
                continue
            known = Session(name=name)
            known.objects = Living()
            known.objects.has_earlier, known.is_known = True, False
            known.are_connections_sure, known.is_queue_sure, known.last_connection = False, False, None
            known.note_doubts(self.entries.count)
            before = self.sessions.get(name)
            if before is not None:
                known.lines, known.commands, known.rates, known.is_gone = before.lines, before.commands, before.rates, before.is_gone
                known.joins, known.publications = before.joins, before.publications
                known.sources, known.joined = before.sources, before.joined
            self.sessions[name] = known
        self.under_way.clear()
        for name in under_way:
            self.begin(b"", name)


def asked_of(raw: bytes) -> Dict[str, Any]:
    """The members of a line that is a JSON object, or none."""
    try:
        found = READER.decode(raw.decode())
    except (ValueError, RecursionError):
        return {}
    return found if isinstance(found, dict) and not (raw.count(b"[") + raw.count(b"{") > 100 and is_deep(found)) else {}
