"""What has led to each call: the calls of a command within one another, and events with what has posted them.

No line says why a call was made but by its sender. So the cause of a call is the innermost call before it, of those not
known to have ended, that may have sent a signal of this sender which leads to the call by a connection. The bodies of
the class file show which signals it may send. An event is the first that is known to wait and to fit.
"""

from __future__ import annotations

from itertools import islice
from typing import Any, Dict, Iterable, Iterator, List, Optional, Set, Tuple

from common.asked import normal
from common.values import UNKNOWN, Spot

from .classes import Classes
from .effects import Effect, Sending, Sent, count_of, of_call, of_command
from .entries import Call, Emission, Entry
from .session import Posting, Session

LOOKED_AT = 2_000  # postings that are looked at for an event


class Frame:
    """A command or one of its calls, what it does, and the signals that it has sent."""

    def __init__(self, number: int, effects: Optional[List[Effect]]) -> None:
        self.number = number
        self.effects = effects
        self.sent: Optional[Dict[Spot, Sent]] = None  # worked out when it is asked for
        self.open: Dict[Spot, Tuple[Emission, int]] = {}  # the newest emission of a signal, and its newest connection

    def signals(self, sending: Sending) -> Dict[Spot, Sent]:
        if self.sent is None:
            self.sent = sending.signals(self.effects) if self.effects else {}
        return self.sent


class Trace:
    """The calls of one command of a session."""

    def __init__(self, classes: Classes, session: Session, entry: Entry) -> None:
        self.session = session
        self.entry = entry
        self.sending = Sending(classes, session)
        self.classes = classes
        is_done = entry.error is None
        self.root = Frame(-1, of_command(classes, session, entry.asked, is_done))
        self.frames = [self.root]  # all, by the numbers of their calls from 1 on
        self.used: List[int] = []  # keys of connections that were called
        self.is_spin = entry.word == "spin"
        self.events: Dict[Spot, Posting] = {}
        self.are_singles_sure = True  # whether it is known which connections were broken by their first call
        self.met: List[Tuple[Posting, int]] = []  # events that were taken, with their calls
        if self.is_spin:
            self.await_events()

    def await_events(self) -> None:
        """The signals that events may send as they are taken, and the ends that they may bring about."""
        effects = []
        for it in islice(self.session.postings, LOOKED_AT):
            class_name = self.session.objects.classes.get(it.object)
            if not it.method:
                effects.append(Effect("delete", it.object, is_sure=False))
            elif self.classes.is_signal(class_name, it.method) is not False:
                effects.append(Effect("emit", it.object, it.method, it.args, False))
                self.events.setdefault((it.object, it.method), it)
        self.root.effects = effects

    def run(self) -> None:
        """Finds what has led to each call."""
        stack = [self.root]
        for number, call in enumerate(self.entry.calls):
            call.class_name = self.session.objects.classes.get(call.object)
            if number == 0 and self.is_invoked(call):
                call.is_traced = True
            elif not self.is_within(call, number, stack, self.is_spin) and self.is_spin:
                del stack[1:]
                if not self.is_event(call, number):
                    self.is_within(call, number, stack, False)
            frame = Frame(number, of_call(self.classes, self.session, call))
            stack.append(frame)
            self.frames.append(frame)

    def is_invoked(self, call: Call) -> bool:
        """Whether a call is that of a slot which the command itself calls."""
        asked = self.entry.asked
        is_invoke = self.entry.word == "invoke" and call.sender == 0 and asked.get("type") != "queued"
        return is_invoke and asked.get("object") == call.object and normal(asked.get("method", "")) == call.call

    def is_within(self, call: Call, number: int, stack: List[Frame], is_without_root: bool) -> bool:
        """Looks for the call that has led to this one, the innermost first; says whether there is one. A signal that was
        just sent calls its first connection first; one that does not is that of a call further out, if any is."""
        keys = self.session.by_call.get((call.sender, call.object, call.call), ())
        if len(keys) > 1 and any(self.session.connections[key].is_single for key in keys):
            self.are_singles_sure = False
        last = 0 if is_without_root and not self.events else -1
        found = [it for at in range(len(stack) - 1, last, -1) for it in self.candidates(stack[at], at, keys)]
        if not found:
            return False
        at, key, sent, _ = next((it for it in found if it[3]), found[0])
        call.is_traced = all(frame.effects is not None for frame in stack[at:])
        call.is_only = len(found) == 1
        self.link(call, number, stack[at], key, sent)
        del stack[at + 1 :]
        return True

    def candidates(self, frame: Frame, at: int, keys: Iterable[int]) -> Iterator[Tuple[int, int, Sent, bool]]:
        """The connections by which a call or the command may have made a call, one of each signal, with what was sent, and
        whether the call is where the order of connections puts it."""
        signals = frame.signals(self.sending)
        late: Dict[Spot, int] = {}
        met: Set[Spot] = set()
        for key in keys if signals else ():
            it = self.session.connections[key]
            spot = (it.sender, it.signal)
            if spot not in signals or spot in met or it.is_queued:
                continue
            newest = frame.open[spot][1] if spot in frame.open else -1
            if 0 <= newest < key or newest < 0 and key == self.first_of(spot):
                met.add(spot)
                yield at, key, signals[spot], True
            else:
                late.setdefault(spot, key)
        for spot, key in late.items():
            if spot not in met:
                yield at, key, signals[spot], key == self.first_of(spot)

    def first_of(self, spot: Spot) -> Optional[int]:
        """The first connection of a signal whose call writes a line."""
        for key in self.session.by_signal.get(spot, ()):
            it = self.session.connections[key]
            is_silent = it.is_queued or not it.is_functor and self.sending.calls_signal(it)
            if not is_silent:
                return key
        return None

    def link(self, call: Call, number: int, frame: Frame, key: int, sent: Sent) -> None:
        """A call was made by a signal that a call or the command has sent."""
        it = self.session.connections[key]
        call.parent, call.path, call.connection = frame.number, sent.path, it.number
        event = self.events.get((sent.path[0][0], sent.path[0][1])) if frame is self.root else None
        if event is not None:
            call.posted = (event.entry, event.call, event.session)
            self.met.append((event, number))
        it.calls += 1
        if it.is_single:
            self.used.append(key)
        for object_, signal, _ in sent.path:
            emission, newest = frame.open.get((object_, signal), (None, -1))
            is_last = (object_, signal) == (it.sender, it.signal)
            if emission is None or is_last and key <= newest:
                emission = Emission(object_, signal, frame.number)
                self.entry.emissions.append(emission)
            if is_last:
                emission.calls.append(number)
            frame.open[object_, signal] = (emission, key if is_last else newest)

    def is_event(self, call: Call, number: int) -> bool:
        """Looks for the posting of an event; says whether there is one."""
        for at, it in enumerate(islice(self.session.postings, LOOKED_AT)):
            if it.object == call.object and it.method == call.call and it.sender == call.sender and fits(it, call):
                call.posted, call.is_traced = (it.entry, it.call, it.session), True
                call.path = tuple((*spot, None) for spot in it.path)
                del self.session.postings[at]
                self.met.append((it, number))
                by = self.session.connections.get(it.key) if it.key is not None else None
                if by is not None:
                    by.calls += 1
                    call.connection = by.number
                return True
        return False

    def silent(self) -> None:
        """Signals that were sent for certain, and have called nothing."""
        for frame in self.frames:
            for spot, sent in frame.signals(self.sending).items():
                if sent.is_sure and spot not in frame.open:
                    emission = Emission(spot[0], spot[1], frame.number)
                    frame.open[spot] = (emission, -1)
                    self.entry.emissions.append(emission)

    def postings(self) -> Iterable[Tuple[Posting, Spot]]:
        """The events that are posted, or may be, each with the signal that has done it; a deletion and what is asked for
        as an event with none."""
        asked = self.entry.asked
        if self.entry.word == "invoke" and asked.get("type") == "queued" and self.entry.reply is True:
            yield self.posting(asked["object"], normal(asked["method"]), asked["args"], 0, self.root, (), True), (0, "")
        for frame in self.frames:
            for effect in frame.effects or ():
                if effect.word == "deleteLater" and effect.object is not None:
                    is_sure = frame is self.root and self.entry.word == "deleteLater"
                    yield self.posting(effect.object, "", [], 0, frame, (), is_sure), (0, "")
            for spot, sent in frame.signals(self.sending).items():
                path = tuple((it[0], it[1]) for it in sent.path)
                is_sure = sent.is_sure or spot in frame.open
                for key in self.session.by_signal.get(spot, ()):
                    if self.session.connections[key].is_queued:
                        yield self.by_connection(key, sent, frame, path, is_sure), spot
                yield self.posting(0, "", sent.args, 0, frame, path, is_sure), spot

    def does(self, word: str) -> bool:
        """Whether the command, a call of it or an event may do something of this kind."""
        return any(effect.word == word for frame in self.frames for effect in frame.effects or ())

    def may_post_unseen(self, is_open: bool = False) -> bool:
        """Whether signals were sent, or may have been, by slots, connections or ends of objects that are not known."""
        if is_open or any(frame.effects is None for frame in self.frames):
            return True
        is_adrift = self.does("delete") and bool(self.session.objects.adrift())
        is_open = is_adrift or self.does("connect") or not self.session.are_connections_sure
        return is_open and any(frame.signals(self.sending) for frame in self.frames)

    def breaks(self) -> Tuple[List[int], bool]:
        """The connections that were broken by their first call, and whether these are known to be all."""
        broken, are_all = list(self.used), self.are_singles_sure
        for call in self.entry.calls:
            keys = self.session.by_call.get((call.sender, call.object, call.call), ())
            if call.connection is None and any(self.session.connections[key].is_single for key in keys):
                are_all = False
        for frame in self.frames:
            for spot, sent in frame.signals(self.sending).items():
                for key in self.session.by_signal.get(spot, ()):
                    it = self.session.connections[key]
                    if it.is_single and (it.is_queued or not it.is_functor and self.sending.calls_signal(it)):
                        are_all = False
        return broken, are_all

    def by_connection(self, key: int, sent: Sent, frame: Frame, path: Tuple[Spot, ...], is_sure: bool) -> Posting:
        """What a queued connection posts."""
        it = self.session.connections[key]
        args = UNKNOWN if sent.args is UNKNOWN else sent.args[: count_of(it.method)]
        return self.posting(it.receiver, it.method, args, it.sender, frame, path, is_sure)._replace(key=key)

    def posting(
        self, number: int, method: str, args: Any, sender: int, frame: Frame, path: Tuple[Spot, ...], is_sure: bool
    ) -> Posting:
        return Posting(number, method, args, sender, self.session.name, self.entry.number, frame.number, path, is_sure)


def fits(posting: Posting, call: Call) -> bool:
    """Whether the arguments of a call are those of an event, as far as these are known."""
    if posting.args is UNKNOWN:
        return True
    return len(posting.args) >= len(call.args) and all(a is UNKNOWN or a == b for a, b in zip(posting.args, call.args))
