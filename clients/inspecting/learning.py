"""What a command that has ended makes known of its session."""

from __future__ import annotations

from typing import Any, Dict, Iterator, List, Set, Tuple

from common.asked import OBJECT_NAME, is_number, normal
from common.changes import FAILING, Done, change
from common.connections import Connection
from common.heeding import Heeding
from common.objects import Living, Misfit
from common.values import UNKNOWN, Cell, Spot
from explaining.known_commands import KNOWN

from .chains import Trace
from .classes import Classes
from .effects import Effect
from .entries import Call, Entry
from .evaluating import settle_doubted
from .session import Session


class Learning:
    """What commands make known, with the class file of the server."""

    def __init__(self, classes: Classes) -> None:
        self.classes = classes
        self.heeding = Heeding(classes)

    # ---- the command as a whole ----

    def trace(self, session: Session, entry: Entry) -> Trace:
        """How the calls of a command have come about, by the state of its session before it."""
        trace = Trace(self.classes, session, entry)
        trace.run()
        if entry.error is None:
            trace.silent()
        return trace

    def learn(self, session: Session, entry: Entry, trace: Trace) -> None:
        """Learns what a command has done."""
        had = len(session.objects.classes)
        if entry.error is None and trace.may_post_unseen():
            session.is_queue_sure = False
        self.know_objects(session, entry)
        if session.queued and (entry.calls or len(session.objects.classes) < had):
            session.is_queue_sure = False  # events go with the objects that they are for
        if entry.error in FAILING:
            session.fail()
        elif entry.error is None and entry.word != "reset":
            self.know_rest(session, entry, trace)
        session.version += 1

    def know_objects(self, session: Session, entry: Entry) -> None:
        """Learns which objects there are, and their places."""
        try:
            change(session.objects, done_of(entry), self.classes.slots)
        except (Misfit, KeyError, TypeError, ValueError, AttributeError):
            session.objects = Living()
            session.objects.has_earlier, session.is_known = True, False
        session.forget_gone()

    def know_rest(self, session: Session, entry: Entry, trace: Trace) -> None:
        """Learns what else the command has done, and then what its calls have done."""
        try:
            self.heeding.heed(session, done_of(entry))
        except (KeyError, TypeError, ValueError, AttributeError):
            session.is_known = False  # it was answered as a command, but is not known here
        self.know_calls(session, entry, trace)
        settle_doubted(self.classes, session, entry.number)
        broken, are_all = trace.breaks()
        session.drop(broken)
        session.are_connections_sure = session.are_connections_sure and are_all

    # ---- what its calls have done ----

    def know_calls(self, session: Session, entry: Entry, trace: Trace) -> None:
        """Learns what the slots that were called have written, connected and blocked."""
        written: Dict[Spot, List[Any]] = {}
        if entry.word == "set" and entry.reply is True and entry.asked.get("value") is not None:
            written[entry.asked["object"], entry.asked["property"]] = [entry.asked["value"]]
        warned = {it.object for it in entry.warnings if not it.property}
        for frame in trace.frames[1:]:
            call = entry.calls[frame.number]
            if frame.effects is None:
                session.shake()
            for effect in frame.effects or ():
                self.know_effect(session, entry, effect, written, effect.is_sure and call.object not in warned)
        if entry.left_out:
            session.shake()
        told = self.told_values(entry, trace)
        self.write(session, entry, written, told)
        if trace.does("delete") or entry.word == "spin":
            for spot in session.bindings:
                session.doubt(spot)  # it may read what has gone
        for spot in self.changed(entry, trace):
            session.errors.pop(spot, None)
        for warning in entry.warnings:
            if warning.property:
                is_one = entry.word not in ("spin", "delete")  # change, so no later one of this command has ended the error
                is_sure = is_one and all(frame.effects == [] for frame in trace.frames[1:])
                self.know_error(session, entry.number, (warning.object, warning.property), warning.code, is_sure)

    def know_error(self, session: Session, number: int, spot: Spot, code: str, is_sure: bool) -> None:
        """A bound property is in an error, and has its default, at least at the warning. Its object may have gone since."""
        if spot[0] not in session.objects.classes and not session.objects.has_earlier:
            return
        declared = self.classes.property(session.objects.classes.get(spot[0]), spot[1])
        if declared is None or spot[0] not in session.objects.classes:
            session.doubt(spot)
        else:
            session.put(spot, declared.default(), number, is_sure)
        session.errors[spot] = Cell(code, number, is_sure, 0 if is_sure else number)
        if not is_sure:
            session.in_doubt.add(spot)

    def know_effect(self, session: Session, entry: Entry, it: Effect, written: Dict[Spot, List[Any]], is_sure: bool) -> None:
        """Learns what one action of a slot has done."""
        if it.word == "set" and it.object is None:
            session.doubt_all(it.name)
        elif it.word == "set" and it.object is not None:
            written.setdefault((it.object, it.name), []).append(it.value if is_sure else UNKNOWN)
        elif it.word in ("connect", "disconnect"):
            know_connecting(session, entry, it, is_sure)
        elif it.word == "block":
            for number in session.objects.classes if it.object is None else (it.object,):
                session.blocked[number] = it.value if is_sure and it.object is not None else None

    def tellings(self, entry: Entry, trace: Trace) -> Iterator[Tuple[Call, Spot]]:
        """The calls by which signals have told of a changed property, each with that."""
        for call in entry.calls:
            if call.path and call.parent + 1 < len(trace.frames):
                last = call.path[-1]
                sent = trace.frames[call.parent + 1].signals(trace.sending).get((last[0], last[1]))
                if sent is not None and sent.of is not None:
                    yield call, sent.of

    def told_values(self, entry: Entry, trace: Trace) -> Dict[Spot, List[Any]]:
        """The values that signals have told of changed properties."""
        told: Dict[Spot, List[Any]] = {}
        for call, spot in self.tellings(entry, trace):
            if call.args:
                told.setdefault(spot, []).append(call.args[0] if call.is_only else UNKNOWN)
        return told

    def changed(self, entry: Entry, trace: Trace) -> Set[Spot]:
        """The properties that certainly have another value now. One that was in error before no longer is:
        otherwise it would have kept its default, or a warning of another error comes."""
        return {spot for call, spot in self.tellings(entry, trace) if call.is_only and call.is_traced}

    def write(self, session: Session, entry: Entry, written: Dict[Spot, List[Any]], told: Dict[Spot, List[Any]]) -> None:
        """Learns which values were written, where it is the same one all the time, and doubts all others that these decide."""
        for spot in session.depending([*written, *told]) if session.readers else ():
            session.doubt(spot)
        for spot in {**written, **told}:
            values = [*written.get(spot, ()), *told.get(spot, ())]
            is_sure = all(it is not UNKNOWN and it == values[0] and type(it) is type(values[0]) for it in values)  # noqa: E721
            if spot in written and entry.word != "bind" and spot in session.bindings and is_sure:
                session.unbind(spot)
            elif spot in written:
                session.loosen(spot)
            known = [it for it in values if it is not UNKNOWN]
            if known and spot[0] in session.objects.classes:
                session.put(spot, known[-1], entry.number, is_sure and not session.groups or is_sure and spot in written)
            else:
                session.doubt(spot)
            if spot[1] == OBJECT_NAME and is_sure and spot[0] in session.objects.classes:
                session.objects.name(spot[0], known[-1])


def done_of(entry: Entry) -> Done:
    """A command that has ended, as the model of sessions has it."""
    warned = {it.object for it in entry.warnings if it.object and not it.property}
    return Done(entry.asked, entry.reply, entry.error, entry.calls, warned, entry.word in KNOWN, entry.number)


def know_connecting(session: Session, entry: Entry, it: Effect, is_sure: bool) -> None:
    """Learns what a slot has connected or disconnected."""
    more = it.more or {}
    if it.word == "connect" and is_sure and is_number(it.object) and is_number(it.other):
        assert it.object is not None and it.other is not None
        session.last_connection = None if session.last_connection is None else session.last_connection + 1
        how = (more.get("type") == "queued", more.get("single", False), False)
        number = session.last_connection
        session.add(Connection(number, it.object, it.name, it.other, normal(more["method"]), *how, entry.number))
    elif it.word == "connect":
        session.are_connections_sure, session.last_connection = False, None
    elif is_sure and it.object is not None and ("to" not in more or it.other is not None):
        signal, method = more.get("disconnect"), more.get("method")
        of_signal, of_method = (None if text is None else normal(text) for text in (signal, method))
        session.drop(session.matching(it.object, of_signal, it.other, of_method))
    else:
        session.are_connections_sure = False
