"""What commands and slots do, as far as the class file says it, and which signals are sent by that."""

from __future__ import annotations

from typing import Any, Dict, Iterable, Iterator, List, NamedTuple, Optional, Set, Tuple

from common.asked import normal
from common.connections import Connection
from common.following import target_of
from common.values import UNKNOWN, Cell, Spot

from .classes import DELETE_LATER, DESTROYED, Body, Classes
from .entries import Call, Step
from .session import Session

DEPTH_MOST = 64  # of signals that call signals
TELLING = ("bind", "unbind", "end")  # commands that report changes of properties


class Effect(NamedTuple):
    """What an action does: its word, the object that is acted on where that is known, the signal or the property with the
    arguments or the value, and whether it is done for certain."""

    word: str
    object: Optional[int]
    name: str = ""
    value: Any = UNKNOWN
    is_sure: bool = True
    other: Optional[int] = None  # the receiver of a connection
    more: Optional[Dict[str, Any]] = None  # the action itself


class Sent(NamedTuple):
    """A signal that is sent, or may be, and the signals that have led to it, itself the last."""

    args: Any
    is_sure: bool
    path: Tuple[Step, ...]
    of: Optional[Spot] = None  # the property whose change it reports, where it is sent by that alone


def value_of(form: Any, args: List[Any]) -> Any:
    """The value of an expression, where it is a constant or an argument."""
    if isinstance(form, dict):
        if "const" in form:
            return form["const"]
        at = form.get("arg")
        if isinstance(at, int) and 0 <= at < len(args):
            return args[at]
    return UNKNOWN


def effects_in(body: Body, call: Call, session: Session, is_sure: bool = True) -> Iterator[Effect]:
    """What the actions of a body do, those in branches too."""
    for action in body:
        if "when" in action:
            for key in ("then", "else"):
                yield from effects_in(action.get(key, []), call, session, False)
        else:
            yield effect_of(action, call, session, is_sure)


def effect_of(action: Dict[str, Any], call: Call, session: Session, is_sure: bool) -> Effect:
    """What one action does that is no choice."""
    of = target_of(action.get("of", "self"), call, session.objects)
    if "set" in action:
        return Effect("set", of, action["set"], value_of(action["to"], call.args), is_sure)
    if "emit" in action:
        args = [value_of(it, call.args) for it in action.get("args", [])]
        return Effect("emit", of, normal(action["emit"]), args, is_sure)
    for word in ("delete", "deleteLater"):
        if word in action:
            return Effect(word, target_of(action[word], call, session.objects), is_sure=is_sure)
    if "connect" in action:
        other = target_of(action.get("to"), call, session.objects)
        return Effect("connect", of, normal(action["connect"]), is_sure=is_sure, other=other, more=action)
    if "disconnect" in action:
        other = target_of(action["to"], call, session.objects) if "to" in action else None
        return Effect("disconnect", of, is_sure=is_sure, other=other, more=action)
    if "block" in action:
        return Effect("block", of, value=action["block"], is_sure=is_sure)
    return Effect("move", of, is_sure=is_sure)


def of_call(classes: Classes, session: Session, call: Call) -> Optional[List[Effect]]:
    """What a call does, or None where it is not known."""
    if call.call == DELETE_LATER:
        return [Effect("deleteLater", call.object)]
    body = classes.body(session.objects.classes.get(call.object), call.call)
    return None if body is None else list(effects_in(body, call, session))


def of_command(classes: Classes, session: Session, asked: Dict[str, Any], is_done: bool) -> List[Effect]:
    """What a command itself does, without the slots that it calls."""
    word, number = asked.get("do"), asked.get("object")
    if not is_done or not isinstance(word, str):
        return []
    if word == "invoke" and asked.get("type") != "queued":
        method = normal(asked["method"])
        is_signal = classes.is_signal(session.objects.classes.get(asked["object"]), method)
        return [] if is_signal is False else [Effect("emit", number, method, asked["args"], bool(is_signal))]
    if word == "set":
        return [Effect("set", number, asked["property"], asked["value"])]
    if word in ("delete", "deleteLater"):
        return [Effect(word, number)]
    if word in TELLING:
        return [Effect("tell", number, asked.get("property", ""))]
    return []


Told = Tuple[Spot, Any, bool, Optional[Spot]]  # a signal, its arguments, whether it is sure, and the property it reports


class Sending:
    """The signals that some effects send in a session, or may send."""

    def __init__(self, classes: Classes, session: Session) -> None:
        self.classes = classes
        self.session = session

    def signals(self, effects: Iterable[Effect]) -> Dict[Spot, Sent]:
        """All signals that are sent or may be, also by signals that call signals."""
        found: Dict[Spot, Sent] = {}
        for spot, args, is_sure, of in self.direct(effects):
            if spot in found:
                found[spot] = found[spot]._replace(args=UNKNOWN, is_sure=False, of=None)
            else:
                found[spot] = Sent(args, is_sure, ((*spot, None),), of)
        level = list(found)
        for _ in range(DEPTH_MOST):
            level = [it for spot in level if spot in self.session.by_signal for it in self.relayed(spot, found)]
            if not level:
                break
        return found

    def relayed(self, spot: Spot, found: Dict[Spot, Sent]) -> List[Spot]:
        """The signals that a signal calls, which are new."""
        sent, new = found[spot], []
        for it in self.session.from_signal(spot):
            end = (it.receiver, it.method)
            if it.is_queued or it.is_functor or end in found or not self.calls_signal(it):
                continue
            args = UNKNOWN if sent.args is UNKNOWN else sent.args[: count_of(it.method)]
            found[end] = Sent(args, sent.is_sure, (*sent.path, (*end, it.number)))
            new.append(end)
        return new

    def calls_signal(self, it: Connection) -> bool:
        """Whether what a connection calls is a signal, or may be."""
        return self.classes.is_signal(self.session.objects.classes.get(it.receiver), it.method) is not False

    def direct(self, effects: Iterable[Effect]) -> Iterator[Told]:
        """The signals that effects send by themselves."""
        for it in effects:
            if it.word == "emit" and it.object is not None:
                yield (it.object, it.name), it.value, it.is_sure and not self.is_held(it.object), None
            elif it.word == "set" or it.word == "tell" and it.name:
                yield from self.of_change(it)
            elif it.word == "tell":
                yield from self.of_all()
            elif it.word == "delete" and it.object is not None:
                yield from self.of_end(it.object, it.is_sure)

    def is_held(self, number: int) -> bool:
        """Whether the signals of an object are blocked, or may be."""
        return self.session.blocked.get(number, False) is not False

    def of_change(self, it: Effect) -> Iterator[Told]:
        """The signals that report a change of a property, and changes of those that are bound to it."""
        objects = [it.object] if it.object is not None else list(self.session.objects.classes)
        changed = [(number, it.name) for number in objects]
        for spot in changed:
            is_sure = it.is_sure and it.word == "set" and it.object is not None and self.is_change(spot, it.value)
            yield from self.notify(spot, it.value, is_sure)
        for spot in self.session.depending(changed) if self.session.readers else ():
            yield from self.notify(spot, UNKNOWN, False)

    def is_change(self, spot: Spot, value: Any) -> bool:
        """Whether it is known that a value is another one than before, and that a signal reports it."""
        cell = cell_of(self.classes, self.session, spot)
        is_told = not self.session.groups and not self.is_held(spot[0])
        return is_told and value is not UNKNOWN and cell.is_sure and cell.value != value

    def notify(self, spot: Spot, value: Any, is_sure: bool) -> Iterator[Told]:
        """The signal that reports a property's change."""
        declared = self.classes.property(self.session.objects.classes.get(spot[0]), spot[1])
        if declared is not None and declared.notify is not None:
            args = [] if declared.notify.endswith("()") else [value]
            yield (spot[0], declared.notify), args, is_sure, spot

    def of_all(self) -> Iterator[Told]:
        """The signals that may report any property, as at the end of a group."""
        for number, class_name in self.session.objects.classes.items():
            for declared in self.classes.properties(class_name):
                yield from self.notify((number, declared.name), UNKNOWN, False)

    def of_end(self, number: int, is_sure: bool) -> Iterator[Told]:
        """What is sent as an object ends, with those below it."""
        below = self.session.objects.tree_below(number)
        for it in below:
            yield (it, DESTROYED), [], is_sure and it == number, None
        ended: Set[Spot] = {spot for spot in self.session.readers if spot[0] in below}
        for spot in self.session.depending(ended):
            yield from self.notify(spot, UNKNOWN, False)


def count_of(method: str) -> int:
    """How many parameters a method has, by its normal text; a functor has one."""
    inside = method.partition("(")[2].rstrip(")") if "(" in method else "int"
    return len(inside.split(",")) if inside else 0


def cell_of(classes: Classes, session: Session, spot: Spot) -> Cell:
    """The value of a property as far as it is known."""
    cell = session.cells.get(spot)
    if cell is not None:
        return cell
    declared = classes.property(session.objects.classes.get(spot[0]), spot[1])
    if declared is None:
        return Cell(UNKNOWN, 0, False)
    return Cell(declared.default(), 0, session.has_default(spot), session.doubted_since(spot[1]))
