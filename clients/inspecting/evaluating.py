"""The values of bindings, as far as they follow from values that are known for certain."""

from __future__ import annotations

from typing import Any, Dict, List, Sequence, Tuple

from common.kinds import RANGES
from common.values import UNKNOWN, Cell, Spot

from .classes import Classes, Property
from .effects import cell_of
from .session import Session

LOOP, FAULT = "BindingLoop", "EvaluationError"
TEXT_MOST = 4_096  # bytes of a text
WHOLE = (-(2**63), 2**64 - 1)  # between which expressions are computed
STEPS = 2_000  # expressions that are computed for a command
STEPS_FOR_PAGE = 20_000  # and for one look at a session


class NotKnown(Exception):
    """A value does not follow from what is known."""


class InError(Exception):
    """A property is in an error, which is the first argument."""


def is_whole(value: Any) -> bool:
    return isinstance(value, int) and not isinstance(value, bool)


def is_long(text: str) -> bool:
    """Whether a text has more bytes than one may have."""
    return len(text.encode("utf-8", "surrogatepass")) > TEXT_MOST


def is_of_kind(value: Any, kind: str) -> bool:
    """Whether a property of this type may have a value."""
    if kind in RANGES:
        least, most = RANGES[kind]
        return is_whole(value) and bool(least <= value <= most)
    return isinstance(value, bool) if kind == "bool" else isinstance(value, str) and not is_long(value)


class Evaluation:
    """Works out what some bound properties of a session are, in a number of steps."""

    def __init__(self, classes: Classes, session: Session, steps: int) -> None:
        self.classes = classes
        self.session = session
        self.steps = steps
        self.kept: Dict[Spot, Any] = {}  # values that were worked out

    def value(self, spot: Spot, path: Tuple[Spot, ...] = ()) -> Any:
        """The value of a property, read on the way from those of the path; InError or NotKnown where it has none."""
        session = self.session
        if spot in path:
            raise InError(LOOP)
        if spot[0] not in session.objects.classes and not session.objects.has_earlier:
            raise InError(FAULT)  # it was there when it was bound, and has gone
        if spot[0] not in session.objects.sure or spot in session.loose:
            raise NotKnown
        if spot in self.kept:
            return self.kept[spot]
        if spot not in session.bindings:
            cell = cell_of(self.classes, session, spot)
            if not cell.is_sure or cell.value is UNKNOWN:
                raise NotKnown
            return cell.value
        value = self.of(session.bindings[spot].form, spot[0], (*path, spot))
        if not is_of_kind(value, self.declared(spot).kind):
            raise InError(FAULT)
        self.kept[spot] = value
        return value

    def declared(self, spot: Spot) -> Property:
        """How a property is declared."""
        found = self.classes.property(self.session.objects.classes.get(spot[0]), spot[1])
        if found is None:
            raise NotKnown
        return found

    def of(self, form: Any, own: int, path: Tuple[Spot, ...]) -> Any:
        """The value of an expression of a binding of an object."""
        self.steps -= 1
        if self.steps < 0 or not isinstance(form, dict):
            raise NotKnown
        if "const" in form:
            return form["const"]
        if "prop" in form:
            of = form.get("of", "self")
            return self.value((own if of == "self" else of, form["prop"]), path)
        if len(form) != 1:
            raise NotKnown
        [(sign, parts)] = form.items()
        if sign == "if":
            test = self.of(parts[0], own, path)
            if not isinstance(test, bool):
                raise InError(FAULT)
            return self.of(parts[1 if test else 2], own, path)
        return computed(sign, [self.of(it, own, path) for it in parts])


def computed(sign: str, values: List[Any]) -> Any:
    """What an expression makes of two values."""
    if sign not in ("+", "-", "<", "=", "cat") or len(values) != 2:
        raise NotKnown
    one, other = values
    are_whole, are_texts = all(map(is_whole, values)), all(isinstance(it, str) for it in values)
    if sign == "=" and (are_whole or are_texts or all(isinstance(it, bool) for it in values)):
        return one == other
    if sign == "<" and are_whole:
        return one < other
    if sign in ("+", "-") and are_whole:
        made = one + other if sign == "+" else one - other
        if WHOLE[0] <= made <= WHOLE[1]:
            return made
    elif sign == "cat" and are_texts and not is_long(one + other):
        return one + other
    raise InError(FAULT)


def settle_doubted(classes: Classes, session: Session, entry: int) -> None:
    """Finds out about the errors that a command may have ended."""
    if session.in_doubt:
        settle(classes, session, entry, sorted(session.in_doubt), STEPS)
        session.in_doubt.clear()


def settle_errors(classes: Classes, session: Session, entry: int) -> None:
    """Finds out about all errors that may be over, also where more has become known since an error was in doubt."""
    settle(classes, session, entry, [spot for spot, cell in session.errors.items() if not cell.is_sure], STEPS_FOR_PAGE)


def settle(classes: Classes, session: Session, entry: int, doubtful: Sequence[Spot], steps: int) -> None:
    """Finds out about errors of bindings that may be over: those that are, by what is known, are forgotten, and those that
    are not are known for certain again. Within a group bindings show what they showed before it."""
    if not doubtful or session.groups or not session.is_known or session.failed:
        return
    evaluation = Evaluation(classes, session, steps)
    for spot in doubtful:
        if spot not in session.errors or session.errors[spot].is_sure:
            continue
        try:
            default = evaluation.declared(spot).default()
            value = evaluation.value(spot)
        except InError as error:
            session.errors[spot] = Cell(error.args[0], entry, True)
            session.put(spot, default, entry)
        except (NotKnown, RecursionError, LookupError, TypeError):
            continue
        else:
            del session.errors[spot]
            session.put(spot, value, entry)
