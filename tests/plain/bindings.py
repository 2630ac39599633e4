"""Bindings, and what the declared properties of objects show by them."""

from dataclasses import dataclass, field
from typing import NamedTuple

from .expressions import evaluated
from .values import Refused, default_of, is_of_kind, refuse

BINDING_LOOP = "BindingLoop"
EVALUATION_ERROR = "EvaluationError"


class At(NamedTuple):
    """A declared property of an object."""

    number: int
    name: str


class Shown(NamedTuple):
    """What a property shows: its value, and the error that it stands for, where it does."""

    value: object
    error: str | None = None


@dataclass
class Binding:
    """An expression that gives a property of this kind its value."""

    form: dict
    kind: str


@dataclass
class Scene:
    """All that properties show comes of: the values that are stored for each object, and the bindings."""

    stored: dict
    bindings: dict
    kept: dict = field(default_factory=dict)

    def properties(self):
        """The declared properties of all objects, by object number and property number."""
        return [At(number, name) for number, values in self.stored.items() for name in values]

    def has(self, at):
        return at.number in self.stored

    def shown(self, at, seen=()):
        """What a property shows, where those that were seen are being evaluated.

        What is no loop is kept: it has read none of those that were seen, as a loop would have ended it."""
        if at in seen:
            return Shown(None, BINDING_LOOP)
        if at not in self.bindings:
            return Shown(self.stored[at.number][at.name]) if self.has(at) else Shown(None, EVALUATION_ERROR)
        if at in self.kept:
            return self.kept[at]
        shown = self.settled(at, (*seen, at))
        if shown.error != BINDING_LOOP:
            self.kept[at] = shown
        return shown

    def settled(self, at, seen):
        """The result of the expression of a bound property: a value of its kind, or its default and an error. An error that
        is read is passed on, and every other fault is an evaluation error."""
        binding = self.bindings[at]
        try:
            value = evaluated(binding.form, [], lambda target, name: self.read(at, target, name, seen))
            return Shown(value if is_of_kind(value, binding.kind) else refuse(EVALUATION_ERROR))
        except Refused as fault:
            return Shown(default_of(binding.kind), BINDING_LOOP if str(fault) == BINDING_LOOP else EVALUATION_ERROR)

    def read(self, at, target, name, seen):
        """The value of what a property's expression reads."""
        shown = self.shown(At(at.number if target == "self" else target, name), seen)
        return refuse(shown.error) if shown.error else shown.value
