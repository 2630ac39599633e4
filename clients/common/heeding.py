"""What commands change of what a session holds in addition to its objects, by their replies. What the slots do that they call is
left to whoever knows the bodies of these."""

from __future__ import annotations

from typing import Callable, Dict, Optional, Protocol

from .asked import normal
from .changes import Done
from .connections import Connection
from .holding import Held, Join
from .told import BY_WORD
from .values import UNKNOWN, Binding, Cell, reads_of


class Declaring(Protocol):
    """The classes of a server, as far as they are known."""

    def __contains__(self, name: object) -> bool: ...

    def property(self, name: Optional[str], called: str) -> Optional[object]:
        """What a class declares as the property of a name."""


class Heeding:
    """What commands change, with the classes of the server."""

    def __init__(self, classes: Declaring) -> None:
        self.classes = classes
        self.by_word: Dict[str, Callable[[Held, Done], None]] = {
            "set": self.set_value, "get": self.get_value, "dynamicNames": self.dynamic_names, "bind": self.bind,
            "unbind": self.unbind, "bindingError": self.binding_error, "connect": self.connect,
            "connectFunctor": self.connect, "disconnect": self.disconnect, "block": self.block,
            "publish": self.publish, "unpublish": self.unpublish, "join": self.join, "leave": self.leave,
            "status": self.status, "begin": self.group, "end": self.group,
            **BY_WORD,
        }  # fmt: skip

    def heed(self, held: Held, done: Done) -> None:
        """A command was done. `KeyError`, `TypeError`, `ValueError` or `AttributeError` if it was answered without being a command."""
        if done.word in self.by_word:
            self.by_word[done.word](held, done)

    # ---- properties and bindings ----

    def set_value(self, held: Held, done: Done) -> None:
        asked = done.asked
        spot, value = (asked["object"], asked["property"]), asked["value"]
        if value is not None:
            if done.reply is True:
                held.unbind(spot)
            held.put(spot, value, done.number)
        elif self.classes.property(held.objects.classes.get(spot[0]), spot[1]) is None:
            if held.objects.classes.get(spot[0]) in self.classes:
                held.cells.pop(spot, None)
            else:
                held.doubt(spot)

    def get_value(self, held: Held, done: Done) -> None:
        spot = (done.asked["object"], done.asked["property"])
        if done.reply is None:
            held.cells.pop(spot, None)
        else:
            held.put(spot, done.reply, done.number)
        if done.reply:
            held.errors.pop(spot, None)  # in an error it would have the default of its type: 0, false or an empty text

    def dynamic_names(self, held: Held, done: Done) -> None:
        number, class_name = done.asked["object"], held.objects.classes.get(done.asked["object"])
        for name in list(held.of_object.get(number, ())):
            is_dynamic = class_name in self.classes and self.classes.property(class_name, name) is None
            if is_dynamic and name not in done.reply:
                held.cells.pop((number, name), None)
        for name in done.reply:
            if (number, name) not in held.cells:
                held.put((number, name), UNKNOWN, done.number, False)

    def bind(self, held: Held, done: Done) -> None:
        spot = (done.asked["object"], done.asked["property"])
        held.bind(spot, Binding(done.asked["to"], reads_of(done.asked["to"], spot[0]), done.number))
        held.doubt(spot)
        for it in held.depending([spot]):
            held.doubt(it)

    def unbind(self, held: Held, done: Done) -> None:
        spot = (done.asked["object"], done.asked["property"])
        for it in held.depending([spot]) - {spot} if done.reply else ():
            held.doubt(it)  # an error of it ends with its binding
        held.unbind(spot)  # its value stays

    def binding_error(self, held: Held, done: Done) -> None:
        spot = (done.asked["object"], done.asked["property"])
        if done.reply is None:
            held.errors.pop(spot, None)
        else:
            held.errors[spot] = Cell(done.reply, done.number, True)

    def group(self, held: Held, done: Done) -> None:
        held.groups = done.reply
        if done.word == "begin" and done.reply == 1:
            held.errors_before = dict(held.errors)
        if done.word == "end" and not done.reply:
            held.bring_back_errors()
            for spot in held.bindings:
                held.doubt(spot)

    # ---- connections ----

    def connect(self, held: Held, done: Done) -> None:
        asked, is_functor = done.asked, done.word == "connectFunctor"
        receiver = asked["context"] if is_functor else asked["receiver"]
        method = asked["functor"] if is_functor else normal(asked["method"])
        how = (asked.get("type") == "queued", asked.get("single", False), is_functor)
        held.add(Connection(done.reply, asked["sender"], normal(asked["signal"]), receiver, method, *how, done.number))
        held.last_connection = done.reply

    def disconnect(self, held: Held, done: Done) -> None:
        asked = done.asked
        if "connection" in asked:
            key = held.by_number.get(asked["connection"])
            if key is not None:
                held.drop([key])
            elif done.reply:
                held.are_connections_sure = False
            return
        signal, method = (None if key not in asked else normal(asked[key]) for key in ("signal", "method"))
        found = held.matching(asked["sender"], signal, asked.get("receiver"), method)
        held.are_connections_sure = held.are_connections_sure and len(found) == done.reply
        held.drop(found)

    def block(self, held: Held, done: Done) -> None:
        held.blocked[done.asked["object"]] = done.asked["on"]

    def publish(self, held: Held, done: Done) -> None:
        held.publications[done.asked["name"]] = (done.asked["object"], normal(done.asked["signal"]))

    def unpublish(self, held: Held, done: Done) -> None:
        held.publications.pop(done.asked["name"], None)

    def join(self, held: Held, done: Done) -> None:
        asked = done.asked
        types = tuple("".join(it.split()) for it in asked["types"])
        held.joins.append(Join(asked["from"], asked["name"], types, asked["object"], normal(asked["method"])))

    def leave(self, held: Held, done: Done) -> None:
        asked = done.asked
        left = (asked["from"], asked["name"], asked["object"], normal(asked["method"]))
        held.joins = [it for it in held.joins if (it.source, it.name, it.object, it.method) != left]

    # ---- events and counts ----

    def status(self, held: Held, done: Done) -> None:
        counts = done.reply
        held.counts = {**counts, "entry": done.number}
        held.groups = counts.get("group", held.groups)
        if not counts["connections"]:
            held.drop(list(held.connections))
            held.are_connections_sure = True
        elif counts["connections"] != len(held.connections):
            held.are_connections_sure = False
