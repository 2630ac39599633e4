"""What a session holds, as the shell lists it: `ls`, `tree` and `show`. `save` leaves out what they ask the server."""

from __future__ import annotations

from typing import TYPE_CHECKING, Any, Dict, Iterator, List, Mapping, Optional

import metad
from common.asked import OBJECT_NAME
from explaining.faults import faults_of
from explaining.reads import said_of_object
from explaining.words import plain, shown

from .infix import infix_of
from .reading import Words
from .saying import labelled

if TYPE_CHECKING:
    from .shell import Shell

DRAWN_MOST = 1_000  # objects that `tree` draws
PAGE = 1_000  # connections of one reply
NO_COMMAND = "E02"


class Looking:
    """Looks at the session that a shell speaks for."""

    def __init__(self, shell: Shell) -> None:
        self.shell = shell
        self.asked: Dict[str, Any] = {}
        """What was asked last."""

    def ask(self, do: str, **keys: Any) -> Any:
        """Asks the server a command that `save` leaves out, and remembers what the reply says about objects."""
        self.asked = {"do": do, **keys}
        reply = self.shell.link.ask_aside(self.shell.session(self.shell.name), do, keys)
        self.shell.known(self.shell.name).heed(self.asked, reply)
        return reply

    def say_all(self, lines: Iterator[str]) -> None:
        """Says lines as they are made. A refusal ends them, and is said too."""
        try:
            for line in lines:
                self.shell.say("reply", line)
        except metad.Refused as refused:
            self.refuse(refused.code)

    def refuse(self, code: str) -> None:
        """Says why the server refused the last command."""
        asked = {**self.asked, "session": self.shell.name}
        if code == NO_COMMAND and not faults_of(asked):
            self.shell.refuse("this server is older than this shell, and does not have this command", [])
        else:
            self.shell.refuse_command(self.shell.name, asked, asked, code)

    # ---- the words ----

    def list(self, rest: str) -> None:
        """Lists the children of an object, or the roots."""
        self.say_all(self.listed(self.object_in(rest)))

    def draw(self, rest: str) -> None:
        """Draws the tree below an object, or all trees."""
        self.say_all(self.drawn(self.object_in(rest)))

    def show(self, rest: str) -> None:
        """Shows an object with its properties and connections."""
        words = Words(rest)
        number = self.shell.scene().object_at(words)
        words.end()
        self.say_all(self.shown(number))

    def object_in(self, rest: str) -> Optional[int]:
        """The object that is named, or None where nothing is."""
        words = Words(rest)
        number = self.shell.scene().object_at(words) if words.rest else None
        words.end()
        return number

    # ---- lines of answers ----

    def children(self, number: Optional[int]) -> List[int]:
        """The children of an object, or the roots."""
        found: List[int] = self.ask("children", **({} if number is None else {"object": number}))
        return found

    def listed(self, number: Optional[int]) -> Iterator[str]:
        """A line for each child of an object, or for each root."""
        children = self.children(number)
        for it in children:
            info = self.ask("object", object=it)
            below = info["children"]
            yield f"{self.node(it, info)}{f', {below} below it' if below else ''}"
        if not children:
            yield "there is no object" if number is None else f"object {self.label(number)} has no children"

    def node(self, number: int, info: Mapping[str, Any]) -> str:
        """An object with its class, its name on the server and its name here."""
        name = self.ask("get", object=number, property=OBJECT_NAME)
        label = self.label(number)
        named = f" {shown(name)}" if name else ""
        return f"{number} {plain(info['class'])}{named}{'' if label == str(number) else f' as {label}'}"

    def drawn(self, number: Optional[int]) -> Iterator[str]:
        """The lines of a tree, or of all trees: at most `DRAWN_MOST` objects."""
        count = 0
        for line in self.branches(self.children(None) if number is None else [number], "", True):
            if count == DRAWN_MOST:
                yield f"and more: at most {DRAWN_MOST:,} objects are drawn, and `tree OBJECT` draws a part"
                return
            yield line
            count += 1
        if not count:
            yield "there is no object"

    def branches(self, numbers: List[int], front: str, are_tops: bool) -> Iterator[str]:
        """The lines of some siblings, and of the objects below them."""
        for it in numbers:
            is_last = it == numbers[-1]
            info = self.ask("object", object=it)
            yield f"{front}{'' if are_tops else '`-- ' if is_last else '|-- '}{self.node(it, info)}"
            if info["children"]:
                yield from self.branches(self.children(it), front + ("" if are_tops else "    " if is_last else "|   "), False)

    def shown(self, number: int) -> Iterator[str]:
        """An object's place in its tree, its properties and its connections."""
        known = self.shell.known(self.shell.name)
        info = self.ask("object", object=number)
        yield said_of_object({"object": self.label(number)}, labelled(info, known))
        for it in self.ask("properties", object=number):
            yield f"    {self.property_line(number, it)}"
        for it in self.connections(number):
            yield f"    {it['connection']}: {connection_line(labelled(it, known))}"

    def property_line(self, number: int, it: Mapping[str, Any]) -> str:
        """A property with its value, and its binding as `bind` takes it."""
        line = f"{plain(it['name'])} = {shown(it['value'])}"
        if it["type"] is None:
            return f"{line}, dynamic"
        if not it["bound"]:
            return line
        error = f", in error, {plain(it['error'])}" if it["error"] is not None else ""
        form = self.ask("binding", object=number, property=it["name"])
        return f"{line}{error}, bound to {infix_of(form, self.label)}"

    def connections(self, number: int) -> Iterator[Mapping[str, Any]]:
        """All connections of an object."""
        after: Dict[str, int] = {}
        while True:
            page = self.ask("connections", object=number, **after)
            yield from page
            if len(page) < PAGE:
                return
            after = {"after": page[-1]["connection"]}

    def label(self, number: int) -> str:
        """An object's name here, or its number."""
        return self.shell.known(self.shell.name).label(number)

    # ---- for completion ----

    def numbers(self, most: int) -> List[str]:
        """The numbers of all objects; nothing if there are more than `most`."""
        if self.ask("status")["objects"] > most:
            return []
        roots = self.children(None)
        return [str(it) for root in roots for it in (root, *self.ask("findAll", object=root))]

    def class_of(self, number: int) -> Optional[str]:
        """The class of an object, or None if the server refuses to tell it."""
        try:
            return str(self.ask("object", object=number)["class"])
        except metad.Refused:
            return None

    def property_names(self, number: int) -> List[str]:
        """The names of the properties of an object, dynamic ones too."""
        return [str(it["name"]) for it in self.ask("properties", object=number)]


def connection_line(it: Mapping[str, Any]) -> str:
    """A connection as `connect` takes it."""
    called = f"{plain(it['functor'])} for {it['context']}" if "functor" in it else f"{it['receiver']}.{plain(it['method'])}"
    way = "" if it["type"] == "auto" else f" {plain(it['type'])}"
    state = f", state {it['state']}" if "functor" in it else ""
    return f"{it['sender']}.{plain(it['signal'])} -> {called}{way}{' single' if it['single'] else ''}{state}"
