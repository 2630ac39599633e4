"""What the inspector claims to know of sessions, compared with what the plain program knows of them."""

from collections import Counter

from explaining.objects import ROOT
from inspecting.classes import Classes
from inspecting.effects import cell_of
from inspecting.world import World

from tests.support.lines import text_of


def world_of(declared):
    """A world with the classes of a class file."""
    return World(Classes(text_of({"classes": declared}).encode()))


def hear(world, command, lines):
    """A command of a session, and its output."""
    world.now += 1_000
    world.begin(text_of(command).encode())
    for line in lines:
        world.tell(text_of(line).encode())


class Claims:
    """What is claimed of a session: what is wrong of it, and how much there is."""

    def __init__(self, world, shown, plain):
        self.world, self.shown, self.plain = world, shown, plain
        self.faults, self.counts = [], Counter()
        self.rows = {row.number: row for row in plain.rows}

    def check(self, what, claimed, right):
        """Something is claimed, and is right or not."""
        self.counts[what] += 1
        if claimed != right:
            self.faults.append(f"{what} of {self.plain.name}: {claimed!r} is claimed, and {right!r} is so")

    def all(self):
        if not self.shown.is_known or self.shown.objects.has_earlier:
            self.counts["not known"] += 1
            return self
        self.objects()
        self.connections()
        self.values()
        self.listening()
        return self

    def objects(self):
        objects = self.shown.objects
        for number, row in self.rows.items():
            self.check(f"the class of {number}", objects.classes.get(number), row.class_name)
        for number in objects.sure:
            self.check("an object that is there", number in self.rows, True)
        for number in objects.whole & {ROOT, *self.rows}:
            right = [row.number for row in self.plain.children(number or None)]
            claimed = [it for it in objects.below.get(number, ()) if it in objects.sure or it in self.rows]
            if set(right) <= set(objects.parents):
                self.check("children", claimed, right)
        for number, name in objects.names.items():
            if number in self.rows:
                self.check("a name", name, self.plain.read(self.rows[number], "objectName"))
        for number, row in self.rows.items():
            blocked = self.shown.blocked.get(number, False)
            if blocked is not None:
                self.check("a blocked object", blocked, row.blocked)
        self.check("a failure", self.shown.failed, self.plain.failed)

    def method(self, number, index):
        return index if isinstance(index, str) else self.plain.methods(number)[index].text

    def connections(self):
        right = Counter(
            (it.sender, self.method(it.sender, it.signal), it.receiver, self.method(it.receiver, it.callee), it.queued, it.single)
            for it in self.plain.connections
        )
        there = [it for it in self.shown.connections.values() if {it.sender, it.receiver} <= self.rows.keys()]
        claimed = Counter((it.sender, it.signal, it.receiver, it.method, it.is_queued, it.is_single) for it in there)
        if self.shown.are_connections_sure:
            self.check("connections", claimed, right)
            self.counts["connections that are known"] += len(right)

    def values(self):
        for number, row in self.rows.items():
            names = [it.name for it in self.plain.classes.properties(row.class_name)]
            for name in {*names, *row.dynamic, *self.shown.of_object.get(number, ())}:
                cell = cell_of(self.world.classes, self.shown, (number, name))
                self.counts["values"] += 1
                if cell.is_sure:
                    right = self.plain.read(row, name)
                    self.check("a value", (name, cell.value, type(cell.value)), (name, right, type(right)))
        for at in self.plain.bindings:
            self.check("a binding", at in self.shown.bindings, True)
        self.errors()
        if self.shown.is_queue_sure:
            self.check("events", self.shown.queued, len(self.plain.queue))

    def errors(self):
        """Errors that are said to be there are, and outside of groups none is there that is not said."""
        right = {at: self.plain.shown(at).error for at in self.plain.bindings}
        for at in {*right, *self.shown.errors}:
            cell = self.shown.errors.get(at)
            if cell is None and not self.shown.groups:
                self.check("an error that is not known of", None, right.get(at))
            elif cell is not None and cell.is_sure:
                self.check("an error", (at, cell.value), (at, right.get(at)))
            self.counts["errors"] += cell is not None

    def listening(self):
        right = {it.name: (it.number, self.method(it.number, it.signal)) for it in self.plain.publications}
        claimed = {name: spot for name, spot in self.shown.publications.items() if spot[0] in self.rows}
        self.check("publications", claimed, right)
        joins = [(it.source, it.name, it.number, self.method(it.number, it.method)) for it in self.plain.joins]
        there = [(it.source, it.name, it.object, it.method) for it in self.shown.joins if it.object in self.rows]
        self.check("joins", there, joins)


def claims_of(world, server):
    """What is claimed of all sessions of a server."""
    for name, plain in server.sessions.items():
        if name in world.sessions:
            yield Claims(world, world.sessions[name], plain).all()
