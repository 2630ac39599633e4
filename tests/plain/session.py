"""A session as its definitions have it: lists of rows, an agenda that is done item by item, and what it posts to others.

Nothing here is quick, and only the rows are kept: whatever is asked is looked for by going through them.
"""

from bisect import insort

from tests.support.limits import BINDINGS, CONNECTIONS, DYNAMIC_PROPERTIES, EVENTS, GROUPS, JOINS, LEVELS, NESTED_SIGNALS, OBJECTS, PUBLICATIONS, TURNS

from .acting import ACTIONS, Acting
from .bindings import At, Binding, Scene, Shown
from .classes import DESTROYED, FUNCTORS, Classes, Connection, Event, Frame, Post, Publication, Row
from .expressions import binding_of, evaluated, next_state, reads_of
from .values import Refused, is_long, is_of_kind, is_value, normal, refuse


class Session(Acting):
    """A session as its definition has it."""

    def __init__(self, name, classes=None, turns=TURNS):
        self.name = name
        self.classes = classes or Classes()
        self.most_turns = turns
        self.reset()
        self.begin()

    def reset(self):
        """Puts it back to how it is before its first command."""
        self.rows, self.connections, self.queue, self.publications, self.joins = [], [], [], [], []
        self.bindings, self.groups, self.start = {}, 0, None
        self.last_number = self.last_stamp = self.last_connection = self.lost = self.mismatched = 0
        self.failed = False
        return True

    def fail(self):
        """It has found no memory: all that it held is gone."""
        self.reset()
        self.failed = True

    def begin(self):
        """The beginning of a command."""
        self.turns, self.spent, self.taken, self.lines, self.posts = self.most_turns, False, 0, [], []

    # Objects.

    def row(self, number):
        return next((row for row in self.rows if row.number == number), None)

    def known(self, number):
        return self.row(number) or refuse("E04")

    def alive(self, number):
        row = self.known(number)
        return refuse("E13") if row.dying else row

    def children(self, parent):
        return sorted((row for row in self.rows if row.parent == parent), key=lambda row: row.stamp)

    def line(self, number):
        """An object and those above it."""
        line = []
        while number is not None:
            line.append(number)
            number = self.row(number).parent
        return line

    def height(self, number):
        return 1 + max((self.height(row.number) for row in self.children(number)), default=0)

    def new(self, class_name, parent=None):
        if parent is not None:
            self.alive(parent)
        if class_name not in self.classes:
            refuse("E03")
        if len(self.rows) >= OBJECTS or len(self.line(parent)) >= LEVELS:
            refuse("E14")
        self.last_number += 1
        self.last_stamp += 1
        values = {it.name: it.default for it in self.classes.properties(class_name)}
        self.rows.append(Row(self.last_number, class_name, parent, self.last_stamp, values))
        return self.last_number

    def set_parent(self, number, parent):
        row = self.alive(number)
        if parent is not None:
            self.alive(parent)
        if row.parent == parent:
            return True
        if number in self.line(parent):
            refuse("E12")
        if len(self.line(parent)) + self.height(number) > LEVELS:
            refuse("E14")
        self.last_stamp += 1
        row.parent, row.stamp = parent, self.last_stamp
        return True

    def below(self, number):
        """The objects below another one, level by level, each level in the order of its parents."""
        level = self.children(number)
        while level:
            yield from level
            level = [below for row in level for below in self.children(row.number)]

    def find(self, number, name=None, class_name=None):
        """The number of the first object that is found, or None."""
        return next((row.number for row in self.found(number, name, class_name)), None)

    def found(self, number, name=None, class_name=None):
        """The objects below another one that have this name and are of this class, as far as these are given."""
        self.known(number)
        if class_name is not None and class_name not in self.classes:
            refuse("E03")
        for row in self.below(number):
            is_named = name in (None, self.read(row, "objectName"))
            if is_named and (class_name is None or class_name in self.classes.chain(row.class_name)):
                yield row

    # Properties.

    def declared(self, row, name):
        """The declared property of this name, or None."""
        return next((it for it in self.classes.properties(row.class_name) if it.name == name), None)

    def known_property(self, number, name):
        """The declared property of this name of an object that is there."""
        return self.declared(self.known(number), name) or refuse("E11")

    def read(self, row, name):
        """The value of a property, declared or dynamic, or None."""
        return self.shown(At(row.number, name)).value if name in row.values else row.dynamic.get(name)

    def write(self, row, name, value, depth):
        """Writes a property, null as `set` does, and answers what is sent of it at this depth."""
        declared = self.declared(row, name)
        if declared is None:
            self.write_dynamic(row, name, value)
        elif value is not None:
            return self.write_declared(row, declared, value, depth)
        return []

    def write_declared(self, row, declared, value, depth):
        if not is_of_kind(value, declared.kind):
            refuse("E22")
        if is_long(value):
            refuse("E14")
        before, at = self.scene(), At(row.number, declared.name)
        row.values[declared.name] = value
        self.bindings.pop(at, None)
        return self.told_since(before, depth, at)

    def write_dynamic(self, row, name, value):
        if value is None:
            row.dynamic.pop(name, None)
            return
        if not is_value(value):
            refuse("E22")
        if is_long(value) or name not in row.dynamic and len(row.dynamic) >= DYNAMIC_PROPERTIES:
            refuse("E14")
        row.dynamic[name] = value

    # Bindings and groups.

    def scene(self):
        """All that properties show comes of now."""
        return Scene({row.number: dict(row.values) for row in self.rows}, dict(self.bindings))

    def shown_in(self, scene, at):
        """What a property shows in a scene: its default where it was not there."""
        if scene.has(at):
            return scene.shown(at)
        return Shown(self.known_property(*at).default)

    def shown(self, at):
        """What a property shows; a bound one in a group what it showed when the outermost began."""
        if at not in self.bindings:
            return Shown(self.row(at.number).values[at.name])
        return self.shown_in(self.start if self.groups else self.scene(), at)

    def told_since(self, before, depth, written=None):
        """What tells at this depth of all that shows another error or value than in a scene before: first the errors, then
        the values, the written property first. In a group nothing does."""
        if self.groups:
            return []
        after = self.scene()
        order = sorted(after.properties(), key=lambda at: at != written)
        changed = [(at, self.shown_in(before, at), after.shown(at)) for at in order]
        errors = [("warn", now.error, *at) for at, was, now in changed if now.error not in (None, was.error)]
        values = [self.notification(at, now.value, depth) for at, was, now in changed if now.value != was.value]
        return errors + [item for items in values for item in items]

    def notification(self, at, value, depth):
        """The signal that reports a property's new value, where it has one, with as much of it as the signal takes."""
        notify = self.known_property(*at).notify
        if notify is None:
            return []
        signal = self.signal(at.number, notify)
        kinds = self.methods(at.number)[signal].kinds
        return [("emit", at.number, signal, [value] if kinds else [], depth)]

    def bindable(self, number, name):
        """A declared property that may be bound, and be read by a binding."""
        declared = self.known_property(number, name)
        return declared if declared.is_bindable else refuse("E18")

    def bind(self, number, name, json):
        """Binds a property to the expression that a piece of JSON is, and answers what reports it."""
        declared, at, form = self.bindable(number, name), At(number, name), binding_of(json)
        for target, read in reads_of(form):
            self.bindable(number if target == "self" else target, read)
        if at not in self.bindings and len(self.bindings) >= BINDINGS:
            refuse("E14")
        before = self.scene()
        self.bindings[at] = Binding(form, declared.kind)
        return self.told_since(before, 0, at)

    def unbind(self, at):
        """Leaves a bound property the value that it shows, and answers what reports it."""
        before = self.scene()
        self.row(at.number).values[at.name] = self.shown(at).value
        self.bindings.pop(at, None)
        return self.told_since(before, 0, at)

    def begin_group(self):
        if self.groups >= GROUPS:
            refuse("E14")
        if not self.groups:
            self.start = self.scene()
        self.groups += 1
        return self.groups

    def end_group(self):
        """Ends a group, and answers what reports all that has changed since the outermost one began."""
        if not self.groups:
            refuse("E17")
        self.groups -= 1
        return self.told_since(self.start, 0)

    # Methods and connections.

    def methods(self, number):
        return self.classes.methods(self.row(number).class_name)

    def index(self, number, signature):
        text = normal(signature)
        texts = [method.text for method in self.methods(number)]
        return texts.index(text) if text in texts else refuse("E05")

    def signal(self, number, text):
        index = self.index(number, text)
        return index if self.methods(number)[index].is_signal else refuse("E05")

    def called(self, number, callee):
        """The method of an object that has this index, or the functor of this name."""
        return FUNCTORS[callee] if callee in FUNCTORS else self.methods(number)[callee]

    def connect(self, sender, signal, receiver, callee, asked):
        """Connects two ends that are there, in the way that is asked for, and answers the number."""
        sent, taken = self.methods(sender)[signal].kinds, self.called(receiver, callee).kinds
        if sent[: len(taken)] != taken:
            refuse("E07")
        if asked.get("unique") and callee in FUNCTORS:
            refuse("E09")
        ends = sender, signal, receiver, callee
        if asked.get("unique") and any(row.ends() == ends for row in self.connections):
            refuse("E08")
        if len(self.connections) >= CONNECTIONS:
            refuse("E14")
        self.last_connection += 1
        way = asked.get("type", "auto"), asked.get("single", False)
        self.connections.append(Connection(self.last_connection, *ends, *way))
        return self.last_connection

    def disconnect(self, is_meant):
        """Breaks the connections that are meant, and answers how many."""
        before = len(self.connections)
        self.connections = [row for row in self.connections if not is_meant(row)]
        return before - len(self.connections)

    def disconnect_pattern(self, sender, signal, receiver, method):
        """Breaks the connections of a sender that match where a signal, a receiver and a method are given.

        The receiver of a functor's connection is its context, and no method is the functor."""
        return self.disconnect(
            lambda row: row.sender == sender
            and signal in (None, row.signal)
            and receiver in (None, row.receiver)
            and method in (None, row.callee)
        )

    # Events.

    def post(self, event):
        """Puts an event after all of its priority and above, and answers whether there was room for it."""
        has_room = len(self.queue) < EVENTS
        if has_room:
            insort(self.queue, event, key=lambda waiting: -waiting.priority)
        return has_room

    def delete_later(self, number):
        return self.post(Event(number)) or refuse("E14")

    def delivered(self, event):
        """What is done to deliver an event."""
        if event.callee is None:
            return [("delete", event.number, 0)]
        if self.called(event.number, event.callee).is_signal:
            return [("emit", event.number, event.callee, event.args, 0)]
        return [("run", event.number, event.callee, event.sender, event.args, 0, event.connection)]

    # Publications and joins.

    def publish(self, name, number, signal):
        if any(it.name == name for it in self.publications):
            refuse("E15")
        if len(self.publications) >= PUBLICATIONS:
            refuse("E14")
        self.publications.append(Publication(name, number, signal))
        return True

    def unpublish(self, name):
        """Takes out a publication, and answers whether it was there."""
        before = len(self.publications)
        self.publications = [it for it in self.publications if it.name != name]
        return len(self.publications) < before

    def join(self, join):
        kinds = self.called(join.number, join.method).kinds
        if join.kinds[: len(kinds)] != kinds:
            refuse("E07")
        if join.source == self.name:
            refuse("E16")
        if len(self.joins) >= JOINS:
            refuse("E14")
        self.joins.append(join)
        return True

    def leave(self, *ends):
        """Takes out all joins with these ends, and answers whether there was one."""
        before = len(self.joins)
        self.joins = [it for it in self.joins if it.ends() != ends]
        return len(self.joins) < before

    def joins_of(self, source, post):
        """The joins that name a post of another session."""
        return [it for it in self.joins if (it.source, it.name) == (source, post.name)]

    def arrive(self, source, post):
        """A post of another session, which each join that names it makes an event of. A failed session has none."""
        for join in self.joins_of(source, post):
            if join.kinds != post.kinds:
                self.mismatched += 1
                continue
            taken = len(self.called(join.number, join.method).kinds)
            self.lost += not self.post(Event(join.number, join.method, args=post.args[:taken]))

    # What a slot or functor names and computes.

    def target(self, frame, target):
        """The number of the object that a target is; 0 where it is no object."""
        if target == "self":
            return frame.self_number
        if target == "sender":
            return frame.sender
        if isinstance(target, dict):
            return self.find(frame.self_number, target["child"]) or 0 if self.row(frame.self_number) else 0
        return target

    def value(self, frame, form):
        """The value of an expression of a body."""
        return evaluated(form, frame.args, lambda target, name: self.value_read(frame, target, name), frame.state)

    def value_read(self, frame, target, name):
        """The value of a property that a body reads."""
        value = self.read(self.known(self.target(frame, target)), name)
        return refuse("E11") if value is None else value

    # The agenda.

    def run(self, agenda):
        while agenda:
            agenda[:1] = self.step(*agenda[0])

    def step(self, kind, *item):
        """Does an item of the agenda, and answers what is to be done first now."""
        return getattr(self, f"do_{kind}")(*item) or []

    def warn(self, code, number=None, name=None):
        """Warns by a code, or by the error of a bound property, of an object where one is named."""
        named = {"object": number, "property": name}
        self.lines.append({"warning": code, **{key: it for key, it in named.items() if it is not None}})

    do_warn = warn

    def takes_turn(self):
        """Whether a turn is left; it is taken then."""
        if self.turns:
            self.turns -= 1
            return True
        if not self.spent:
            self.spent = True
            self.warn("E23")
        return False

    def do_emit(self, number, signal, args, depth):
        row = self.row(number)
        if row is None or row.blocked and signal != DESTROYED:
            return None
        if depth >= NESTED_SIGNALS:
            return self.warn("E14", number)
        kinds = self.methods(number)[signal].kinds
        self.posts += [Post(it.name, kinds, args) for it in self.publications if (it.number, it.signal) == (number, signal)]
        called = [row for row in self.connections if (row.sender, row.signal) == (number, signal)]
        return [("call", row, args, depth) for row in called]

    def do_call(self, connection, args, depth):
        if connection not in self.connections or not self.takes_turn():
            return None
        if connection.single:
            self.connections.remove(connection)
        called = self.called(connection.receiver, connection.callee)
        given = args[: len(called.kinds)]
        if connection.queued:
            self.lost += not self.post(Event(connection.receiver, connection.callee, connection.sender, given, connection))
            return None
        if called.is_signal:
            return [("emit", connection.receiver, connection.callee, given, depth + 1)]
        return [("run", connection.receiver, connection.callee, connection.sender, given, depth, connection)]

    def do_run(self, number, callee, sender, args, depth, connection=None):
        """Runs a slot of an object, or a functor for it over the state that its connection keeps."""
        if self.row(number) is None:
            return None
        called = self.called(number, callee)
        self.lines.append({"args": args, "call": called.text, "object": number, "sender": sender})
        state = self.stepped(called, args, connection) if callee in FUNCTORS else None
        return self.acts(called.body, Frame(number, sender, args, depth + 1, state))

    def stepped(self, functor, args, connection):
        """The state that a functor is run over, 0 where its connection has gone; the next one is kept in its place."""
        if connection not in self.connections:
            return 0
        state, connection.state = connection.state, next_state(functor.next, args, connection.state)
        return state

    def acts(self, body, frame):
        return [("act", action, frame) for action in body]

    def do_act(self, action, frame):
        kind = next(it for it in ACTIONS if it in action)
        try:
            return ACTIONS[kind](self, action, frame)
        except Refused as refused:
            return self.warn(str(refused), frame.self_number)

    def do_delete(self, number, depth):
        row = self.row(number)
        if row is None or row.dying:
            return None
        row.dying = True
        return [("emit", number, DESTROYED, [], depth), ("cut", number, depth), ("gone", number, depth)]

    def do_cut(self, number, depth):
        self.disconnect(lambda row: number in (row.sender, row.receiver))
        self.publications = [it for it in self.publications if it.number != number]
        self.joins = [it for it in self.joins if it.number != number]
        self.queue = [event for event in self.queue if event.number != number]
        return [("kin", number, child.number, depth) for child in self.children(number)]

    def do_kin(self, parent, number, depth):
        row = self.row(number)
        return [("delete", number, depth)] if row and not row.dying and row.parent == parent else None

    def do_gone(self, number, depth):
        before = self.scene()
        self.rows.remove(self.row(number))
        self.bindings = {at: it for at, it in self.bindings.items() if at.number != number}
        for child in self.children(number):
            child.parent = None
        return self.told_since(before, depth)

    def do_spin(self):
        if not self.queue or not self.takes_turn():
            return None
        self.taken += 1
        return [*self.delivered(self.queue.pop(0)), ("spin",)]
