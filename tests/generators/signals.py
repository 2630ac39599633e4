"""Random sessions with signals, slots, events and properties.

Each session has few turns and a class file of its own, whose slots emit, connect, disconnect, delete at once or later,
block, reparent, choose and write at random. What one class declares as a property, most times with a signal that
reports its changes, another one does not, so that it is dynamic there. The commands are random too; most
name objects, methods and properties that are there. Connections of each type are made, many of them of `destroyed()`,
and events are taken now and then.
"""

import random

from . import reads

SESSIONS = 500
COMMANDS = 100
LAMPS = 3
CONNECTIONS = 12
ACTIONS = 6
OBJECTS = 40
OLDEST = 4
TURNS = (1, 2, 5, 20, 60)

SIGNALS = ("fired()", "moved(int)", "named(QString)", "told(int,QString)")
END = "destroyed()"
NAME_CHANGED = "objectNameChanged(QString)"
SLOTS = ("fire()", "move(int)", "name(QString)", "tell(int,QString)", "clear()", "follow()")
NAME = "objectName"
PROPERTIES = {"x": "int", "level": "int", "label": "QString", "lit": "bool", "step": "int", "count": "uint", "total": "qlonglong", "size": "qulonglong"}
TOLD_NUMBERS = ("moved(int)", "told(int,QString)")  # which fit the functor
UNDECLARED = ("tag", "note", "nothing")
TEXTS = ("x", "y", "z", "ä", "")
COMMANDS_MADE = {
    **{"new": 7, "connect": 16, "connectFunctor": 6, "disconnect": 2, "invoke": 20, "delete": 1, "setParent": 2, "children": 1},
    **{"set": 12, "get": 4, "dynamicNames": 1, "deleteLater": 1, "block": 1, "spin": 6, "status": 1},
}
NUMBERS = (0, 1, -1, 7, 2**31 - 1, 2**31, 2**63)


def kind_of(name):
    """The kind of a property that some class declares."""
    return "QString" if name == NAME else PROPERTIES[name]


def form_of(kind):
    """The kind of an expression that fits a property of some kind: all numbers share one."""
    return kind if kind in ("bool", "QString") else "int"


def kinds_of(method):
    return [kind for kind in method[:-1].partition("(")[2].split(",") if kind]


class Chance(random.Random):
    """Random classes, bodies and commands."""

    def is_so(self, share):
        return self.random() < share

    def signal(self, share=0.1):
        """A signal, by this share one of `QObject`, which most times is the one that reports an object's end."""
        return self.choice((END, END, NAME_CHANGED)) if self.is_so(share) else self.choice(SIGNALS)

    def first_connection(self):
        """What the first connections of a session are made by."""
        return "connectFunctor" if self.is_so(0.25) else "connect"

    def type(self, share):
        """The type of a connection or an invocation, which is named by this share."""
        return {"type": self.choice(("auto", "direct", "queued", "queued"))} if self.is_so(share) else {}

    def type_and_priority(self, share):
        """The type of an invocation, and sometimes a priority where it is queued."""
        named = self.type(share)
        has_priority = named.get("type") == "queued" and self.is_so(0.6)
        return {**named, "priority": self.choice((-1, -1, 0, 1, 1))} if has_priority else named

    def property_name(self, form=None):
        """The name of a property, most times of one of this form that some class declares."""
        declared = [it for it in (NAME, *PROPERTIES) if form in (None, form_of(kind_of(it)))]
        return self.choice(declared if self.is_so(0.9) else UNDECLARED)

    # Expressions and actions.

    def target(self):
        return self.choice(("self", "self", "sender", {"child": self.choice(TEXTS)}, self.randint(1, 8)))

    def of(self):
        return {"of": self.target()} if self.is_so(0.5) else {}

    def expression(self, kinds, wanted, depth=0):
        """An expression of the wanted kind, most times, over arguments of these kinds."""
        args = [{"arg": at} for at, kind in enumerate(kinds) if kind == wanted]
        if args and self.is_so(0.4):
            return self.choice(args)
        if self.is_so(0.1):
            wanted = self.choice(("int", "QString", "bool"))
        if depth < 2 and self.is_so(0.15):
            return {"if": [self.expression(kinds, it, depth + 1) for it in ("bool", wanted, wanted)]}
        if self.is_so(0.25):
            return {"prop": self.property_name(wanted), **self.of()}
        if wanted == "bool":
            form, part = self.choice((("<", "int"), ("=", "int"), ("=", "QString")))
            return {form: [self.expression(kinds, part, depth + 1) for _ in "ab"]} if depth < 3 else {"const": self.is_so(0.5)}
        if wanted == "QString":
            if depth < 2 and self.is_so(0.2):
                return {"cat": [self.expression(kinds, wanted, depth + 1) for _ in "ab"]}
            return {"const": self.choice(TEXTS)}
        if depth < 2 and self.is_so(0.3):
            return {self.choice("+-"): [self.expression(kinds, wanted, depth + 1) for _ in "ab"]}
        return {"const": self.choice(NUMBERS if self.is_so(0.3) else NUMBERS[:4])}

    def body(self, kinds, depth=0):
        return [self.action(kinds, depth) for _ in range(self.randrange(ACTIONS if depth == 0 else 3))]

    def action(self, kinds, depth):
        signal = self.signal()
        made = {
            "emit": lambda: {"emit": signal, "args": [self.expression(kinds, it) for it in kinds_of(signal)], **self.of()},
            "connect": lambda: self.connection(signal),
            "disconnect": lambda: self.disconnection(signal),
            "delete": lambda: {"delete": self.target()},
            "setParent": lambda: {"setParent": self.target() if self.is_so(0.7) else None, **self.of()},
            "set": lambda: self.setting(kinds),
            "when": lambda: self.choice_of(kinds, depth),
            "block": lambda: {"block": self.is_so(0.3), **self.of()},
            "deleteLater": lambda: {"deleteLater": self.target()},
        }
        weights = (7, 5, 3, 1, 2, 9, 0 if depth > 1 else 4, 0.7, 1)
        action = made[self.choices(list(made), weights)[0]]()
        if "emit" in action and self.is_so(0.05):
            action["args"].append({"const": 1})
        return action

    def setting(self, kinds):
        form = self.choice(("int", "int", "QString", "bool"))
        return {"set": self.property_name(form), "to": self.expression(kinds, form), **self.of()}

    def connection(self, signal):
        wide = [slot for slot in (*SLOTS, *SIGNALS, "deleteLater()") if kinds_of(signal)[: len(kinds_of(slot))] == kinds_of(slot)]
        method = self.choice(wide if self.is_so(0.9) else SLOTS)
        flags = {key: True for key in ("unique", "single") if self.is_so(0.3)}
        return {"connect": signal, "to": self.target(), "method": method, **self.of(), **flags, **self.type(0.4)}

    def disconnection(self, signal):
        action = {"disconnect": signal if self.is_so(0.6) else None, **self.of()}
        if self.is_so(0.5):
            action["to"] = self.target()
            if self.is_so(0.5):
                action["method"] = self.choice(SLOTS)
        return action

    def choice_of(self, kinds, depth):
        action = {"when": self.expression(kinds, "bool"), "then": self.body(kinds, depth + 1)}
        return {**action, "else": self.body(kinds, depth + 1)} if self.is_so(0.7) else action

    def declared_property(self, name):
        """A declared property, most times with a signal that takes its value or nothing."""
        signals = SIGNALS if self.is_so(0.8) else (END, NAME_CHANGED)
        fitting = [it for it in signals if kinds_of(it) in ([], [PROPERTIES[name]])]
        notify = {"notify": self.choice(fitting)} if self.is_so(0.8) else {}
        return {"name": name, "type": PROPERTIES[name], **notify}

    def declared_class(self, name, above, signals, slots, properties):
        bodies = [{"sig": slot, "body": self.body(kinds_of(slot))} for slot in slots]
        return {"name": name, "super": above, "signals": list(signals), "slots": bodies, "properties": list(map(self.declared_property, properties))}

    def classes(self):
        """Three classes. The second is below the first."""
        names = self.sample(list(PROPERTIES), len(PROPERTIES))
        yield self.declared_class("Lamp", "QObject", SIGNALS, SLOTS, names[:5])
        yield self.declared_class("Torch", "Lamp", (), (), names[5:7])
        yield self.declared_class("Switch", "QObject", SIGNALS, SLOTS, names[2:6])

    # Commands.

    def value(self, kind):
        if self.is_so(0.05):
            return self.choice((None, True, 1.5, "x", [1], 2**40))
        if kind == "bool":
            return self.is_so(0.5)
        if kind == "QString":
            return self.choice(TEXTS)
        return self.choice(NUMBERS[:5] if kind == "int" or self.is_so(0.7) else NUMBERS)

    def method(self):
        return self.choice(("nothing()", "nothing", "deleteLater()", "destroyed()")) if self.is_so(0.06) else self.choice((*SIGNALS, *SLOTS))

    def command(self, session):
        """A command in a session. Most commands name objects that are there."""
        living = [row.number for row in session.rows]
        if len(living) > OBJECTS and self.is_so(0.3):
            return {"do": "delete", "object": self.choice(living)}
        one, other = (self.object(living) if living and self.is_so(0.95) else session.last_number + self.randint(1, 2) for _ in "ab")
        if self.is_so(reads.SHARE):
            return reads.read_of(self, session, one)
        return self.command_of(self.choices(list(COMMANDS_MADE), COMMANDS_MADE.values())[0], one, other)

    def object(self, living):
        """An object that is there, often one of the oldest, which have most to answer."""
        return self.choice(living[:OLDEST] if self.is_so(0.6) else living)

    def command_of(self, kind, one, other):
        """A command of this kind, that names one of these objects or both."""
        if kind in ("spin", "status"):
            return {"do": kind}
        if kind == "new":
            parent = {"parent": other} if self.is_so(0.5) else {}
            return {"do": kind, "class": self.choice(("Lamp", "Torch", "Torch", "Switch", "QObject")), **parent}
        if kind == "connect":
            made_of = self.connection(self.signal(0.25))
            kept = {key: made_of[key] for key in ("method", "unique", "single", "type") if key in made_of}
            return {"do": kind, "sender": one, "signal": made_of["connect"], "receiver": other, **kept}
        if kind == "connectFunctor":
            return self.functor_command(one, other)
        if kind == "disconnect":
            return self.disconnect_command(one, other)
        if kind == "invoke":
            method = self.method()
            args = [self.value(it) for it in kinds_of(method)] if "(" in method else []
            return {"do": kind, "object": one, "method": method, "args": args, **self.type_and_priority(0.3)}
        command = {"do": kind, "object": one}
        if kind == "setParent":
            command["parent"] = other if self.is_so(0.8) else None
        if kind == "block":
            command["on"] = self.is_so(0.3)
        if kind in ("set", "get"):
            command["property"] = self.property_name()
        if kind == "set":
            command["value"] = self.property_value(command["property"])
        return command

    def property_value(self, name):
        """What a property of this name is set to."""
        if name in UNDECLARED:
            return None if self.is_so(0.3) else self.value(self.choice(("int", "QString", "bool")))
        return self.value(kind_of(name))

    def functor_command(self, one, other):
        """A connection to the functor, most times of a signal that fits it."""
        signal = self.choice(TOLD_NUMBERS) if self.is_so(0.9) else self.signal(0.25)
        flags = {key: True for key, share in (("unique", 0.05), ("single", 0.25)) if self.is_so(share)}
        functor = self.choice(("clamp", "count")) if self.is_so(0.95) else "clam"
        ends = {"sender": one, "signal": signal, "context": other, "functor": functor}
        return {"do": "connectFunctor", **ends, **flags, **self.type(0.4)}

    def disconnect_command(self, one, other):
        if self.is_so(0.4):
            return {"do": "disconnect", "connection": self.randint(1, 20)}
        command = {"do": "disconnect", "sender": one}
        if self.is_so(0.6):
            command["signal"] = self.signal()
        if self.is_so(0.6):
            command["receiver"] = other
            if self.is_so(0.5):
                command["method"] = self.method()
        return command


def life_of(chance, server, number=COMMANDS):
    """So many random commands in a session of a server, which connect its first objects first, and the answers to each."""
    commands, answers = [], []
    for at in range(number):
        if at < LAMPS:
            command = {"do": "new", "class": "Lamp"}
        elif at < LAMPS + CONNECTIONS:
            command = chance.command_of(chance.first_connection(), chance.randint(1, LAMPS), chance.randint(1, LAMPS))
        else:
            command = chance.command(server.session("a"))
        commands.append({**command, "session": "a"})
        answers.append(server.step(commands[-1]))
    return commands, answers


def calls_in(lines):
    return sum("call" in line for line in lines)


def functors_in(lines):
    """How many of the calls are those of functors, whose names are no signatures."""
    return sum("call" in line and "(" not in line["call"] for line in lines)


def events_in(lines):
    """How many events were taken."""
    replies = (line.get("reply") for line in lines)
    return sum(reply["events"] for reply in replies if isinstance(reply, dict) and "left" in reply)  # of `spin` alone


def errors_in(lines):
    """How many warnings are those of a property's error."""
    return sum("warning" in line and "property" in line for line in lines)


def changes_in(commands, answers):
    """How many calls told of what a command had set."""
    return sum(calls_in(answer) for command, answer in zip(commands, answers) if command["do"] == "set")
