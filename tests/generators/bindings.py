"""Random sessions with bindings and groups, in addition to all that sessions of `signals` do.

Most properties that classes declare may be bound. Properties are bound to expressions over properties of the object itself
and of others, also such that are not there or may not be read, so that there are chains, loops, and errors that come and go
with what is set, unbound or deleted. Slots write such properties as they do all others, and are called on their changes.
"""

from tools.protocol import word_that_replies

from . import reads, signals
from .signals import form_of, kind_of

SESSIONS = 500
WATCHED_SESSIONS = 1_000
WATCHED_COMMANDS = 600
SHARE = 0.6  # of the commands that are those of bindings
ERROR_OF = word_that_replies("error or null")
COMMANDS_MADE = {"bind": 16, "unbind": 2, ERROR_OF: 4, "begin": 2.5, "set": 14, "get": 6, "find": 1, "status": 0.5}
STRANGE_FORMS = (
    *({"arg": 0}, {"const": None}, {"const": 1.5}, {"+": [{"const": 1}]}, {"prop": "x", "of": "sender"}, {}, None, 7),
    *({"prop": "tag"}, {"prop": "x", "of": {"child": "x"}}, {"prop": "objectName", "of": 0}, {"const": "n" * 4_097}),
)


class Chance(signals.Chance):
    """Random classes, bodies and commands, with bindings and groups."""

    def declared_property(self, name):
        return {**super().declared_property(name), **({"bindable": True} if self.is_so(0.9) else {})}

    def classes(self):
        """A class with properties of all kinds, one below it, and one with a few of them."""
        yield self.declared_class("Lamp", "QObject", signals.SIGNALS, signals.SLOTS, signals.PROPERTIES)
        yield self.declared_class("Torch", "Lamp", (), (), ())
        yield self.declared_class("Switch", "QObject", signals.SIGNALS, signals.SLOTS, self.sample(list(signals.PROPERTIES), 4))

    # Commands.

    def command(self, session):
        """A command in a session. More than half of these are about bindings."""
        if session.groups and self.is_so(0.12) or self.is_so(0.005):
            return {"do": "end"}
        if session.rows and self.is_so(reads.SHARE_BEFORE):
            return reads.read_of(self, session, self.old_row(session).number)
        return self.bound(session) if session.rows and self.is_so(SHARE) else super().command(session)

    def bound(self, session):
        """A command of bindings, or one that writes or reads properties that may be bound."""
        kind = self.choices(list(COMMANDS_MADE), COMMANDS_MADE.values())[0]
        if kind in ("begin", "status"):
            return {"do": kind}
        row = self.old_row(session)
        if kind == "find":
            return {"do": kind, "object": row.number, "name": self.choice(signals.TEXTS)}
        name = self.bindable_name(session, row) if self.is_so(0.96) else self.property_name()
        command = {"do": kind, "object": row.number, "property": name}
        if kind == "bind":
            command["to"] = self.binding(session, row, name)
        if kind == "set":
            command["value"] = self.property_value(name)
        return command

    def old_row(self, session):
        """An object that is there, most times one of the oldest, so that many bindings meet."""
        return self.choice(session.rows[: signals.OLDEST] if self.is_so(0.8) else session.rows)

    def bindable_name(self, session, row, form=None):
        """The name of a property that an object's class declares and that may be bound, of this form where one is wanted, or
        None. Truths, by which expressions choose, are taken more often than others."""
        declared = [it for it in session.classes.properties(row.class_name) if it.is_bindable and form in (None, form_of(it.kind))]
        names = [it.name for it in declared for _ in range(4 if it.kind == "bool" else 1)]
        return self.choice(names) if names else None

    # Expressions.

    def binding(self, session, row, name):
        """What a property of this name is bound to: most times an expression of its form."""
        if self.is_so(0.04):
            return self.choice(STRANGE_FORMS)
        form = "int" if name in signals.UNDECLARED else form_of(kind_of(name))
        return self.bound_form(session, row, form if self.is_so(0.94) else self.choice(("int", "QString", "bool")))

    def bound_form(self, session, row, wanted, depth=0):
        """An expression of the wanted form, most times, over properties of this object and of others."""
        if depth > 2 or self.is_so(0.5):
            return self.bound_read(session, row, wanted) if self.is_so(0.75) else {"const": self.constant(wanted)}

        def parts(*forms):
            return [self.bound_form(session, row, it, depth + 1) for it in forms]

        if self.is_so(0.4):
            return {"if": parts("bool", wanted, wanted)}
        if wanted == "bool":
            form, part = self.choice((("<", "int"), ("=", "int"), ("=", "QString"), ("=", "bool")))
            return {form: parts(part, part)}
        return {"cat" if wanted == "QString" else self.choice("+-"): parts(wanted, wanted)}

    def bound_read(self, session, row, wanted):
        """A property of the object itself or of another one, which may have gone or may not be there."""
        if self.is_so(0.02):
            return {"prop": self.property_name(wanted), "of": self.randint(1, session.last_number + 1)}
        of = row if self.is_so(0.4) else self.old_row(session)
        name = self.bindable_name(session, of, wanted)
        if name is None:
            return {"const": self.constant(wanted)}
        return {"prop": name, **({} if of is row and self.is_so(0.8) else {"of": of.number})}

    def constant(self, wanted):
        if wanted == "bool":
            return self.is_so(0.5)
        return self.choice(signals.TEXTS if wanted == "QString" else signals.NUMBERS if self.is_so(0.1) else signals.NUMBERS[:4])


class Watching(Chance):
    """The same, where after each command the error and the value of each bound property are asked for."""

    asked = (ERROR_OF, "get")

    def __init__(self, seed):
        super().__init__(seed)
        self.waiting = []

    def command(self, session):
        """What is still to be asked, or else the next command, after which all that is bound then is to be asked."""
        if self.waiting is None:
            self.waiting = [{"do": word, "object": at.number, "property": at.name} for at in session.bindings for word in self.asked]
        if self.waiting:
            return self.waiting.pop()
        self.waiting = None
        return super().command(session)
