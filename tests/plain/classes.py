"""The classes of a class file, and what a session holds: objects of them, connections, events, publications and joins."""

from dataclasses import dataclass, field

from .values import default_of, normal, signature_of

DESTROYED = 0  # the index of this signal in every class


@dataclass
class Method:
    name: str
    kinds: list
    is_signal: bool
    body: list = field(default_factory=list)

    @property
    def text(self):
        return f"{self.name}({','.join(self.kinds)})"


def method_of(text, is_signal, body=()):
    """A method with this signature."""
    return Method(*signature_of(text), is_signal, list(body))


@dataclass
class Functor:
    """What a signal may be connected to besides methods: its body is done with its context object as `self`, over the state
    that its connection keeps, and `next` gives it another."""

    text: str
    kinds: list
    body: list
    next: dict
    is_signal: bool = False

    @property
    def keeps_state(self):
        """Whether a call gives its connection another state."""
        return self.next != STATE


def clamped(low, high):
    """A body that sets `x` to its argument, but not below the one bound and not above the other."""
    low, high, given = {"const": low}, {"const": high}, {"arg": 0}
    at_low, at_high, as_given = ([{"set": "x", "to": value}] for value in (low, high, given))
    unless_low = [{"when": {"<": [high, given]}, "then": at_high, "else": as_given}]
    return [{"when": {"<": [given, low]}, "then": at_low, "else": unless_low}]


STATE = {"state": True}
ONE_MORE = {"+": [STATE, {"const": 1}]}

CLAMP = Functor("clamp", ["int"], clamped(0, 100), STATE)
COUNT = Functor("count", ["int"], [{"set": "y", "to": ONE_MORE}], ONE_MORE)
FUNCTORS = {it.text: it for it in (CLAMP, COUNT)}


@dataclass
class Property:
    """A declared property; `notify` is the normal form of the signal that reports its changes, where it has one."""

    name: str
    kind: str
    notify: str | None = None
    is_bindable: bool = False

    @property
    def default(self):
        return default_of(self.kind)


def property_of(declared):
    """A property as a class file has it."""
    notify = normal(declared["notify"]) if "notify" in declared else None
    return Property(declared["name"], declared["type"], notify, declared.get("bindable", False))


class Classes:
    """The classes of a class file."""

    def __init__(self, declared=()):
        self.above = {"QObject": None}
        later = [{"deleteLater": "self"}]
        self.own_properties = {"QObject": [Property("objectName", "QString", "objectNameChanged(QString)", True)]}
        self.own_methods = {
            "QObject": [
                method_of("destroyed()", True),
                method_of("objectNameChanged(QString)", True),
                method_of("deleteLater()", False, later),
            ]
        }
        for it in declared:
            signals = [method_of(text, True) for text in it.get("signals", ())]
            slots = [method_of(slot["sig"], False, slot["body"]) for slot in it.get("slots", ())]
            self.above[it["name"]] = it["super"]
            self.own_methods[it["name"]] = signals + slots
            self.own_properties[it["name"]] = [property_of(one) for one in it.get("properties", ())]

    def __contains__(self, name):
        return name in self.above

    def chain(self, name):
        """A class and those above it."""
        while name is not None:
            yield name
            name = self.above[name]

    def methods(self, name):
        return [method for it in reversed(list(self.chain(name))) for method in self.own_methods[it]]

    def properties(self, name):
        return [one for it in reversed(list(self.chain(name))) for one in self.own_properties[it]]

    def described(self, name):
        """What there is in a class."""
        methods, properties = self.methods(name), self.properties(name)
        return {
            "class": name,
            "methodOffset": len(methods) - len(self.own_methods[name]),
            "methods": [it.text for it in methods],
            "properties": [it.name for it in properties],
            "propertyOffset": len(properties) - len(self.own_properties[name]),
            "super": self.above[name],
        }


@dataclass
class Row:
    """An object: the values of its declared properties, and of its dynamic ones in the order in which they were set first."""

    number: int
    class_name: str
    parent: int | None
    stamp: int
    values: dict
    dynamic: dict = field(default_factory=dict)
    dying: bool = False
    blocked: bool = False


@dataclass(eq=False)
class Connection:
    """What it calls is the index of a method of the receiver, or the name of a functor, whose context this is."""

    number: int
    sender: int
    signal: int
    receiver: int
    callee: int | str
    type: str
    single: bool
    state: int = 0

    @property
    def queued(self):
        return self.type == "queued"

    def ends(self):
        return self.sender, self.signal, self.receiver, self.callee


@dataclass
class Event:
    """What waits in the queue for an object: a call of its method or of a functor, or without a callee its deletion."""

    number: int
    callee: int | str | None = None
    sender: int = 0
    args: list = field(default_factory=list)
    connection: Connection | None = None
    priority: int = 0


@dataclass
class Publication:
    """A signal of an object, which other sessions may join by this name."""

    name: str
    number: int
    signal: int


@dataclass
class Join:
    """What waits for the posts of a name and a session: the index of a method of an object, and the kinds that it expects."""

    source: str
    name: str
    kinds: list
    number: int
    method: int

    def ends(self):
        return self.source, self.name, self.number, self.method


@dataclass
class Post:
    """What a published signal sends to all other sessions, by the name of the publication."""

    name: str
    kinds: list
    args: list


@dataclass
class Frame:
    """A slot or functor that is run: its object, who sent the signal, its arguments, how deep what it sends is, and the state
    of a functor."""

    self_number: int
    sender: int
    args: list
    depth: int
    state: int | None = None
