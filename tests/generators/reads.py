"""Random commands that only read: all that docs/PROTOCOL.md has. Some name objects, classes or properties that do not exist."""

from tools import protocol

SHARE = 0.3  # of the commands that `signals` makes
SHARE_BEFORE = 0.22  # of the commands of a generator that makes others of its own before those
LEAST_SHARE = 0.2  # of all random commands, which the tests ask for
TEXTS = ("x", "y", "z", "ä", "")
STRANGE_CLASS = "Nope"
WEIGHTS = {"object": 4, "properties": 4, "connections": 4, "binding": 5, "findAll": 3, "bindings": 2, "classes": 0.3, "functors": 0.2}
READS = {it.word: it.forms[0].keys for it in protocol.all_commands() if it.effect == "reads"}


def class_name(made, session):
    """The name of a class, most times of one that is declared."""
    return made.choice(list(session.classes.above)) if made.random() < 0.95 else STRANGE_CLASS


def place(made, session, number):
    """A property of an object, most times one that its class declares."""
    row = session.row(number)
    names = [it.name for it in session.classes.properties(row.class_name)] if row and made.random() < 0.9 else ["nothing"]
    return {"object": number, "property": made.choice(names)}


def one_property(made, session, number):
    """A property, most times one that is bound where any is."""
    if session.bindings and made.random() < 0.7:
        at = made.choice(list(session.bindings))
        return {"object": at.number, "property": at.name}
    return place(made, session, number)


def value_of(made, session, number, key):
    """What a command holds at a key, by the kind of it."""
    if key.kind == "number":
        return number if key.name == "object" else made.randint(1, session.last_connection + 1)
    if key.kind == "place":
        return place(made, session, number)
    return class_name(made, session) if key.name == "class" else made.choice(TEXTS)


def read_of(made, session, number):
    """A command that reads of a session, and of the object of this number where it names one."""
    word = made.choices(list(READS), [WEIGHTS.get(it, 1) for it in READS])[0]
    keys = [it for it in READS[word] if not it.is_optional or made.random() < 0.5]
    if "property" in [it.name for it in keys]:
        return {"do": word, **one_property(made, session, number)}
    return {"do": word, **{it.name: value_of(made, session, number, it) for it in keys}}
