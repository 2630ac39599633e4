"""Sessions that reach the limits and are then read. The expected answers are worked out from the rules."""

from tests.support.limits import BINDINGS, CONNECTIONS, DYNAMIC_PROPERTIES, EVENTS, FORMS, JOINS, LEVELS, PUBLICATIONS, TEXT_BYTES

from .steps import E14, bind, call, connect, delete_later, join, new, of, publish, reply, row_of, set_to
from .steps import clamp as functor

PAGE = 1_000  # connections or bindings of one reply

OBJECTS = LEVELS * LEVELS


def find_all(number, **sought):
    return {"do": "findAll", "object": number, **sought}


def parent(number):
    return {"do": "parent", "object": number}


def wide_tree():
    """As many objects as there may be. All but one are children of that one."""
    yield new(), reply(1)
    yield from ((new(1), reply(number)) for number in range(2, OBJECTS + 1))
    yield new(1), E14
    below = list(range(2, OBJECTS + 1))
    yield find_all(1), reply(below)
    yield find_all(1, **{"class": "A", "name": ""}), reply(below)
    yield find_all(1, name="x"), reply([])
    yield find_all(OBJECTS), reply([])
    yield parent(OBJECTS), reply(1)
    yield of("b", {"do": "classes"}, reply(["QObject", "A"]))


def chains():
    """As many objects as there may be, in chains of as many levels as there may be."""
    yield from ((new(None if number % LEVELS == 1 else number - 1), reply(number)) for number in range(1, OBJECTS + 1))
    yield find_all(1), reply(list(range(2, LEVELS + 1)))
    yield find_all(OBJECTS - LEVELS + 1), reply(list(range(OBJECTS - LEVELS + 2, OBJECTS + 1)))
    yield parent(OBJECTS), reply(OBJECTS - 1)
    yield parent(OBJECTS - LEVELS + 1), reply(None)


def shared():
    """As many publications and joins as there may be."""
    yield new(), reply(1)
    names = [f"n{at}" for at in range(max(PUBLICATIONS, JOINS))]
    yield from ((publish(1, "down()", name), reply(True)) for name in names[:PUBLICATIONS])
    yield from ((join("b", name, ["QString", "int"], 1, "hear(QString,int)"), reply(True)) for name in names[:JOINS])
    yield {"do": "publications"}, reply([{"name": name, "object": 1, "signal": "down()"} for name in names[:PUBLICATIONS]])
    one = {"from": "b", "method": "hear(QString,int)", "object": 1, "types": ["QString", "int"]}
    yield {"do": "joins"}, reply([{**one, "name": name} for name in names[:JOINS]])


def whole_object(number, **there):
    """The command `object` and its reply, for a root without anything else than what is given."""
    nothing = dict.fromkeys(("children", "connectionsFrom", "connectionsTo", "events"), 0)
    return {"do": "object", "object": number}, reply({"blocked": False, "class": "A", "level": 1, "parent": None, **nothing, **there})


def counts():
    """As many children, connections and events of one object as there may be."""
    yield new(), reply(1)
    yield from ((new(1), reply(number)) for number in range(2, OBJECTS + 1))
    yield from ((connect(1, "down()", 1, "note()"), reply(number)) for number in range(1, CONNECTIONS + 1))
    yield from ((delete_later(1), reply(True)) for _ in range(EVENTS))
    yield whole_object(1, children=OBJECTS - 1, connectionsFrom=CONNECTIONS, connectionsTo=CONNECTIONS, events=EVENTS)
    yield whole_object(OBJECTS, level=2, parent=1)


def deepest_object():
    """An object on the last level."""
    yield from ((new(number - 1 or None), reply(number)) for number in range(1, LEVELS + 1))
    yield whole_object(LEVELS, level=LEVELS, parent=LEVELS - 1)
    yield whole_object(1, children=1)


def note(number, **there):
    """A connection that calls a slot of the second object."""
    way = {"single": False, "type": "auto"}
    return {"connection": number, "method": "note()", "receiver": 2, "sender": 1, "signal": "down()", **way, **there}


def pages(asked, after, found):
    """Pages of at most 1,000 entries, each after the last entry of the page before, until nothing is left."""
    yield asked, reply(found[:PAGE])
    for at in range(PAGE, len(found) + PAGE, PAGE):
        yield {**asked, "after": after(found[at - 1] if at <= len(found) else found[-1])}, reply(found[at : at + PAGE])


def connections():
    """As many connections as there may be. Every second one is of the second object too."""
    yield from ((new(), reply(number)) for number in (1, 2))
    made = [note(number) if number % 2 else note(number, receiver=1, type="queued", single=True) for number in range(1, CONNECTIONS + 1)]
    for it in made:
        how = {key: it[key] for key in ("type", "single")} if it["receiver"] == 1 else {}
        yield connect(1, "down()", it["receiver"], "note()", **how), reply(it["connection"])
    yield from pages({"do": "connections"}, lambda it: it["connection"], made)
    yield from pages({"do": "connections", "object": 1}, lambda it: it["connection"], made)
    yield from pages({"do": "connections", "object": 2}, lambda it: it["connection"], made[::2])
    yield {"do": "disconnect", "sender": 1, "receiver": 2}, reply(CONNECTIONS // 2)
    yield {"do": "connections", "after": CONNECTIONS - 3}, reply([made[-3], made[-1]])


def states():
    """As many connections of a functor as there may be, each with a state."""
    yield new(), reply(1)
    yield from ((functor(1, "xChanged(int)", 1, "count"), reply(number)) for number in range(1, CONNECTIONS + 1))
    calls = [call("count", 1, 1, 7)] * CONNECTIONS
    yield set_to(1, "x", 7), *calls, reply(True)
    ends = {"context": 1, "functor": "count", "sender": 1, "signal": "xChanged(int)", "single": False, "type": "auto"}
    yield from pages({"do": "connections"}, lambda it: it["connection"], [{**ends, "connection": number, "state": 1} for number in range(1, CONNECTIONS + 1)])


def long_properties():
    """As many dynamic properties as there may be, with texts of the maximum length."""
    text, declared = "\u00e4" * (TEXT_BYTES // 2), {"bindable": True, "bound": False, "error": None}
    yield new(), reply(1)
    yield from ((set_to(1, f"p{at}", text), reply(False)) for at in range(DYNAMIC_PROPERTIES))
    dynamic = {"bindable": False, "bound": False, "error": None, "notify": None, "type": None, "value": text}
    yield {"do": "properties", "object": 1}, reply([
        {**declared, "name": "objectName", "notify": "objectNameChanged(QString)", "type": "QString", "value": ""},
        *({**declared, "name": name, "notify": f"{name}Changed(int)", "type": "int", "value": 0} for name in "xy"),
        *({**dynamic, "name": f"p{at}"} for at in range(DYNAMIC_PROPERTIES)),
    ])


def bindings():
    """As many bindings as there may be, two of each object."""
    objects = BINDINGS // 2
    form = {"+": [{"of": 1, "prop": "x"}, {"const": 1}]}
    yield from ((new(), reply(number)) for number in range(1, objects + 2))
    bound = [{"object": number, "property": name} for number in range(2, objects + 2) for name in ("objectName", "y")]
    for it in reversed(bound):
        yield bind(it["object"], it["property"], form if it["property"] == "y" else {"const": "n"}), reply(True)
    yield from pages({"do": "bindings"}, lambda it: it, bound)
    yield {"do": "bindings", "after": {"object": 1, "property": "y"}}, reply(bound[:PAGE])
    yield {"do": "bindings", "after": {"object": 2, "property": "x"}}, reply(bound[1 : PAGE + 1])
    yield {"do": "binding", "object": objects + 1, "property": "y"}, reply(form)


def long_binding():
    """An expression with as many forms as there may be, and one with a text of the maximum length."""
    yield new(), reply(1)
    form, text = {"const": 1}, {"const": "\u00e4" * (TEXT_BYTES // 2)}
    for _ in range((FORMS - 1) // 2):
        form = {"+": [form, {"prop": "x"}]}
    yield bind(1, "y", form), reply(True)
    yield {"do": "binding", "object": 1, "property": "y"}, reply(form)
    yield bind(1, "objectName", text), reply(True)
    yield {"do": "binding", "object": 1, "property": "objectName"}, reply(text)


def rows():
    yield row_of(f"reads of {OBJECTS} objects below one", wide_tree())
    yield row_of(f"reads of {OBJECTS} objects in chains", chains())
    yield row_of(f"reads of {PUBLICATIONS} publications and {JOINS} joins", shared())
    yield row_of(f"reads of an object with {OBJECTS - 1} children, {CONNECTIONS} connections and {EVENTS} events", counts())
    yield row_of(f"reads of an object on level {LEVELS}", deepest_object())
    yield row_of(f"reads of {CONNECTIONS} connections", connections())
    yield row_of(f"reads of {CONNECTIONS} connections of a functor", states(), "--turns", str(CONNECTIONS))
    yield row_of(f"reads of {DYNAMIC_PROPERTIES} dynamic properties of {TEXT_BYTES} bytes", long_properties())
    yield row_of(f"reads of {BINDINGS} bindings", bindings())
    yield row_of(f"reads of a binding of {FORMS} forms and of one of {TEXT_BYTES} bytes", long_binding())
