"""The replies of commands that only read their session: its objects, connections, bindings, publications and joins, and the
classes and functors."""

from .bindings import At
from .classes import FUNCTORS
from .expressions import shortest
from .values import refuse

MOST = 1_000  # of one reply


def text_of(session, number, index):
    """The normal text of the method of an object that has this index."""
    return session.methods(number)[index].text


def parent(session, command):
    return session.known(command["object"]).parent


def find_all(session, command):
    return [row.number for row in session.found(command["object"], command.get("name"), command.get("class"))]


def whole_object(session, command):
    number = command["object"]
    row = session.known(number)
    return {
        "blocked": row.blocked,
        "children": len(session.children(number)),
        "class": row.class_name,
        "connectionsFrom": sum(it.sender == number for it in session.connections),
        "connectionsTo": sum(it.receiver == number for it in session.connections),
        "events": sum(it.number == number for it in session.queue),
        "level": len(session.line(number)),
        "parent": row.parent,
    }


def properties(session, command):
    row = session.known(command["object"])
    declared = [declared_property(session, row, it) for it in session.classes.properties(row.class_name)]
    return declared + [dynamic_property(name, value) for name, value in row.dynamic.items()]


def declared_property(session, row, declared):
    at = At(row.number, declared.name)
    shown, of_class = session.shown(at), {"bindable": declared.is_bindable, "notify": declared.notify, "type": declared.kind}
    return {**of_class, "bound": at in session.bindings, "error": shown.error, "name": declared.name, "value": shown.value}


def dynamic_property(name, value):
    of_class = {"bindable": False, "notify": None, "type": None}
    return {**of_class, "bound": False, "error": None, "name": name, "value": value}


def connections(session, command):
    number, after = command.get("object"), command.get("after", 0)
    if number is not None:
        session.known(number)
    asked = [it for it in session.connections if it.number > after and number in (None, it.sender, it.receiver)]
    return [described_connection(session, it) for it in asked[:MOST]]


def described_connection(session, it):
    signal = text_of(session, it.sender, it.signal)
    of_all = {"connection": it.number, "sender": it.sender, "signal": signal, "single": it.single, "type": it.type}
    if it.callee in FUNCTORS:
        return {**of_all, "context": it.receiver, "functor": it.callee, "state": it.state}
    return {**of_all, "method": text_of(session, it.receiver, it.callee), "receiver": it.receiver}


def bindings(session, command):
    rows = sorted(session.rows, key=lambda row: row.number)
    of_each = (At(row.number, it.name) for row in rows for it in session.classes.properties(row.class_name))
    bound = [at for at in of_each if at in session.bindings and is_behind(session, at, command.get("after"))]
    return [{"object": at.number, "property": at.name} for at in bound[:MOST]]


def is_behind(session, at, after):
    """Whether a property comes after this one in a list of bindings, or after none."""
    if after is None or at.number > after["object"]:
        return True
    names = [it.name for it in session.classes.properties(session.row(at.number).class_name)]
    place = names.index(after["property"]) if after["property"] in names else -1
    return at.number == after["object"] and names.index(at.name) > place


def binding(session, command):
    at = At(command["object"], command["property"])
    session.known_property(*at)
    return shortest(session.bindings[at].form) if at in session.bindings else None


def publications(session, command):
    return [{"name": it.name, "object": it.number, "signal": text_of(session, it.number, it.signal)} for it in session.publications]


def joins(session, command):
    return [
        {"from": it.source, "method": text_of(session, it.number, it.method), "name": it.name, "object": it.number, "types": it.kinds}
        for it in session.joins
    ]


def classes(session, command):
    return list(session.classes.above)


def described(session, command):
    name, classes = command["class"], session.classes
    if name not in classes:
        refuse("E03")
    chain = list(reversed(list(classes.chain(name))))
    methods = [(of, it) for of in chain for it in classes.own_methods[of]]
    return {
        "class": name,
        "properties": [described_property(of, it) for of in chain for it in classes.own_properties[of]],
        "signals": [described_method(of, it) for of, it in methods if it.is_signal],
        "slots": [described_method(of, it) for of, it in methods if not it.is_signal],
        "super": classes.above[name],
    }


def described_property(of, declared):
    named = {"class": of, "name": declared.name, "type": declared.kind}
    return {**named, "bindable": declared.is_bindable, "notify": declared.notify}


def described_method(of, method):
    return {"class": of, "signature": method.text, "types": method.kinds}


def functors(session, command):
    return [{"name": it.text, "state": it.keeps_state, "types": it.kinds} for it in FUNCTORS.values()]


QUERIES = {
    "parent": parent,
    "find_all": find_all,
    "object_info": whole_object,
    "properties": properties,
    "connections": connections,
    "bindings": bindings,
    "binding": binding,
    "publications": publications,
    "joins": joins,
    "classes": classes,
    "describe": described,
    "functors": functors,
}
