"""What replies to commands that only read mean. Each function takes the keys of a command and the reply."""

from __future__ import annotations

from typing import Any

from common.asked import Asked

from .expressions import spelled
from .words import counted, listed, plain, shown


def sought_by(asked: Asked) -> str:
    """What `find` and `findAll` look for."""
    sought = [f" named {shown(asked['name'])}"] if "name" in asked else []
    sought += [f" of class {plain(asked['class'])}"] if "class" in asked else []
    return "".join(sought)


def said_of_parent(asked: Asked, reply: Any) -> str:
    return f"object {asked['object']} is {'a root' if reply is None else f'a child of object {reply}'}"


def said_of_find_all(asked: Asked, reply: Any) -> str:
    found = f"{counted(len(reply), 'object')}{sought_by(asked)} {'are' if len(reply) > 1 else 'is'} below object {asked['object']}"
    return f"{found}{': ' if reply else ''}{listed(reply)}"


def said_of_classes(asked: Asked, reply: Any) -> str:
    return f"the {'classes are' if len(reply) > 1 else 'class is'} {listed(map(plain, reply))}"


def said_of_functors(asked: Asked, reply: Any) -> str:
    functors = [f"{plain(it['name'])}({','.join(map(plain, it['types']))}){', which keeps a state' if it['state'] else ''}" for it in reply]
    return f"the {'functors are' if len(reply) > 1 else 'functor is'} {listed(functors)}" if reply else "there is no functor"


def said_of_publications(asked: Asked, reply: Any) -> str:
    published = [f"{plain(it['signal'])} of object {it['object']} as {plain(it['name'])}" for it in reply]
    return f"the session publishes {listed(published) or 'nothing'}"


def said_of_joins(asked: Asked, reply: Any) -> str:
    return f"the session has joined {'; '.join(map(join_of, reply)) or 'nothing'}"


def join_of(joined: Asked) -> str:
    """What is joined, and by what."""
    types = f"with the types {listed(map(plain, joined['types']))}" if joined["types"] else "without arguments"
    return f"{plain(joined['name'])} of session {plain(joined['from'])}, {types}, by {plain(joined['method'])} of object {joined['object']}"


def said_of_object(asked: Asked, reply: Any) -> str:
    place = "a root" if reply["parent"] is None else f"a child of object {reply['parent']}, on level {reply['level']}"
    children = f"{reply['children'] or 'no'} {'child' if reply['children'] == 1 else 'children'}"
    ways = f"{counted(reply['connectionsFrom'], 'connection')} from it and {counted(reply['connectionsTo'], 'connection')} to it"
    waiting = f"{counted(reply['events'], 'event')} {'waits' if reply['events'] < 2 else 'wait'} for it"
    blocked = "; its signals are blocked" if reply["blocked"] else ""
    return f"object {asked['object']} is of class {plain(reply['class'])}, {place}; it has {children}, {ways}; {waiting}{blocked}"


def said_of_describe(asked: Asked, reply: Any) -> str:
    name = reply["class"]
    above = "the class of all classes" if reply["super"] is None else f"below {plain(reply['super'])}"
    properties = [property_of_class(it) for it in reply["properties"] if it["class"] == name]
    methods = {key: [plain(it["signature"]) for it in reply[key] if it["class"] == name] for key in ("signals", "slots")}
    own = {"properties": properties, **methods}
    return f"class {plain(name)}, {above}; of its own it has {'; '.join(f'{key}: {listed(it)}' if it else f'no {key}' for key, it in own.items())}"


def property_of_class(declared: Asked) -> str:
    """A declared property with its type, whether it may be bound, and the signal of its changes."""
    bindable = ", bindable" if declared["bindable"] else ""
    told = "" if declared["notify"] is None else f", told by {plain(declared['notify'])}"
    return f"{plain(declared['name'])} ({plain(declared['type'])}{bindable}{told})"


def said_of_connections(asked: Asked, reply: Any) -> str:
    further = " further" if "after" in asked else ""
    of = f" of object {asked['object']}" if "object" in asked else ""
    return "; ".join(map(connection_of, reply)) or f"there is no{further} connection{of}"


def connection_of(it: Asked) -> str:
    """A connection with its ends and its type."""
    does = "posts a call of" if it["type"] == "queued" else "calls"
    called = f"{plain(it.get('method', ''))} of object {it.get('receiver')}"
    if "functor" in it:
        called = f"the functor {plain(it['functor'])} for object {it['context']}, with the state {it['state']}"
    once = ", once" if it["single"] else ""
    return f"connection {it['connection']}: {plain(it['signal'])} of object {it['sender']} {does} {called}{once}"


def said_of_properties(asked: Asked, reply: Any) -> str:
    return f"the properties of object {asked['object']}: {'; '.join(map(property_of_object, reply))}"


def property_of_object(it: Asked) -> str:
    """A property with its value, and whether it is dynamic, bound or in error."""
    more = [word for word, holds in (("dynamic", it["type"] is None), ("bound", it["bound"])) if holds]
    more += [f"in error, {plain(it['error'])}"] if it["error"] is not None else []
    return ", ".join([f"{plain(it['name'])} is {shown(it['value'])}", *more])


def said_of_bindings(asked: Asked, reply: Any) -> str:
    bound = [f"{plain(it['property'])} of object {it['object']}" for it in reply]
    if not bound:
        return f"no {'further ' if 'after' in asked else ''}property is bound"
    return f"{listed(bound)} {'are' if len(bound) > 1 else 'is'} bound"


def said_of_binding(asked: Asked, reply: Any) -> str:
    name = f"{plain(asked['property'])} of object {asked['object']}"
    return f"{name} is not bound" if reply is None else f"{name} is bound to: {spelled(reply)}"
