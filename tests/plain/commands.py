"""What the commands of a session do and reply; a refused one raises `Refused`."""

from tools import protocol
from tools.listing.names import name_of

from .bindings import At
from .classes import FUNCTORS, Event, Join
from .queries import QUERIES
from .values import KINDS, PARAMETERS, Refused, is_long, is_of_kind, refuse


def delete(session, command):
    session.known(command["object"])
    session.run([("delete", command["object"], 0)])
    return True


def list_children(session, command):
    if "object" in command:
        session.known(command["object"])
    return [row.number for row in session.children(command.get("object"))]


def set_property(session, command):
    name, value = command["property"], command["value"]
    row = session.known(command["object"])
    is_written = session.declared(row, name) is not None and value is not None
    session.run(session.write(row, name, value, 0))
    return is_written


def get_property(session, command):
    return session.read(session.known(command["object"]), command["property"])


def bind(session, command):
    session.run(session.bind(command["object"], command["property"], command["to"]))
    return True


def unbind(session, command):
    """Binds a property no longer, and answers whether it was bound."""
    at = At(command["object"], command["property"])
    session.known_property(*at)
    is_bound = at in session.bindings
    session.run(session.unbind(at))
    return is_bound


def binding_error(session, command):
    at = At(command["object"], command["property"])
    session.known_property(*at)
    return session.shown(at).error


def end_group(session, command):
    session.run(session.end_group())
    return session.groups


def dynamic_names(session, command):
    return list(session.known(command["object"]).dynamic)


def connect(session, command):
    sender, receiver = command["sender"], command["receiver"]
    session.known(sender)
    session.known(receiver)
    signal = session.signal(sender, command["signal"])
    method = session.index(receiver, command["method"])
    return session.connect(sender, signal, receiver, method, command)


def connect_functor(session, command):
    sender, context, functor = command["sender"], command["context"], command["functor"]
    session.known(sender)
    session.known(context)
    signal = session.signal(sender, command["signal"])
    return session.connect(sender, signal, context, functor if functor in FUNCTORS else refuse("E10"), command)


def disconnect(session, command):
    if "connection" in command:
        return session.disconnect(lambda row: row.number == command["connection"]) == 1
    sender, receiver = command["sender"], command.get("receiver")
    session.known(sender)
    if receiver is not None:
        session.known(receiver)
    signal = session.signal(sender, command["signal"]) if "signal" in command else None
    method = session.index(receiver, command["method"]) if "method" in command else None
    return session.disconnect_pattern(sender, signal, receiver, method)


def invoke(session, command):
    number, args = command["object"], command["args"]
    session.known(number)
    try:
        index = session.index(number, command["method"])
    except Refused as refused:
        return False if str(refused) == "E05" else refuse(str(refused))
    method = session.methods(number)[index]
    if len(args) != len(method.kinds) or not all(map(is_of_kind, args, method.kinds)):
        refuse("E22")
    if any(map(is_long, args)):
        refuse("E14")
    if command.get("type") == "queued":
        return session.post(Event(number, index, args=args, priority=command.get("priority", 0))) or refuse("E14")
    if method.is_signal:
        session.run([("emit", number, index, args, 0)])
    elif session.takes_turn():
        session.run([("run", number, index, 0, args, 0)])
    return True


def delete_later(session, command):
    return session.delete_later(session.known(command["object"]).number)


def block(session, command):
    row = session.known(command["object"])
    before, row.blocked = row.blocked, command["on"]
    return before


def publish(session, command):
    number = command["object"]
    session.known(number)
    return session.publish(command["name"], number, session.signal(number, command["signal"]))


def join(session, command):
    number, kinds = command["object"], command["types"]
    session.known(number)
    if len(kinds) > PARAMETERS or not all(kind in KINDS for kind in kinds):
        refuse("E06")
    method = session.index(number, command["method"])
    return session.join(Join(command["from"], command["name"], kinds, number, method))


def leave(session, command):
    number = command["object"]
    session.known(number)
    return session.leave(command["from"], command["name"], number, session.index(number, command["method"]))


def spin(session, command):
    session.run([("spin",)])
    return {"events": session.taken, "left": len(session.queue), "lost": session.lost, "mismatched": session.mismatched}


def status(session, command):
    rows = ("bindings", "connections", "joins", "publications")
    held = {key: len(getattr(session, key)) for key in rows} | {"objects": len(session.rows), "queued": len(session.queue)}
    return held | {"group": session.groups, "lost": session.lost, "mismatched": session.mismatched}


def describe(session, command):
    name = command["class"]
    return session.classes.described(name) if name in session.classes else refuse("E03")


BY_NAME = {
    "new": lambda session, command: session.new(command["class"], command.get("parent")),
    "delete": delete,
    "set_parent": lambda session, command: session.set_parent(command["object"], command["parent"]),
    "children": list_children,
    "find": lambda session, command: session.find(command["object"], command.get("name"), command.get("class")),
    "set": set_property,
    "get": get_property,
    "dynamic_names": dynamic_names,
    "bind": bind,
    "unbind": unbind,
    "binding_error": binding_error,
    "begin": lambda session, command: session.begin_group(),
    "end": end_group,
    "connect": connect,
    "connect_functor": connect_functor,
    "disconnect": disconnect,
    "invoke": invoke,
    "delete_later": delete_later,
    "block": block,
    "publish": publish,
    "unpublish": lambda session, command: session.unpublish(command["name"]),
    "join": join,
    "leave": leave,
    "spin": spin,
    "status": status,
    "meta": describe,
    "reset": lambda session, command: session.reset(),
    **QUERIES,
}  # each by its name in Python's style
COMMANDS = {word: BY_NAME[name_of(word)] for word in protocol.forms()}
