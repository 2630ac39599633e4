"""Commands as steps of a session, each with the answers that it has to receive."""

from tests.support.lines import lines_of
from tests.support.program import Row
from tools.protocol import word_that_replies

ERROR_OF = word_that_replies("error or null")
E07, E08, E09, E10, E14 = ({"error": code} for code in ("E07", "E08", "E09", "E10", "E14"))
E04, E05, E15, E16, E17, E22 = ({"error": code} for code in ("E04", "E05", "E15", "E16", "E17", "E22"))
SPIN, STATUS, CHILDREN, RESET, BEGIN, END = ({"do": word} for word in ("spin", "status", "children", "reset", "begin", "end"))


def row_of(name, steps, *words):
    """A row of steps, each a command and the lines that it has to be answered by, of session `a` where they say no other."""
    steps = [of("a", *step) for step in steps]
    given = lines_of(step[0] for step in steps)
    wanted = lines_of(line for step in steps for line in step[1:])
    return Row(name, given, wanted, words=("classes.json", *words))


def of(session, *step):
    """A step of this session, where it is not said to be of another one."""
    return tuple({"session": session, **it} for it in step)


def reply(value):
    return {"reply": value}


def warning(code, number=None):
    return {"warning": code} if number is None else {"object": number, "warning": code}


def errors(error, numbers, name="x"):
    """Warnings of an error of this property of some objects."""
    return [{"object": number, "property": name, "warning": error} for number in numbers]


def call(method, number, sender, *args):
    return {"args": args, "call": method, "object": number, "sender": sender}


def new(parent=None):
    return {"do": "new", "class": "A", **({} if parent is None else {"parent": parent})}


def connect(sender, signal, receiver, method, **more):
    return {"do": "connect", "sender": sender, "signal": signal, "receiver": receiver, "method": method, **more}


def clamp(sender, signal, context, functor="clamp", **more):
    return {"do": "connectFunctor", "sender": sender, "signal": signal, "context": context, "functor": functor, **more}


def invoke(number, method, *args, **more):
    return {"do": "invoke", "object": number, "method": method, "args": args, **more}


def set_to(number, name, value):
    return {"do": "set", "object": number, "property": name, "value": value}


def get(number, name):
    return {"do": "get", "object": number, "property": name}


def bind(number, name, form):
    return {"do": "bind", "object": number, "property": name, "to": form}


def unbind(number, name):
    return {"do": "unbind", "object": number, "property": name}


def error_of(number, name):
    return {"do": ERROR_OF, "object": number, "property": name}


def publish(number, signal, name):
    return {"do": "publish", "object": number, "signal": signal, "name": name}


def unpublish(name):
    return {"do": "unpublish", "name": name}


def join(source, name, types, number, method):
    return {"do": "join", "from": source, "name": name, "types": types, "object": number, "method": method}


def leave(source, name, number, method):
    return {"do": "leave", "from": source, "name": name, "object": number, "method": method}


def delete(number):
    return {"do": "delete", "object": number}


def delete_later(number):
    return {"do": "deleteLater", "object": number}


def spun(events, left=0, lost=0, mismatched=0):
    return reply({"events": events, "left": left, "lost": lost, "mismatched": mismatched})


def counted(**there):
    """The reply of `status`."""
    return reply(dict.fromkeys(("bindings", "connections", "group", "joins", "lost", "mismatched", "objects", "publications", "queued"), 0) | there)
