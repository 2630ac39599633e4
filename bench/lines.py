"""Lines of input, each with its expected output, and the classes that they name."""

import json
from pathlib import Path

ROWS = Path(__file__).resolve().parent.parent / "tests" / "rows"
DEMONSTRATION = ROWS / "class_file_of_the_demonstration_classes" / "classes.json"

ENCODE = json.JSONEncoder(separators=(",", ":"), sort_keys=True).encode

BELL = {"name": "Bell", "super": "QObject", "signals": ["rang(int)"], "slots": []}
EAR = {"name": "Ear", "super": "QObject", "signals": [], "slots": [{"sig": "hear(int)", "body": []}]}
CELL = {
    "name": "Cell",
    "super": "QObject",
    "signals": ["xChanged(int)"],
    "slots": [{"sig": "setX(int)", "body": [{"set": "x", "to": {"arg": 0}}]}],
    "properties": [{"name": "x", "type": "int", "notify": "xChanged(int)"}],
}

LINK = {
    "name": "Link",
    "super": "QObject",
    "signals": ["xChanged(int)"],
    "slots": [],
    "properties": [{"name": "x", "type": "int", "notify": "xChanged(int)", "bindable": True}],
}

PAIR = {
    "name": "Pair",
    "super": "QObject",
    "signals": ["xChanged(int)"],
    "slots": [],
    "properties": [*LINK["properties"], {"name": "y", "type": "int", "bindable": True}],
}

METHODS = 256  # as many as a class may have
METHODS_OF_QOBJECT = ["destroyed()", "objectNameChanged(QString)", "deleteLater()"]

# What `meta` replies for the Cell of the demonstration classes.
CELL_DESCRIBED = {
    "class": "Cell",
    "methodOffset": len(METHODS_OF_QOBJECT),
    "methods": [*METHODS_OF_QOBJECT, "xChanged(int)", "seen(int)", "setX(int)"],
    "properties": ["objectName", "x", "y", "z", "flag", "big"],
    "propertyOffset": 1,
    "super": "QObject",
}

LAMPS_IN_CHAIN = 8

# One of many classes, of about 1,020 bytes, spelled as people spell them.
LAMP = """
{"name":"Lamp#","super":"SUPER","signals":["level#Changed( int )","label#Changed(const QString &)","lit#Changed()"],
"slots":[{"sig":"setLevel#(const int &)","body":[{"when":{"<":[{"arg":0},{"const":0}]},
"then":[{"set":"level#","to":{"const":0}}],"else":[{"set":"level#","to":{"arg":0}}]}]},
{"sig":"setLabel#(QString const&)","body":[{"set":"label#","to":{"cat":[{"const":"lamp "},{"arg":0}]}},
{"emit":"label#Changed(QString)","args":[{"prop":"label#"}]}]},
{"sig":"follow#(void)","body":[{"connect":"level#Changed(int)","of":"sender","to":"self","method":"setLevel#(int)"}]},
{"sig":"fall#()","body":[{"disconnect":null,"to":{"child":"the cable"}},{"block":true},{"deleteLater":"self"}]}],
"properties":[{"name":"level#","type":"int","notify":"level#Changed(int)","bindable":true},
{"name":"label#","type":"QString","notify":"label#Changed(QString)"},{"name":"hours#","type":"qulonglong"},
{"name":"lit#","type":"bool","notify":"lit#Changed()"}]}
""".strip()


def panel():
    """A class with as many methods as there may be, and what `meta` replies for it."""
    own = METHODS - len(METHODS_OF_QOBJECT)
    signals = [f"signal{number}(int)" for number in range(own // 2)]
    slots = [f"slot{number}(int)" for number in range(own // 2, own)]
    declared = {"name": "Panel", "super": "QObject", "signals": signals, "slots": [{"sig": it, "body": []} for it in slots]}
    described = {
        "class": "Panel",
        "methodOffset": len(METHODS_OF_QOBJECT),
        "methods": [*METHODS_OF_QOBJECT, *signals, *slots],
        "properties": ["objectName"],
        "propertyOffset": 1,
        "super": "QObject",
    }
    return declared, described


PANEL, PANEL_DESCRIBED = panel()


def class_file(classes):
    """The text of a class file with these classes, which are texts."""
    return '{"classes":[' + ",".join(classes) + "]}"


def usual_classes():
    """The class file of all inputs but those that say another one, or are class files themselves."""
    return class_file(ENCODE(it) for it in (BELL, EAR, CELL, LINK, PAIR, PANEL))


def demonstration_classes():
    """The class file of the program's own classes, a Cell with several methods and properties and a Probe."""
    return DEMONSTRATION.read_text()


def lamps(count):
    """A class file with so many classes in chains, each the superclass of the next in its chain."""
    above = (f"Lamp{number - 1:04}" if number % LAMPS_IN_CHAIN else "QObject" for number in range(count))
    return class_file(LAMP.replace("SUPER", it).replace("#", f"{number:04}") for number, it in enumerate(above))


def command(session, do, **keys):
    """The line of a command."""
    return ENCODE({"do": do, "session": session, **keys}) + "\n"


def reply(session, value):
    """The line that replies a value."""
    return ENCODE({"reply": value, "session": session}) + "\n"


def refusal(session, code):
    """The line that refuses a command."""
    return ENCODE({"error": code, "session": session}) + "\n"


def in_error(session, number):
    """The line that warns that what a binding of the property x reads is gone."""
    return ENCODE({"object": number, "property": "x", "session": session, "warning": "EvaluationError"}) + "\n"


def called(session, slot, receivers, *args, sender=1):
    """The lines for one call of each receiver."""
    keys = {"args": args, "call": slot, "sender": sender, "session": session}
    return "".join(ENCODE({"object": it, **keys}) + "\n" for it in receivers)


# Each of these is a line with its expected output.


def new(session, number, kind="QObject", **parent):
    return command(session, "new", **{"class": kind}, **parent), reply(session, number)


def child(session, parent, number):
    return new(session, number, parent=parent)


def delete(session, number, told=""):
    """An object is deleted; these lines come before the reply."""
    return command(session, "delete", object=number), told + reply(session, True)


def write(session, value):
    return command(session, "set", object=1, property="objectName", value=value), reply(session, True)


def read(session, value):
    return command(session, "get", object=1, property="objectName"), reply(session, value)


def title(session, number, name):
    """An object gets a name."""
    return command(session, "set", object=number, property="objectName", value=name), reply(session, True)


def set_x(session, value, calls="", number=1):
    """An object, a Cell or a Link, is set, which makes these calls."""
    return command(session, "set", object=number, property="x", value=value), calls + reply(session, True)


def set_tag(session, value):
    """The first object gets a dynamic property, or another value of it."""
    return command(session, "set", object=1, property="tag", value=value), reply(session, False)


def read_tag(session, value):
    return command(session, "get", object=1, property="tag"), reply(session, value)


def sum_of(forms):
    """The expression that adds up some forms, at least one."""
    half = len(forms) // 2
    return {"+": [sum_of(forms[:half]), sum_of(forms[half:])]} if half else forms[0]


def bind(session, number, to):
    """The property x of an object is bound."""
    return command(session, "bind", object=number, property="x", to=to), reply(session, True)


def unbind(session, number):
    """The property x of an object is unbound."""
    return command(session, "unbind", object=number, property="x"), reply(session, True)


def follow(session, number, other):
    """A Link is bound to be one more than another one."""
    return bind(session, number, {"+": [{"prop": "x", "of": other}, {"const": 1}]})


def begin(session):
    """The outermost group begins."""
    return command(session, "begin"), reply(session, 1)


def end(session):
    """It ends, and nobody hears of what has changed."""
    return command(session, "end"), reply(session, 0)


def pair(session, number, more=1):
    """A Pair is bound to be so much more than what else it has."""
    return bind(session, number, {"+": [{"prop": "y"}, {"const": more}]})


def follow_y(session, number, other):
    """A Pair is bound to be one more than what another one has besides."""
    return bind(session, number, {"+": [{"prop": "y", "of": other}, {"const": 1}]})


def set_y(session, value):
    """The first object, a Pair, is set, and nobody hears of it."""
    return command(session, "set", object=1, property="y", value=value), reply(session, True)


def read_x(session, number, value):
    return command(session, "get", object=number, property="x"), reply(session, value)


def write_list(session, number):
    """A list where a text belongs, which is refused."""
    line = command(session, "set", object=1, property="objectName", value=[number, "lamp", True])
    return line, refusal(session, "E22")


def write_fraction(session, number):
    """A negative number with a fraction where a whole number belongs, which is refused."""
    return command(session, "set", object=1, property="x", value=-number - 0.5), refusal(session, "E22")


def cut_short(session, value):
    """A line that would set the name of the first object, without its last byte, so that it is not JSON."""
    line, _ = write(session, value)
    return line[:-2] + "\n", refusal("-", "E01")


def without_key(session, value):
    """A line that would set a property of the first object, and does not say which one."""
    return command(session, "set", object=1, value=value), refusal(session, "E02")


def connect(session, sender, receiver, number, signal="rang(int)", method="hear(int)", **kind):
    ends = {"sender": sender, "signal": signal, "receiver": receiver, "method": method}
    return command(session, "connect", **ends, **kind), reply(session, number)


def disconnect(session, number):
    return command(session, "disconnect", connection=number), reply(session, True)


def disconnect_ends(session, sender, receiver, signal, method):
    """The one connection with these ends is broken."""
    ends = {"sender": sender, "signal": signal, "receiver": receiver, "method": method}
    return command(session, "disconnect", **ends), reply(session, 1)


def ping(session, calls=""):
    """The first object, a Probe, sends its signal, which makes these calls."""
    return command(session, "invoke", object=1, method="ping()", args=[]), calls + reply(session, True)


def noted(session, sender):
    """The line for a call of the first object, a Probe."""
    return called(session, "note()", [1], sender=sender)


def note(session):
    """The first object, a Probe, is called."""
    return command(session, "invoke", object=1, method="note()", args=[]), noted(session, 0) + reply(session, True)


def ring(session, calls=""):
    """The first object, a Bell, rings, which makes these calls."""
    return command(session, "invoke", object=1, method="rang(int)", args=[5]), calls + reply(session, True)


def post(session, receiver, **priority):
    """An Ear is called by an event, which may have a priority."""
    return command(session, "invoke", object=receiver, method="hear(int)", args=[5], type="queued", **priority), reply(session, True)


def spin(session, events, calls=""):
    """So many events are taken, which make these calls."""
    return command(session, "spin"), calls + reply(session, {"events": events, "left": 0, "lost": 0, "mismatched": 0})


def publish(session, name):
    """The first object, a Cell, tells other sessions of its changes."""
    return command(session, "publish", object=1, signal="xChanged(int)", name=name), reply(session, True)


def join(session, other, name):
    """The first object, an Ear, hears what another session publishes."""
    call = {"from": other, "types": ["int"], "object": 1, "method": "hear(int)"}
    return command(session, "join", name=name, **call), reply(session, True)


def children(session, number, found):
    return command(session, "children", object=number), reply(session, found)


def find(session, number, name, found):
    return command(session, "find", object=number, name=name), reply(session, found)


def find_none(session, number):
    return find(session, number, "none", None)


def find_all(session, number, found):
    return command(session, "findAll", object=number), reply(session, found)


def connections_told(session, found):
    """The reply to `connections` where each of these connections has Bell 1 as its sender and Ear 2 as its receiver."""
    rows = [
        {"connection": it, "method": "hear(int)", "receiver": 2, "sender": 1, "signal": "rang(int)", "single": False, "type": "auto"}
        for it in found
    ]
    return command(session, "connections"), reply(session, rows)


def bindings_told(session, objects, name="x"):
    """The reply to `bindings` where this property of each of these objects is bound, and no other."""
    return command(session, "bindings"), reply(session, [{"object": it, "property": name} for it in objects])


def look_around(session):
    """A look for objects in a session that has none."""
    return command(session, "children"), reply(session, [])


def status(session, **counts):
    """What a session holds, where it has these counts and no others."""
    kinds = ("bindings", "connections", "group", "joins", "lost", "mismatched", "objects", "publications", "queued")
    return command(session, "status"), reply(session, {**dict.fromkeys(kinds, 0), **counts})


def meta(session, described=PANEL_DESCRIBED):
    return command(session, "meta", **{"class": described["class"]}), reply(session, described)
