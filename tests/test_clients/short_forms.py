"""What is typed into the shell, and the commands and expressions that it has to stand for, from docs/PROTOCOL.md."""

from tools import protocol

OBJECTS = """new Probe as p
new Cell in p as c
new Cell as d
"""
OF_OBJECTS = [
    {"do": "new", "class": "Probe"},
    {"do": "new", "class": "Cell", "parent": 1},
    {"do": "new", "class": "Cell"},
]
PING_NOTE = {"sender": 1, "signal": "ping()", "receiver": 1, "method": "note()"}
CHANGED_SEEN = {"sender": 2, "signal": "xChanged(int)", "receiver": 3, "method": "seen(int)"}
BELL = {"from": "b", "name": "bell", "object": 1, "method": "note()"}
TYPED = {
    (): ("", {}),
    ("object",): (" c", {"object": 2}),
    ("object", "property"): (" c.y", {"object": 2, "property": "y"}),
    ("class",): (" Cell", {"class": "Cell"}),
}  # what is typed after a word that has these keys, and what they then hold


def plain_forms():
    """The short forms of commands that only read and have no other keys than these."""
    for it in protocol.all_commands():
        typed = TYPED.get(tuple(key.name for key in it.forms[0].keys)) if it.effect == "reads" and it.word != "get" else None
        if typed is not None and not any(key.is_optional for key in it.forms[0].keys):
            yield it.word + typed[0], {"do": it.word, **typed[1]}


SHORT = [
    *plain_forms(),
    ("p.ping()", {"do": "invoke", "object": 1, "method": "ping()", "args": []}),
    ("1 . ping ( )", {"do": "invoke", "object": 1, "method": "ping()", "args": []}),
    ("c.setX(5)", {"do": "invoke", "object": 2, "method": "setX(int)", "args": [5]}),
    ("c.setX(5, 6)", {"do": "invoke", "object": 2, "method": "setX(int)", "args": [5, 6]}),
    ('c.setX(")")', {"do": "invoke", "object": 2, "method": "setX(int)", "args": [")"]}),
    ("p.nothing(3000000000)", {"do": "invoke", "object": 1, "method": "nothing(qlonglong)", "args": [3_000_000_000]}),
    ("c.setX(5) queued", {"do": "invoke", "object": 2, "method": "setX(int)", "args": [5], "type": "queued"}),
    (
        "invoke c.setX( const int & ) [5] direct",
        {"do": "invoke", "object": 2, "method": "setX( const int & )", "args": [5], "type": "direct"},
    ),
    (
        "invoke c.setX(int) [5] queued priority -1",
        {"do": "invoke", "object": 2, "method": "setX(int)", "args": [5], "type": "queued", "priority": -1},
    ),
    ("invoke p.note", {"do": "invoke", "object": 1, "method": "note()", "args": []}),
    ("c.x = -5", {"do": "set", "object": 2, "property": "x", "value": -5}),
    ('c.tag="a = (b) -> c"', {"do": "set", "object": 2, "property": "tag", "value": "a = (b) -> c"}),
    ("c.tag = null", {"do": "set", "object": 2, "property": "tag", "value": None}),
    ("c.big = 18446744073709551615", {"do": "set", "object": 2, "property": "big", "value": 2**64 - 1}),
    ("c.x", {"do": "get", "object": 2, "property": "x"}),
    ("  2.x  ", {"do": "get", "object": 2, "property": "x"}),
    ("connect p.ping() -> p.note()", {"do": "connect", **PING_NOTE}),
    ("connect p.ping->p.note unique", {"do": "connect", **PING_NOTE, "unique": True}),
    ("connect c.xChanged -> d.seen queued single", {"do": "connect", **CHANGED_SEEN, "type": "queued", "single": True}),
    (
        "connect c.xChanged(int) -> clamp for d direct",
        {"do": "connectFunctor", "sender": 2, "signal": "xChanged(int)", "context": 3, "functor": "clamp", "type": "direct"},
    ),
    ("disconnect 7", {"do": "disconnect", "connection": 7}),
    ("disconnect p", {"do": "disconnect", "sender": 1}),
    ("disconnect 1.ping", {"do": "disconnect", "sender": 1, "signal": "ping()"}),
    ("disconnect p -> c", {"do": "disconnect", "sender": 1, "receiver": 2}),
    ("disconnect c.xChanged -> d.seen", {"do": "disconnect", **CHANGED_SEEN}),
    ("bind c.y = x + d.x", {"do": "bind", "object": 2, "property": "y", "to": {"+": [{"prop": "x"}, {"prop": "x", "of": 3}]}}),
    ('bind c.y to {"const":1}', {"do": "bind", "object": 2, "property": "y", "to": {"const": 1}}),
    ("unbind c.y", {"do": "unbind", "object": 2, "property": "y"}),
    ("begin", {"do": "begin"}),
    ("end", {"do": "end"}),
    ("spin", {"do": "spin"}),
    ("children", {"do": "children"}),
    ("children p", {"do": "children", "object": 1}),
    ("find in p", {"do": "find", "object": 1}),
    ('find in p name "a b" class Cell as e', {"do": "find", "object": 1, "name": "a b", "class": "Cell"}),
    ("setParent d to p", {"do": "setParent", "object": 3, "parent": 1}),
    ("setParent d to null", {"do": "setParent", "object": 3, "parent": None}),
    ("block p", {"do": "block", "object": 1, "on": True}),
    ("unblock p", {"do": "block", "object": 1, "on": False}),
    ("publish p.ping as bell", {"do": "publish", "object": 1, "signal": "ping()", "name": "bell"}),
    ("unpublish bell", {"do": "unpublish", "name": "bell"}),
    ("join b.bell() -> p.note", {"do": "join", **BELL, "types": []}),
    ("join b.bell(int, QString) -> p.note", {"do": "join", **BELL, "types": ["int", "QString"]}),
    (
        "join b.level -> c.seen",
        {"do": "join", "from": "b", "name": "level", "types": ["int"], "object": 2, "method": "seen(int)"},
    ),
    ("leave b.bell -> p.note()", {"do": "leave", **BELL}),
    ("findAll in p", {"do": "findAll", "object": 1}),
    ('findAll in p name "a b" class Cell', {"do": "findAll", "object": 1, "name": "a b", "class": "Cell"}),
    ("connections", {"do": "connections"}),
    ("connections c", {"do": "connections", "object": 2}),
    ("connections after 7", {"do": "connections", "after": 7}),
    ("connections c after 7", {"do": "connections", "object": 2, "after": 7}),
    ("bindings", {"do": "bindings"}),
    ("bindings after c.x", {"do": "bindings", "after": {"object": 2, "property": "x"}}),
    ("deleteLater c", {"do": "deleteLater", "object": 2}),
    ("delete p", {"do": "delete", "object": 1}),
    ("reset", {"do": "reset"}),
]
NOT_SENT = (
    *("jump", "new", "new 5", "new Probe as", "new Probe as self", "new Probe in nobody", "new Probe after"),
    *("delete", "delete nobody", "p.", "p.x =", "p.x = five", "p.x = NaN", "p.x = 1 2", "p.x 5"),
    *("p.ping(", "p.ping() later", "p.ping(five)", "p.ping(1 2)"),
    *("connect p.ping", "connect p.ping -> ", "connect p.jump -> p.note", "connect p -> p.note", "connect p.ping -> p.note twice"),
    *("bind c.y", "bind c.y = ", "bind c.y = x +", "bind c.y to x", "setParent c", "setParent c to", "find p", "find in p name a"),
    *("publish p.ping", "join b -> p.note", "join b.bell", "leave b.bell", "children p c", "begin now", "disconnect", "block"),
    *("session", "session 5", "session b c", "save", "run", "run /nowhere/at/all", "help jump", "names all"),
    *("connections p c", "connections after", "connections after p", "connections p after -1", "properties"),
    *("bindings p", "bindings after", "bindings after p", "binding", "binding p"),
    *("quit now", "[1]", "\x00"),
    *(f"p.x = {'[' * levels}{']' * levels}" for levels in (129, 900, 50_000)),
)


def prop(name, of=None):
    return {"prop": name} if of is None else {"prop": name, "of": of}


def nested(levels):
    """`x` with so many ones added to it."""
    return {"+": [nested(levels - 1), {"const": 1}]} if levels else {"prop": "x"}


X, Y, ONE, TWO = prop("x"), prop("y"), {"const": 1}, {"const": 2}
INFIX = [
    ("x", X),
    ("self.x", X),
    ("self.if", prop("if")),
    ("c.x", prop("x", 7)),
    ("12 . x", prop("x", 12)),
    ("12", {"const": 12}),
    ("-12", {"const": -12}),
    ("true", {"const": True}),
    ("truest", prop("truest")),
    ('"a \\"b\\" + c"', {"const": 'a "b" + c'}),
    ("x+1", {"+": [X, ONE]}),
    ("x -1", {"-": [X, ONE]}),
    ("x - -1", {"-": [X, {"const": -1}]}),
    ("x - y - 1", {"-": [{"-": [X, Y]}, ONE]}),
    ("x - (y - 1)", {"-": [X, {"-": [Y, ONE]}]}),
    ("x + 1 < y - 2", {"<": [{"+": [X, ONE]}, {"-": [Y, TWO]}]}),
    ("x = y", {"=": [X, Y]}),
    ("x == y", {"=": [X, Y]}),
    ("(x < y) = true", {"=": [{"<": [X, Y]}, {"const": True}]}),
    ('"a" & objectName & "b"', {"cat": [{"cat": [{"const": "a"}, prop("objectName")]}, {"const": "b"}]}),
    ("if x < 1 then y else 2", {"if": [{"<": [X, ONE]}, Y, TWO]}),
    ("if flag then if x = 1 then x else y else 2", {"if": [prop("flag"), {"if": [{"=": [X, ONE]}, X, Y]}, TWO]}),
    ("(if flag then x else y) + 1", {"+": [{"if": [prop("flag"), X, Y]}, ONE]}),
    (f"(((x{' + 1' * 60})))", nested(60)),
    ("if flag then x else y + 1", {"if": [prop("flag"), X, {"+": [Y, ONE]}]}),
]
NO_INFIX = (
    *("", "x +", "+ x", "x y", "x < y < 1", "(x", "x)", "if x then y", "then", "else", "- x", "1.5", "'a'", '"a', '"\\x"'),
    *("x.", "x.y.z", "nobody.x", "x * y", "x <= y", "(" * 10_000, f"x{' + 1' * 10_000}", f"x{' + 1' * 65}"),
)
