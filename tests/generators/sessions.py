"""A hundred sessions that share a server and take turns, so that their rows are mixed: each for itself, or
each listening to the next, the last to the first."""

import random

SESSIONS = 100
OBJECTS = 40
CLASSES = [
    {
        "name": "Bell",
        "super": "QObject",
        "signals": ["rang(int)"],
        "slots": [{"sig": "tell()", "body": []}, {"sig": "fall()", "body": [{"delete": "self"}]}],
        "properties": [{"name": "pitch", "type": "int", "notify": "rang(int)", "bindable": True}],
    },
    {
        "name": "Ear",
        "super": "QObject",
        "signals": ["noted(int)"],
        "slots": [{"sig": "hear(int)", "body": [{"set": "heard", "to": {"arg": 0}}, {"set": "last", "to": {"arg": 0}}]}],
        "properties": [{"name": "heard", "type": "int", "notify": "noted(int)", "bindable": True}],
    },
]


def begin_to_listen(chance, session):
    """A session publishes two signals of its first object, and joins those of the next session."""
    source, ear = f"s{(session + 1) % SESSIONS}", chance.randrange(2, OBJECTS + 1)

    def join(name, types, number, method):
        return {"do": "join", "from": source, "name": name, "types": types, "object": number, "method": method}

    yield {"do": "publish", "object": 1, "signal": "rang(int)", "name": "rang"}
    yield {"do": "publish", "object": 1, "signal": "destroyed()", "name": "fell"}
    yield join("rang", ["int"], ear, "hear(int)")
    yield join("rang", ["int"], 1, chance.choice(("rang(int)", "tell()")))
    yield join("rang", [chance.choice(("int", "uint"))], ear, "deleteLater()")
    yield join("fell", [], 1, "tell()")


def end_to_listen(chance, session):
    """A session leaves what it has joined by its first object, or takes back what it publishes, or is reset."""
    source = f"s{(session + 1) % SESSIONS}"
    yield chance.choice((
        {"do": "leave", "from": source, "name": "rang", "object": 1, "method": "tell()"},
        {"do": "unpublish", "name": "rang"},
        *[{"do": "status"}] * 5,
        {"do": "reset"},
    ))


def bind_some(chance, ears):
    """Some ears are bound to the bell and to each other, and the bell is rung once more, within a group."""
    one, *others = chance.sample(ears, 5)

    def bind(number, form):
        return {"do": "bind", "object": number, "property": "heard", "to": form}

    yield bind(one, {"+": [{"prop": "pitch", "of": 1}, {"const": one}]})
    yield from (bind(it, {"if": [{"<": [{"prop": "pitch", "of": 1}, {"const": 500}]}, {"prop": "heard", "of": one}, {"const": it}]}) for it in others)
    yield {"do": "begin"}
    yield {"do": "set", "object": 1, "property": "pitch", "value": chance.randrange(1_000)}
    yield bind(chance.choice(others), {"prop": "heard", "of": chance.choice(others)})
    yield {"do": "unbind", "object": chance.choice(others), "property": "heard"}
    yield {"do": "end"}
    yield from ({"do": "bindingError", "object": it, "property": "heard"} for it in others)
    yield {"do": "status"}


def life_of(session, listens=False):
    """The commands of a session: its first object calls its others, which come and go in an order of its own."""
    chance = random.Random(session)
    ears = range(2, OBJECTS + 1)

    def set_to(number, name, value):
        return {"do": "set", "object": number, "property": name, "value": value}

    def get(number, name):
        return {"do": "get", "object": number, "property": name}

    def ring():
        return {"do": "invoke", "object": 1, "method": "rang(int)", "args": [chance.randrange(1_000)]}

    def connect(ear):
        ends = {"sender": 1, "signal": "rang(int)", "receiver": ear, "method": "hear(int)"}
        return {"do": "connect", **ends, "type": chance.choice(("auto", "queued"))}

    def hear_later(ear):
        given = {"args": [chance.randrange(1_000)], "type": "queued", "priority": chance.choice((-1, 0, 1))}
        return {"do": "invoke", "object": ear, "method": "hear(int)", **given}

    def clamp(ear):
        ends = {"sender": 1, "signal": "rang(int)", "context": ear, "functor": "clamp"}
        return {"do": "connectFunctor", **ends, "type": chance.choice(("auto", "queued"))}

    yield {"do": "new", "class": "Bell"}
    yield from ({"do": "new", "class": "Ear", "parent": chance.randrange(1, ear)} for ear in ears)
    yield from map(connect, ears)
    yield from map(clamp, chance.sample(ears, 5))
    yield from (set_to(ear, "objectName", f"{session} {ear}") for ear in chance.sample(ears, 9))
    yield from (set_to(ear, chance.choice(("tag", "note")), f"{ear} {session}") for ear in chance.sample(ears, 9))
    yield from begin_to_listen(chance, session) if listens else ()
    yield ring()
    yield set_to(1, "pitch", chance.randrange(1_000))
    yield from ({"do": "disconnect", "connection": chance.randrange(1, OBJECTS)} for _ in range(5))
    yield from ({"do": "connect", "sender": ear, "signal": "destroyed()", "receiver": 1, "method": "tell()"} for ear in chance.sample(ears, 9))
    yield from ({"do": "connect", "sender": ear, "signal": "noted(int)", "receiver": 1, "method": "tell()"} for ear in chance.sample(ears, 5))
    yield ring()
    yield from map(hear_later, chance.sample(ears, 9))
    yield {"do": "spin"}
    yield from bind_some(chance, ears)
    for ear in chance.sample(ears, 5):
        yield {"do": "setParent", "object": ear, "parent": chance.choice((None, 1))}
        yield {"do": chance.choice(("delete", "deleteLater")), "object": ear}
        yield {"do": "children", "object": 1}
    yield {"do": "block", "object": 1, "on": chance.choice((False, True))}
    yield ring()
    yield {"do": "status"}
    yield {"do": "spin"}
    yield {"do": "block", "object": 1, "on": False}
    yield from end_to_listen(chance, session) if listens else ()
    yield {"do": "new", "class": "Ear"}
    yield {"do": "connect", "sender": 1, "signal": "rang(int)", "receiver": OBJECTS + 1, "method": "hear(int)", "unique": True}
    yield {"do": "disconnect", "sender": 1, "signal": "rang(int)", "receiver": chance.choice(ears)}
    yield ring()
    yield {"do": "spin"}
    yield ring()
    yield set_to(1, "pitch", session)
    yield from ({"do": "dynamicNames", "object": number} for number in range(1, OBJECTS + 2))
    yield from (get(number, name) for number in range(1, OBJECTS + 2) for name in ("heard", "last", "tag", "x"))
    yield from ({"do": word, "object": number} for number in range(1, OBJECTS + 2) for word in ("parent", "object", "properties"))
    yield from ({"do": "connections", **asked} for asked in ({}, {"after": OBJECTS}, {"object": 1}))
    yield from ({"do": "bindings", **asked} for asked in ({}, {"after": {"object": 9, "property": "heard"}}))
    yield from ({"do": "binding", "object": number, "property": "heard"} for number in ears)
    yield from ({"do": "findAll", "object": 1, **sought} for sought in ({}, {"class": "Bell"}, {"name": ""}))
    yield from ({"do": word} for word in ("publications", "joins"))
    yield {"do": "invoke", "object": 1, "method": "fall()", "args": []}
    yield {"do": "spin"}
    yield from (get(number, "objectName") for number in range(1, OBJECTS + 2))


def in_turn(listen=False):
    """The commands of all sessions, one of each in turn."""
    lives = [[{**command, "session": f"s{number}"} for command in life_of(number, listen)] for number in range(SESSIONS)]
    if len({len(life) for life in lives}) != 1:
        raise ValueError("not all sessions have as many commands")
    return [command for turn in zip(*lives) for command in turn]
