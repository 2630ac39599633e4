"""Worked inputs for slices: each a list of lines, with the sessions whose slices keep the line, worked out by hand."""

from tests.support.lines import LINE_BYTES, text_of

LONG = 1_000_000
OTHERS = 100  # sessions in addition to those whose lines a long input keeps


# Lines.


def line(session, do, **keys):
    return text_of({"do": do, "session": session, **keys}).encode()


def new(session, **keys):
    return line(session, "new", **{"class": "Cell", **keys})


def publish(session):
    return line(session, "publish", object=1, signal="xChanged(int)", name="t")


def set_x(session, value=1, number=1):
    return line(session, "set", object=number, property="x", value=value)


def ends_of(source, number):
    """What a join is called by."""
    return {"from": source, "name": "t", "object": number, "method": "seen(int)"}


def join(session, source, number=1, **keys):
    return line(session, "join", **{"types": ["int"], **ends_of(source, number), **keys})


def leave(session, source, number=1):
    return line(session, "leave", **ends_of(source, number))


WORDS = {"new": new, "publish": publish, "set": set_x, "join": join, "leave": leave}


def steps(text):
    """Lines with the sessions that keep them, each written as these sessions, a word, the session of the line and what the
    word takes: `ab set b 2`. Other words are commands, which take an object."""
    found = []
    for step in text.split(", "):
        keepers, word, session, *more = step.split()
        values = [int(it) if it.isdecimal() else it for it in more]
        made = WORDS[word](session, *values) if word in WORDS else line(session, word, **({"object": values[0]} if values else {}))
        found.append((" ".join(keepers), made))
    return found


# Joins, joiners, other sessions, and spelling.

OWN = steps(
    "a new a, ab new b, ab publish b, ab set b 1, a join a b, ab set b 2, a leave a b, b set b 3, a spin a, c new c"
)
OF_JOINS = {
    "a join that lasts to the end": steps(
        "ab new b, ab publish b, a new a, a join a b, ab set b, c new c, a spin a, ab set b 2"
    ),
    "two joins of one session, left one after the other": steps(
        "a new a, a new a, a join a b, a join a b 2, a leave a b, ab new b, a leave a b 2, b new b"
    ),
    "a join twice, both left at once": steps("a new a, a join a b, a join a b, ab new b, a leave a b, b new b"),
    "a join that is left and made again": steps(
        "a new a, a join a b, ab new b, a leave a b, ab publish b, a join a b, ab set b, a leave a b, b set b 2"
    ),
    "a join that was not there to leave": steps("a new a, a join a b, a leave a c, a leave a b 2, ab new b, c new c"),
    "joins that are refused": [
        *steps("a new a, a join a b 2"),
        ("a", join("a", "b", types=["no"])),
        ("a", join("a", "b", types=[])),
        ("a", join("a", "b", method="nothing()")),
        *steps("a join a a, b new b"),
    ],
    "a join of a name that is not published": steps("a new a, a join a b, ab new b, c new c"),
    "a session that is joined before its first command": steps("a new a, a join a b, ab status b"),
    "a session whose commands are all before the join": steps("b new b, b publish b, a new a, a join a b"),
    "a session that is joined and joins nobody": steps("a new a, a join a b, ab new b, a set a, ab publish b"),
}
OF_JOINERS = {
    "a joiner that is reset": steps("ab new b, a new a, a join a b, ab publish b, a reset a, b set b, a new a"),
    "a joiner that is reset and joins again": steps(
        "a new a, a join a b, a reset a, ab new b, a new a, a join a b, ab publish b"
    ),
    "a source that is reset": steps("ab new b, a new a, a join a b, ab reset b, ab new b"),
    "a joiner whose object is deleted": steps("a new a, a join a b, ab new b, a delete a 1, b publish b"),
    "a joiner whose object is deleted with its parent": [
        *steps("a new a"),
        ("a", new("a", parent=1)),
        *steps("a join a b 2, ab new b, a delete a 1, b publish b"),
    ],
    "a joiner whose object is deleted later": steps(
        "a new a, a join a b, a deleteLater a 1, ab new b, a spin a, b publish b"
    ),
    "a joiner whose object deletes itself when it hears": [
        *steps("a new a"),
        ("a", join("a", "b", method="deleteLater()", types=[])),
        *steps("ab new b"),
        ("a b", line("b", "publish", object=1, signal="destroyed()", name="t")),
        *steps("ab delete b 1, a spin a, b new b"),
    ],
    "a joiner whose other object is deleted": steps("a new a, a new a, a join a b, a delete a 2, ab new b"),
    "a joiner whose commands are refused": [
        *steps("a new a, a join a b, a delete a 7, ab set b 1 9"),
        ("a", line("a", "get", object=9, property="x")),
        *steps("ab end b, c end c"),
    ],
}
OF_OTHERS = {
    "a source that joins another one": steps(
        "abc new c, ab new b, ab join b c, abc publish c, a new a, a join a b, ab publish b, bc set c"
    ),
    "a source that joins another one too late": steps(
        "c new c, ab new b, a new a, a join a b, ab publish b, ab join b c"
    ),
    "two that join one": steps(
        "abc new c, a new a, a join a c, b new b, abc publish c, b join b c, a leave a c, bc set c"
    ),
    "two that join each other": steps("ab new a, ab new b, ab join a b, ab join b a, ab set a, ab set b"),
    "two that join each other, and one leaves": steps(
        "a new a, ab new b, a join a b, ab join b a, ab leave b a, a set a"
    ),
}


def padded(text, size):
    """A line that white space makes this long."""
    return text.ljust(size)


OF_LINES = {
    "lines with CR LF": [
        ("a", new("a") + b"\r"),
        ("b", new("b") + b"\r"),
        ("", b"\r"),
        ("a", set_x("a") + b"\r"),
    ],
    "lines that are spelled in other ways": [
        ("a", b'  {"session" : "a", "class":"C\\u0065ll","do":"new"}\t'),
        ("a", b'{"session":"b","do":"new","class":"Cell","session":"\\u0061"}'),
        ("b", b'{"session":"a","do":"new","class":"Cell","s\\u0065ssion":"b"}'),
        ("a", '{"session":"a","do":"set","object":1,"property":"objectName","value":"grün"}'.encode()),
    ],
    "blank lines": [
        ("", b""),
        ("a", new("a")),
        ("", b" \t "),
        ("", b""),
        ("b", new("b")),
        ("", b""),
    ],
    "faulty lines": [
        ("", b"nonsense"),
        ("a", new("a")),
        ("", b'{"do":"new","class":"Cell","session":"a"'),
        ("", b'{"do":"jump","session":"a"}'),
        ("", b'{"do":"new","session":"a"}'),
        ("", b'{"do":"spin","session":"a","x":1}'),
        ("a", join("a", "b")),
        ("", line("b", "jump")),
        ("", b'{"do":"spin"}'),
        ("", b'{"do":"spin","session":"-"}'),
        ("", b'{"do":"spin","session":1}'),
        ("", b'["spin","a"]'),
        ("", b'{"do":"spin","session":"\xff"}'),
        ("", b"\x00"),
        ("a b", new("b")),
        ("", line("b", "leave", **{"from": "a", "name": "t", "object": 1})),
        ("a", line("a", "spin")),
    ],
    "a leave that is no command": [
        *steps("a new a, a join a b"),
        ("", leave("a", "b")[:-1]),
        ("", line("a", "leave", **{"from": "b", "name": "t", "object": 1})),
        *steps("ab new b"),
    ],
    "lines of 65,536 bytes and of one more": [
        ("a", padded(new("a"), LINE_BYTES)),
        ("", padded(new("a"), LINE_BYTES + 1)),
        ("", padded(join("a", "c"), LINE_BYTES + 1)),
        ("c", new("c")),
        ("a", padded(join("a", "b"), LINE_BYTES)),
        ("", b" " * LINE_BYTES),
        ("", b" " * (LINE_BYTES + 1)),
        ("a b", padded(set_x("b"), LINE_BYTES)),
    ],
    "names that begin alike": [
        *steps("a new a"),
        ("aa", new("aa")),
        *steps("aA new A, a join a A"),
        ("aa", publish("aa")),
        *steps("aA publish A"),
    ],
    "a single line": [("a", new("a"))],
    "an input of 0 bytes": [],
}


# Chains and rings.

TEN = [f"s{at}" for at in range(10)]


def up_to(number):
    """The first sessions of ten, as far as this one."""
    return " ".join(TEN[: number + 1])


def near(number):
    """A session of ten and the one before it."""
    return " ".join(TEN[max(0, number - 1) : number + 1])


def of_chain(keepers, acts):
    """Ten sessions, each joined to the next one; then these act, each once. The last joins are made first."""
    yield from ((keepers(at), new(name)) for at, name in enumerate(TEN))
    yield from ((keepers(at), join(TEN[at], TEN[at + 1])) for at in reversed(range(9)))
    yield from ((keepers(at), set_x(TEN[at])) for at in acts)


def of_ring():
    """Ten sessions, each joined to the next one, and the last one to the first, act twice around, the last one first.

    Of the second round a slice keeps what its session does and what was done before; that of the last session keeps all, as
    the first session is heard by it, the next one by that, and so on. So all have come by the first round."""
    everybody = " ".join(TEN)
    yield from ((everybody, new(name)) for name in TEN)
    yield from ((everybody, join(name, TEN[(at + 1) % 10])) for at, name in enumerate(TEN))
    yield from ((everybody, set_x(name)) for name in reversed(TEN))
    yield from ((f"{up_to(at)} s9", set_x(name, 2)) for at, name in reversed(list(enumerate(TEN))))


OF_TEN = {
    "a chain of ten, where each acts after those that it hears": list(of_chain(up_to, reversed(range(10)))),
    "a chain of ten, where each acts before those that it hears": list(of_chain(near, range(10))),
    "a ring of ten": list(of_ring()),
}
INPUTS = {"the own row": OWN, **OF_JOINS, **OF_JOINERS, **OF_OTHERS, **OF_LINES, **OF_TEN}


# Inputs whose slices classes and turns decide about.

CLASS_FILE = '{"classes":[{"name":"Ear","super":"QObject","slots":[{"sig":"seen(int)","body":[]}]}]}'


def with_class(keepers):
    """An input whose join needs a class of its own; what is kept of the session that is joined is for these."""
    return [("a", line("a", "new", **{"class": "Ear"})), ("a", join("a", "b")), (keepers, line("b", "status"))]


def with_deletion(keepers):
    """An input whose joiner is deleted by its second event, where a turn is left for that."""
    call = line("a", "invoke", object=1, method="seen(int)", args=[1], type="queued")
    posts = [call, line("a", "deleteLater", object=1), line("a", "spin")]
    return [("a", new("a")), ("a", join("a", "b")), *(("a", it) for it in posts), (keepers, line("b", "status"))]


# A long input.


def long_lines():
    """Lines, ten of them kept for `a`: what it does and hears, and after that the others go on."""
    kept = [text for keepers, text in OWN if "a" in keepers.split()]
    kept[-1:] = [line("a", "status"), line("a", "spin"), *kept[-1:]]
    others = [f"s{at}" for at in range(OTHERS)]
    lines = [*kept[:2], *map(new, others), *(join(name, "a") for name in others), *kept[2:]]
    asked = [set_x(name, at) for at, name in enumerate([*others, "b"])]
    return kept, lines + [asked[at % len(asked)] for at in range(LONG - len(lines))]
