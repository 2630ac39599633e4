"""Sessions at the limits of signals, slots, events, properties, bindings, publications and joins. What has to be written is
worked out from the rules."""

from tests.support.limits import BINDINGS, CONNECTIONS, DYNAMIC_PROPERTIES, EVENTS, FORMS, GROUPS, JOINS, LEVELS, PARAMETERS, PUBLICATIONS, TEXT_BYTES, TURNS

from .sharing import full_neighbours, joins, lost_posts, posted_texts, publications
from .steps import (
    BEGIN, CHILDREN, E04, E07, E08, E09, E10, E14, E17, E22, END, RESET, SPIN, STATUS, bind, call, clamp,
    connect, counted, delete, delete_later, error_of, errors, get, invoke, new, reply, row_of,
    set_to, spun, unbind, warning,
)


def deep_sum(levels):
    return {"+": [deep_sum(levels - 1), {"const": 0}]} if levels else {"const": 0}


def behind_choices(actions, count):
    """Actions that are done inside so many nested choices."""
    test = {"=": [deep_sum(28), {"const": 0}]}
    return [{"when": test, "then": behind_choices(actions, count - 1)}] if count else actions


DROP = [{"delete": "self"}]
FALL = [{"emit": "down()", "args": []}, *DROP]
NEXT = [{"set": "x", "to": {"+": [{"arg": 0}, {"const": 1}]}}]
MORE = [{"connect": "down()", "to": "self", "method": it, "unique": it == "fall()"} for it in ("hear(QString,int)", "fall()", "note()")]
SLOTS = {"note()": [], "hear(QString,int)": [], "more()": MORE, "fall()": FALL, "fallDeep()": behind_choices(FALL, 30)}
SLOTS |= {"keep(int)": [{"set": "x", "to": {"arg": 0}}], "sink(int)": NEXT + DROP, "sinkDeep(int)": behind_choices(NEXT + DROP, 30)}
TEXTS = ",".join(["QString"] * PARAMETERS)
SAID, HEED = f"said({TEXTS})", f"heed({TEXTS})"
SLOTS |= {HEED: [], "double(QString)": [{"emit": SAID, "args": [{"cat": [{"arg": 0}, {"arg": 0}]}] * PARAMETERS}]}
SLOTS |= {"drop()": DROP, "dropDeep()": behind_choices(DROP, 31), "dropFirst()": [{"delete": 1}], "ask()": [{"deleteLater": "self"}]}
CLASS = {
    "name": "A",
    "super": "QObject",
    "signals": ["down()", "told(QString,int)", "xChanged(int)", "yChanged(int)", SAID],
    "slots": [{"sig": slot, "body": body} for slot, body in SLOTS.items()],
    "properties": [{"name": it, "type": "int", "notify": f"{it}Changed(int)", "bindable": True} for it in "xy"],
}


def connections(turns):
    """As many connections as there may be, called by one command with so many turns."""
    spent = [] if turns >= CONNECTIONS else [warning("E23")]
    yield new(), reply(1)
    yield new(), reply(2)
    yield connect(2, "down()", 2, "fall()"), reply(1)
    yield from ((connect(1, "down()", 2, "note()"), reply(number)) for number in range(2, CONNECTIONS + 1))
    yield connect(1, "down()", 2, "note()"), E14
    yield connect(1, "down()", 2, "note()", unique=True), E08
    yield connect(1, "down()", 2, "hear(QString,int)"), E07
    yield invoke(2, "more()"), call("more()", 2, 0), warning("E07", 2), warning("E08", 2), warning("E14", 2), reply(True)
    yield {"do": "disconnect", "connection": 1}, reply(True)
    yield connect(1, "down()", 2, "note()"), reply(CONNECTIONS + 1)
    yield connect(1, "down()", 2, "note()"), E14
    yield invoke(1, "down()"), *[call("note()", 2, 1)] * min(turns, CONNECTIONS), *spent, reply(True)
    yield {"do": "disconnect", "sender": 1, "receiver": 2}, reply(CONNECTIONS)
    yield invoke(1, "down()"), reply(True)


def functors(turns):
    """As many connections of a functor as there may be, called by one command with so many turns, and gone with their context."""
    spent = [] if turns >= CONNECTIONS else [warning("E23")]
    yield new(), reply(1)
    yield new(), reply(2)
    yield from ((clamp(1, "xChanged(int)", 2), reply(number)) for number in range(1, CONNECTIONS + 1))
    yield clamp(1, "xChanged(int)", 2), E14
    yield clamp(1, "xChanged(int)", 2, unique=True), E09
    yield clamp(1, "down()", 2, unique=True), E07
    yield clamp(1, "down()", 2, "clam"), E10
    yield connect(1, "down()", 2, "note()"), E14
    yield {"do": "disconnect", "sender": 1, "receiver": 2, "method": "keep(int)"}, reply(0)
    yield set_to(1, "x", 250), *[call("clamp", 2, 1, 250)] * min(turns, CONNECTIONS), *spent, reply(True)
    yield get(2, "x"), reply(100)
    yield {"do": "disconnect", "connection": 1}, reply(True)
    yield clamp(1, "xChanged(int)", 2, single=True), reply(CONNECTIONS + 1)
    yield clamp(1, "xChanged(int)", 2), E14
    yield delete(2), reply(True)
    yield STATUS, counted(objects=1)
    yield set_to(1, "x", 5), reply(True)


def lost_functors():
    """Calls of a functor that meet as many events as there may be."""
    yield from ((new(), reply(number)) for number in (1, 2))
    yield clamp(1, "xChanged(int)", 2, type="queued"), reply(1)
    yield from ((set_to(1, "x", at % 2 * 200 + 1), reply(True)) for at in range(1, EVENTS))
    yield invoke(2, "note()", type="queued"), reply(True)
    yield STATUS, counted(connections=1, objects=2, queued=EVENTS)
    yield clamp(1, "xChanged(int)", 1, type="queued", single=True), reply(2)
    yield set_to(1, "x", 7), reply(True)
    yield STATUS, counted(connections=1, lost=2, objects=2, queued=EVENTS)
    yield set_to(1, "x", 8), reply(True)
    yield SPIN, *(call("clamp", 2, 1, at % 2 * 200 + 1) for at in range(1, EVENTS)), call("note()", 2, 0), spun(EVENTS, 0, 3)
    yield get(2, "x"), reply(100)


def chain_of_functors(count):
    """A chain of objects where each sets the next one's property by a functor, as far as signals may be nested."""
    yield from ((new(), reply(number)) for number in range(1, count + 1))
    yield from ((clamp(number, "xChanged(int)", number + 1), reply(number)) for number in range(1, count))
    calls = [call("clamp", number + 1, number, 100) for number in range(2, LEVELS + 1)]
    yield set_to(1, "x", 101), call("clamp", 2, 1, 101), *calls, warning("E14", LEVELS + 1), reply(True)
    yield get(LEVELS + 1, "x"), reply(100)
    yield get(LEVELS + 2, "x"), reply(0)


def texts():
    """Arguments that are texts of the maximum length, and longer ones."""
    yield new(), reply(1)
    yield connect(1, "told(QString,int)", 1, "hear(QString,int)"), reply(1)
    for unit in ("x", "ä", "\U0001f600"):
        longest = unit * (TEXT_BYTES // len(unit.encode()))
        yield invoke(1, "told(QString,int)", longest, 1), call("hear(QString,int)", 1, 1, longest, 1), reply(True)
        yield invoke(1, "told(QString,int)", longest + "x", 1), E14
        yield invoke(1, "told(QString,int)", longest + "x", "1"), E22
        yield invoke(1, "told(QString,int)", longest + "x"), E22
        yield invoke(1, "hear(QString,int)", longest + "x", 1, type="queued"), E14
        yield invoke(1, "hear(QString,int)", longest + "x", "1", type="queued"), E22
        yield invoke(1, "hear(QString,int)", longest, 1, type="queued"), reply(True)
        yield SPIN, call("hear(QString,int)", 1, 0, longest, 1), spun(1)


def objects():
    """As many objects as there may be, and names of the maximum length."""
    most = LEVELS * LEVELS
    name = lambda size: {"do": "set", "object": 1, "property": "objectName", "value": "n" * size}
    yield from ((new(), reply(number)) for number in range(1, most + 1))
    yield new(), E14
    yield name(TEXT_BYTES), reply(True)
    yield name(TEXT_BYTES + 1), E14


def values():
    """As many dynamic properties as there may be, with texts of the maximum length."""
    names = [f"p{at}" for at in range(DYNAMIC_PROPERTIES)]
    yield new(), reply(1)
    for unit in ("x", "ä", "\U0001f600"):
        longest = unit * (TEXT_BYTES // len(unit.encode()))
        yield set_to(1, "objectName", longest), reply(True)
        yield set_to(1, "objectName", longest + "x"), E14
        yield get(1, "objectName"), reply(longest)
        yield from ((set_to(1, name, longest), reply(False)) for name in names)
        yield set_to(1, names[0], longest + "x"), E14
        yield set_to(1, "one_more", longest), E14
        yield set_to(1, "one_more", None), reply(False)
        yield from ((get(1, name), reply(longest)) for name in names)
        yield {"do": "dynamicNames", "object": 1}, reply(names)
    yield delete(1), reply(True)


def groups():
    """As many groups within one another as there may be."""
    yield new(), reply(1)
    yield connect(1, "xChanged(int)", 1, "note()"), reply(1)
    yield from ((BEGIN, reply(depth)) for depth in range(1, GROUPS + 1))
    yield BEGIN, E14
    yield set_to(1, "x", 5), reply(True)
    yield STATUS, counted(connections=1, group=GROUPS, objects=1)
    yield from ((END, reply(depth)) for depth in range(GROUPS - 1, 0, -1))
    yield END, call("note()", 1, 1), reply(0)
    yield END, E17


def bindings():
    """As many bindings as there may be, two of each object."""
    count = BINDINGS // 2
    yield from ((new(), reply(number)) for number in range(1, count + 2))
    for number in range(1, count + 1):
        yield bind(number, "objectName", {"const": "n"}), reply(True)
        yield bind(number, "x", {"const": number}), reply(True)
    yield bind(count + 1, "x", {"const": 1}), E14
    yield bind(count + 1, "x", {"prop": "x", "of": count + 2}), E04
    yield bind(1, "x", {"prop": "x", "of": count}), reply(True)
    yield get(1, "x"), reply(count)
    yield STATUS, counted(bindings=BINDINGS, objects=count + 1)
    yield unbind(count, "x"), reply(True)
    yield bind(count + 1, "x", {"prop": "x", "of": 1}), reply(True)
    yield get(count + 1, "x"), reply(count)
    yield bind(count + 1, "y", {"const": 1}), E14
    yield delete(1), *errors("EvaluationError", [count + 1]), reply(True)
    yield STATUS, counted(bindings=BINDINGS - 2, objects=count)
    yield bind(count + 1, "y", {"const": 1}), reply(True)
    yield bind(count, "x", {"const": 1}), reply(True)
    yield bind(count, "y", {"const": 1}), E14
    yield RESET, reply(True)
    yield new(), reply(1)
    yield bind(1, "x", {"const": 1}), reply(True)


def noted_objects(count):
    """Objects whose changes are noted."""
    yield from ((new(), reply(number)) for number in range(1, count + 1))
    yield from ((connect(number, "xChanged(int)", number, "note()"), reply(number)) for number in range(1, count + 1))


def notes(numbers):
    return [call("note()", number, number) for number in numbers]


def deepened(form):
    """A form of numbers within as many sums as there may be around three forms."""
    for _ in range((FORMS - 3) // 2):
        form = {"+": [form, {"const": 0}]}
    return form


def bound_chain(count, shaped=lambda form: form):
    """A chain of objects where each adds one to what the one before it shows, by forms that are shaped in some way."""
    numbers, middle = range(1, count + 1), count // 2
    yield from noted_objects(count)
    yield BEGIN, reply(1)
    forms = {it: shaped({"+": [{"prop": "x", "of": it - 1}, {"const": 1}]}) for it in numbers[1:]}
    yield from ((bind(it, "x", form), reply(True)) for it, form in forms.items())
    yield END, *notes(numbers[1:]), reply(0)
    yield get(count, "x"), reply(count - 1)
    yield set_to(1, "x", 7), *notes(numbers), reply(True)
    yield get(count, "x"), reply(count + 6)
    yield set_to(1, "x", 2**31 - count), *notes(numbers), reply(True)
    overflow = 2**31 - count + 1
    yield set_to(1, "x", overflow), *errors("EvaluationError", [count]), *notes(numbers), reply(True)
    yield delete(middle), *errors("EvaluationError", numbers[middle:-1]), *notes(numbers[middle:-1]), reply(True)
    yield error_of(count, "x"), reply("EvaluationError")
    yield STATUS, counted(bindings=count - 2, connections=count - 1, objects=count - 1)


def bound_ring(count):
    """Objects in a ring. Each shows what the next one shows."""
    numbers, middle = range(1, count + 1), count // 2
    others = [it for it in numbers if it != middle]
    yield from noted_objects(count)
    yield BEGIN, reply(1)
    yield from ((bind(number, "x", {"prop": "x", "of": number % count + 1}), reply(True)) for number in numbers)
    yield error_of(middle, "x"), reply(None)
    yield END, *errors("BindingLoop", numbers), reply(0)
    yield get(count, "x"), reply(0)
    yield set_to(middle, "x", 7), *notes([middle, *others]), reply(True)
    yield error_of(1, "x"), reply(None)
    yield get(middle + 1, "x"), reply(7)
    again = bind(middle, "x", {"prop": "x", "of": middle + 1})
    yield again, *errors("BindingLoop", [middle, *others]), *notes([middle, *others]), reply(True)
    yield delete(middle), *errors("EvaluationError", others), reply(True)


def bound_readers(count):
    """Objects that all show what the first one does."""
    numbers = range(1, count + 1)
    yield from noted_objects(count)
    yield BEGIN, reply(1)
    yield from ((bind(number, "x", {"prop": "x", "of": 1}), reply(True)) for number in numbers[1:])
    yield END, reply(0)
    yield set_to(1, "x", 7), *notes(numbers), reply(True)
    yield bind(1, "x", {"prop": "x", "of": count}), *errors("BindingLoop", numbers), *notes(numbers), reply(True)
    yield bind(1, "x", {"const": True}), *errors("EvaluationError", numbers), reply(True)
    yield delete(1), reply(True)
    yield error_of(count, "x"), reply("EvaluationError")


def ring(count):
    """Objects in a ring. Each sets its property to what the one before it was set to."""
    def calls(first, value):
        return [call("keep(int)", number + 1, number, value) for number in range(first, first + LEVELS)]

    yield from ((new(), reply(number)) for number in range(1, count + 1))
    yield from ((connect(number, "xChanged(int)", number % count + 1, "keep(int)"), reply(number)) for number in range(1, count + 1))
    yield set_to(1, "x", 7), *calls(1, 7), warning("E14", LEVELS + 1), reply(True)
    yield get(LEVELS + 1, "x"), reply(7)
    yield get(LEVELS + 2, "x"), reply(0)
    yield set_to(1, "x", 7), reply(True)
    yield set_to(count, "x", 7), call("keep(int)", 1, count, 7), reply(True)
    yield set_to(LEVELS + 2, "x", 7), *calls(LEVELS + 2, 7), warning("E14", 2 * LEVELS + 2), reply(True)


def ring_of_bindings(count, form={"prop": "x"}):
    """A ring of objects. Each sets its property to what the bound one of the object before it shows."""
    yield from ((new(), reply(number)) for number in range(1, count + 1))
    yield from ((bind(number, "y", form), reply(True)) for number in range(1, count + 1))
    yield from ((connect(number, "yChanged(int)", number % count + 1, "keep(int)"), reply(number)) for number in range(1, count + 1))
    calls = [call("keep(int)", number + 1, number, 7) for number in range(1, LEVELS + 1)]
    yield set_to(1, "x", 7), *calls, *[warning("E14", LEVELS + 1)] * 2, reply(True)
    yield get(LEVELS + 1, "y"), reply(7)
    yield get(LEVELS + 2, "y"), reply(0)


def falls(slot, signal="down()", start=None, args_of=lambda level: ()):
    """A ring of trees, each as deep as may be: the signal of a root calls the next root's slot, which sends on and deletes."""
    roots = [LEVELS * at + 1 for at in range(LEVELS)]
    after = roots[1:] + roots[:1]
    too_deep = [warning("E14", number) for number in (1, *range(1, LEVELS + 1))]
    for number in range(1, LEVELS * LEVELS + 1):
        yield new(None if number in roots else number - 1), reply(number)
    yield new(), E14
    yield from ((connect(root, signal, other, slot), reply(at)) for at, (root, other) in enumerate(zip(roots, after), 1))
    calls = [call(slot, other, root, *args_of(at)) for at, (root, other) in enumerate(zip(roots, after), 1)]
    yield start or invoke(1, signal), *calls, *too_deep, reply(True)
    yield CHILDREN, reply([])
    yield new(), reply(LEVELS * LEVELS + 1)


def changes(slot):
    """The same ring, where each slot sets its object's property, which tells the next root, and deletes."""
    return falls(slot, "xChanged(int)", set_to(1, "x", 1), lambda level: [level])


def chain(slot):
    """Objects each of whose ends deletes the next one, as far as signals may be nested; then the next one, and so on."""
    count = LEVELS * LEVELS
    yield from ((new(), reply(number)) for number in range(1, count + 1))
    yield from ((connect(number, "destroyed()", number + 1, slot), reply(number)) for number in range(1, count))
    for first in range(1, count + 1, LEVELS + 1):
        last = min(first + LEVELS, count)
        too_deep = [warning("E14", last)] if last == first + LEVELS else []
        yield delete(first), *(call(slot, number + 1, number) for number in range(first, last)), *too_deep, reply(True)
        yield STATUS, counted(objects=count - last, connections=max(0, count - last - 1))
    yield CHILDREN, reply([])


def ends(slot, later):
    """Trees as deep as may be: the end of each one's deepest object deletes the next tree, and that of the last one tries the first."""
    count = LEVELS * LEVELS
    roots = range(1, count + 1, LEVELS)
    deepest = [root + LEVELS - 1 for root in roots]
    yield from ((new(None if number in roots else number - 1), reply(number)) for number in range(1, count + 1))
    yield from ((connect(end, "destroyed()", root, slot), reply(at)) for at, (end, root) in enumerate(zip(deepest, roots[1:]), 1))
    yield connect(count, "destroyed()", count, "dropFirst()"), reply(LEVELS)
    calls = [*(call(slot, root, end) for end, root in zip(deepest, roots[1:])), call("dropFirst()", count, count), warning("E13", count)]
    if later:
        yield delete_later(1), reply(True)
        yield SPIN, *calls, spun(1)
    else:
        yield delete(1), *calls, reply(True)
    yield STATUS, counted()


def told_ends(slot):
    """Trees one level short of the maximum depth: a property of another object follows one of each one's deepest object,
    and its change at the end of that deletes the next tree."""
    levels = LEVELS - 1
    roots = range(1, levels * LEVELS + 1, levels)
    deepest, followers = [root + levels - 1 for root in roots], range(levels * LEVELS + 1, LEVELS * LEVELS + 1)
    yield from ((new(None if number in roots or number in followers else number - 1), reply(number)) for number in range(1, LEVELS * LEVELS + 1))
    yield from ((set_to(end, "x", 5), reply(True)) for end in deepest)
    yield from ((bind(follower, "y", {"prop": "x", "of": end}), reply(True)) for end, follower in zip(deepest, followers))
    yield from ((connect(follower, "yChanged(int)", root, slot), reply(at)) for at, (follower, root) in enumerate(zip(followers, roots[1:]), 1))
    told = [[*errors("EvaluationError", [follower], "y"), call(slot, root, follower)] for follower, root in zip(followers, roots[1:])]
    yield delete(1), *(line for lines in told for line in lines), *errors("EvaluationError", followers[-1:], "y"), reply(True)
    yield STATUS, counted(bindings=LEVELS, objects=LEVELS)


def deletions():
    """As many events as there may be, which all go with the object that they are to delete."""
    yield new(), reply(1)
    yield from ((delete_later(1), reply(True)) for _ in range(EVENTS))
    yield delete_later(1), E14
    yield invoke(1, "note()", type="queued"), E14
    yield invoke(1, "nothing()", type="queued"), reply(False)
    yield invoke(1, "note()", 1, type="queued"), E22
    yield invoke(1, "ask()"), call("ask()", 1, 0), warning("E14", 1), reply(True)
    yield STATUS, counted(objects=1, queued=EVENTS)
    yield SPIN, spun(1)
    yield STATUS, counted()


def priorities():
    """As many events as there may be, of all priorities by turns."""
    hear, given = "hear(QString,int)", [(at, at % 3 - 1) for at in range(EVENTS)]
    yield new(), reply(1)
    yield from ((invoke(1, hear, "", at, type="queued", priority=priority), reply(True)) for at, priority in given)
    yield from ((invoke(1, hear, "", 0, type="queued", priority=priority), E14) for priority in (-1, 0, 1))
    yield delete_later(1), E14
    yield STATUS, counted(objects=1, queued=EVENTS)
    yield SPIN, *(call(hear, 1, 0, "", at) for taken in (1, 0, -1) for at, priority in given if priority == taken), spun(EVENTS)


def lost_calls():
    """Calls that meet as many events as there may be, with one turn less than that."""
    turns, spent = EVENTS - 1, warning("E23")
    yield from ((new(), reply(number)) for number in (1, 2))
    yield from ((connect(1, "down()", 2, "note()", type="queued"), reply(number)) for number in range(1, EVENTS))
    yield connect(1, "down()", 2, "note()", type="queued", single=True), reply(EVENTS)
    yield invoke(1, "down()"), spent, reply(True)
    yield STATUS, counted(connections=EVENTS, objects=2, queued=turns)
    yield invoke(1, "down()"), spent, reply(True)
    yield STATUS, counted(connections=EVENTS, lost=turns - 1, objects=2, queued=EVENTS)
    yield {"do": "disconnect", "connection": 1}, reply(True)
    yield invoke(1, "down()"), reply(True)
    yield {"do": "disconnect", "connection": EVENTS}, reply(False)
    yield STATUS, counted(connections=turns - 1, lost=2 * turns - 1, objects=2, queued=EVENTS)
    yield SPIN, *[call("note()", 2, 1)] * turns, spent, spun(turns, 1, 2 * turns - 1)
    yield SPIN, call("note()", 2, 1), spun(1, 0, 2 * turns - 1)


def shared_texts():
    """As many events as there may be, of two emissions, each with the most texts that it may have, of the maximum length.

    All but two are gone with their receiver before they are taken.
    """
    half = EVENTS // 2
    first, second = "x" * TEXT_BYTES, "y" * (TEXT_BYTES // 2)
    yield from ((new(), reply(number)) for number in (1, 2))
    yield from ((connect(1, SAID, 1, HEED, type="queued"), reply(number)) for number in range(1, half))
    yield connect(1, SAID, 2, HEED, type="queued"), reply(half)
    yield invoke(1, SAID, *[first] * PARAMETERS), reply(True)
    yield invoke(1, "double(QString)", second), call("double(QString)", 1, 0, second), reply(True)
    yield STATUS, counted(connections=half, objects=2, queued=EVENTS)
    yield delete(1), reply(True)
    yield SPIN, *(call(HEED, 2, 1, *[text] * PARAMETERS) for text in (first, 2 * second)), spun(2)


def shared_rows():
    yield row_of(f"{EVENTS} events with {PARAMETERS} texts of {TEXT_BYTES} bytes each", shared_texts())


def wide_rows():
    for turns in (None, CONNECTIONS - 1, CONNECTIONS, 20_000):
        words = ("--turns", str(turns)) if turns else ()
        yield row_of(f"{CONNECTIONS} connections, turns {turns or 'by default'}", connections(turns or TURNS), *words)
    for turns in (None, CONNECTIONS):
        words = ("--turns", str(turns)) if turns else ()
        yield row_of(f"{CONNECTIONS} connections of a functor, turns {turns or 'by default'}", functors(turns or TURNS), *words)
    yield row_of(f"calls of a functor that meet {EVENTS} events", lost_functors(), "--turns", str(EVENTS))
    yield row_of(f"texts of {TEXT_BYTES} bytes", texts())
    yield row_of(f"{LEVELS * LEVELS} objects, and names of {TEXT_BYTES} bytes", objects())
    yield row_of(f"{EVENTS} deletions of one object", deletions())
    yield row_of(f"{EVENTS} events of all priorities", priorities(), "--turns", str(EVENTS))
    yield row_of(f"calls that meet {EVENTS} events", lost_calls(), "--turns", str(EVENTS - 1))
    yield row_of(f"{DYNAMIC_PROPERTIES} dynamic properties of {TEXT_BYTES} bytes", values())
    yield row_of("a ring of objects that signal their changes", ring(LEVELS * LEVELS))
    yield row_of(f"{GROUPS} groups", groups())
    yield row_of(f"{BINDINGS} bindings", bindings())
    yield row_of(f"a chain of {BINDINGS} bindings", bound_chain(BINDINGS + 1))
    yield row_of(f"{BINDINGS} bindings over one property", bound_readers(BINDINGS))
    yield row_of(f"{PUBLICATIONS} publications", publications())
    yield row_of(f"{JOINS} joins", joins(), "--turns", str(EVENTS))
    yield row_of(f"posts that meet {EVENTS} events", lost_posts())
    yield row_of(f"{EVENTS} events of one session, and posts for two", full_neighbours())
    yield row_of(f"posts with texts of {TEXT_BYTES} bytes", posted_texts())


def deep_rows():
    yield row_of("trees deleted in nested signals", falls("fall()"))
    yield row_of("trees deleted in nested signals, inside choices", falls("fallDeep()"))
    yield row_of("trees deleted in nested changes", changes("sink(int)"))
    yield row_of("trees deleted in nested changes, inside choices", changes("sinkDeep(int)"))
    yield row_of("functors in a chain", chain_of_functors(LEVELS * LEVELS))
    yield row_of("a ring of objects that signal changes of bound properties", ring_of_bindings(LEVELS + 2))
    yield row_of("a ring of objects whose bindings are as deep as may be", ring_of_bindings(LEVELS + 2, deepened({"prop": "x"})))
    yield row_of(f"a chain of {BINDINGS} bindings as deep as may be", bound_chain(BINDINGS + 1, deepened))
    yield row_of(f"a ring of {BINDINGS} bindings", bound_ring(BINDINGS))
    yield row_of("objects whose ends delete the next one", chain("drop()"))
    yield row_of("objects whose ends delete the next one inside choices", chain("dropDeep()"))
    yield row_of("trees whose ends delete the next one", ends("drop()", False))
    yield row_of("trees whose ends delete the next one inside choices", ends("dropDeep()", False))
    yield row_of("trees whose ends delete the next one inside choices, in an event", ends("dropDeep()", True))
    yield row_of("trees whose ends change a property whose signal deletes the next one inside choices", told_ends("dropDeep()"))
