"""The inputs that are counted and timed: lines, each with its expected output.

They are the same in every run. Each makes what has to be there, and then does what is counted so many times.
"""

from itertools import chain as all_of
from random import Random

from lines import (
    called,
    child,
    children,
    connect,
    connections_told,
    cut_short,
    delete,
    disconnect,
    disconnect_ends,
    find,
    find_all,
    find_none,
    join,
    look_around,
    meta,
    new,
    note,
    noted,
    ping,
    post,
    publish,
    read,
    read_tag,
    read_x,
    ring,
    set_tag,
    set_x,
    spin,
    status,
    title,
    without_key,
    write,
    write_fraction,
    write_list,
)

CHILDREN_OF_EACH = 4
SETS = 10  # of what is published, before each session that hears it takes its events
WAITING = 8  # events that wait in each of these sessions
TEXT_BYTES = 4_096  # as long as a text may be
AT_ONCE = 100  # events of random priorities that are posted before they are taken
EARS = 10  # which they call
PRIORITIES = (-1, 0, 1)
BLANKS_AND_ESCAPES = {",": ", ", ":": ": ", "lamp": "l\\u0061mp", "objectName": "object\\u004eame"}


def numbered(session, first, kinds):
    """New objects of these classes, numbered from this number."""
    return [new(session, number, kind) for number, kind in enumerate(kinds, first)]


# Objects, and the name of each.


def in_turn(sessions, lines):
    """One object in each session, and then writes and reads, each session in turn."""
    names = [f"s{number}" for number in range(sessions)]
    yield from (new(name, 1) for name in names)
    for number in range(lines // 2):
        name = names[number % sessions]
        yield write(name, f"lamp {number}")
        yield read(name, f"lamp {number}")


def once_each(sessions):
    """An object, a write and a read in each session."""
    for number in range(sessions):
        name = f"s{number}"
        yield from (new(name, 1), write(name, "lamp"), read(name, "lamp"))


def idle(sessions):
    """A look around in each session, which has no objects."""
    return (look_around(f"s{number}") for number in range(sessions))


def spelled(lines):
    """These lines with white space and escapes."""
    for line, wanted in lines:
        for plain, other in BLANKS_AND_ESCAPES.items():
            line = line.replace(plain, other)
        yield line, wanted


def with_lists(lines):
    """Lines that would write a list, and are refused."""
    yield new("a", 1)
    yield from (write_list("a", number) for number in range(lines))


def with_fractions(lines):
    """Lines that would write a negative number with a fraction to a declared int, and are refused."""
    yield new("a", 1, "Cell")
    yield from (write_fraction("a", number) for number in range(lines))


def without_json(lines):
    """Lines that are not JSON, because their last byte is missing."""
    yield new("a", 1)
    yield from (cut_short("a", f"lamp {number}") for number in range(lines))


def without_keys(lines):
    """Lines that are JSON, in which a key is missing."""
    yield new("a", 1)
    yield from (without_key("a", f"lamp {number}") for number in range(lines))


def long_texts(lines):
    """An object whose name, as long as it may be, is written and read again and again."""
    yield new("a", 1)
    for number in range(lines // 2):
        text = f"lamp {number} ".ljust(TEXT_BYTES, "x")
        yield write("a", text)
        yield read("a", text)


def counts(lines):
    """Lines that ask for the status of a session that holds a few things."""
    yield from connections("a", 3)
    yield post("a", 2)
    yield from [status("a", objects=2, connections=3, queued=1)] * lines


def metas(lines, *described):
    """Lines that ask for a class with as many methods as there may be, or for another one that is described."""
    return (meta("a", *described) for _ in range(lines))


def values_in_turn(write_value, read_value, lines):
    """A Cell whose value is written by one line and read by another, again and again."""
    yield new("a", 1, "Cell")
    for value in range(1, lines // 2 + 1):
        yield write_value("a", value)
        yield read_value("a", value)


def ints(lines):
    """A declared int, which is set and read."""
    return values_in_turn(set_x, lambda session, value: read_x(session, 1, value), lines)


def negatives(lines):
    """A declared int, which is set to negative numbers and read."""
    return values_in_turn(lambda session, value: set_x(session, -value), lambda session, value: read_x(session, 1, -value), lines)


def tags(lines):
    """A dynamic property, which is set and read."""
    return values_in_turn(set_tag, read_tag, lines)


# Trees.


def in_trees(rounds, objects, of_each=CHILDREN_OF_EACH):
    """In each round a tree of objects with so many children each, made from its root down and deleted at once."""
    for root in range(1, rounds * objects + 1, objects):
        yield new("a", root)
        yield from (child("a", root + place // of_each, root + place + 1) for place in range(objects - 1))
        yield delete("a", root)


def family(number):
    """An object with so many children."""
    yield new("a", 1)
    yield from (child("a", 1, it) for it in range(2, number + 2))


def seen(number, looks):
    """A family, whose children are listed again and again."""
    yield from family(number)
    yield from [children("a", 1, list(range(2, number + 2)))] * looks


def searched(number, looks):
    """A family, in which a name that no child has is looked for again and again."""
    yield from family(number)
    yield from [find_none("a", 1)] * looks


def all_found(number, looks):
    """A family, in which all objects below the first are found again and again."""
    yield from family(number)
    yield from [find_all("a", 1, list(range(2, number + 2)))] * looks


def found_last(number, looks):
    """A tree of so many objects with a name each, in which that of the last one is looked for again and again."""
    yield new("a", 1)
    yield from (child("a", 1 + place // CHILDREN_OF_EACH, place + 2) for place in range(number - 1))
    yield from (title("a", it, f"lamp {it}") for it in range(1, number + 1))
    yield from [find("a", 1, f"lamp {number}", number)] * looks


def come_and_go(first, lines):
    """Objects that are made and deleted one by one, numbered from this number."""
    for number in range(first, first + lines // 2):
        yield new("a", number)
        yield delete("a", number)


def beside_objects(standing, lines):
    """Objects that come and go next to so many others."""
    yield from numbered("a", 1, ["QObject"] * standing)
    yield from come_and_go(standing + 1, lines)


# Connections.


def connections(session, count, **kind):
    """A Bell and an Ear, with so many connections between them."""
    yield from numbered(session, 1, ["Bell", "Ear"])
    yield from (connect(session, 1, 2, number, **kind) for number in range(1, count + 1))


def connections_listed(count, looks):
    """So many connections between a Bell and an Ear, listed again and again."""
    yield from connections("a", count)
    yield from [connections_told("a", range(1, count + 1))] * looks


def beside_connections(session, count, lines):
    """Objects of session a that come and go next to so many connections of others, in that session or another one."""
    yield from connections(session, count)
    yield from come_and_go(3 if session == "a" else 1, lines)


def tie_and_untie(session, count, lines):
    """A connection of session a that is made and broken again and again, next to so many of others in a session."""
    yield from connections(session, count)
    first, standing = (3, count) if session == "a" else (1, 0)
    yield from numbered("a", first, ["Bell", "Ear"])
    for number in range(standing + 1, standing + 1 + lines // 2):
        yield connect("a", first, first + 1, number)
        yield disconnect("a", number)


def random_ends(objects, seed):
    """Random ends of connections of so many objects, all of them different."""
    chance, seen = Random(seed), set()
    while True:
        ends = chance.randint(1, objects), chance.randint(1, objects)
        if ends not in seen:
            seen.add(ends)
            yield ends


def tie_cells(ends, number, **kind):
    """A connection of these Cells, which gets this number."""
    return connect("a", *ends, number, "xChanged(int)", "setX(int)", **kind)


def ties_by_chance(objects, count, lines, **kind):
    """So many random connections of so many Cells. Then another is made again and again, and any one broken: by its number,
    or where they are unique by its ends."""
    yield from numbered("a", 1, ["Cell"] * objects)
    found, chance, standing = random_ends(objects, "ends"), Random("broken"), []
    for number in range(1, count + lines // 2 + 1):
        ends = next(found)
        yield tie_cells(ends, number, **kind)
        standing.append((number, ends))
        if number > count:
            broken, ends = standing.pop(chance.randrange(len(standing)))
            yield disconnect_ends("a", *ends, "xChanged(int)", "setX(int)") if kind else disconnect("a", broken)


# Calls and events.


def notes(lines):
    """A slot that is called by a command again and again."""
    yield new("a", 1, "Probe")
    yield from [note("a")] * lines


def posted_and_taken(times):
    """A signal with one queued connection, sent so many times; after each of them the event is taken."""
    yield new("a", 1, "Probe")
    yield connect("a", 1, 1, 1, "ping()", "note()", type="queued")
    yield from [ping("a"), spin("a", 1, noted("a", 1))] * times


def posted_with_priorities(rounds):
    """In each round events for random Ears, with random priorities, are posted and then taken."""
    random = Random("priorities")
    yield from numbered("a", 1, ["Ear"] * EARS)
    for _ in range(rounds):
        events = [(random.choice(PRIORITIES), random.randint(1, EARS)) for _ in range(AT_ONCE)]
        yield from (post("a", receiver, priority=priority) for priority, receiver in events)
        in_order = [receiver for _, receiver in sorted(events, key=lambda it: -it[0])]
        yield spin("a", AT_ONCE, called("a", "hear(int)", in_order, 5, sender=0))


def posted_at_random(ears, events, rounds):
    """In each round so many events for random ones of so many Ears are posted and then taken."""
    random = Random("receivers")
    yield from numbered("a", 1, ["Ear"] * ears)
    for _ in range(rounds):
        receivers = [random.randint(1, ears) for _ in range(events)]
        yield from (post("a", receiver) for receiver in receivers)
        yield spin("a", events, called("a", "hear(int)", receivers, 5, sender=0))


def rings(count, times):
    """A bell that rings so many times through so many connections to one ear."""
    yield from connections("a", count)
    yield from [ring("a", called("a", "hear(int)", [2] * count, 5))] * times


def rings_later(count, times):
    """The same with queued connections; after each ring the events are taken."""
    yield from connections("a", count, type="queued")
    yield from [ring("a"), spin("a", count, called("a", "hear(int)", [2] * count, 5))] * times


def heard_by(ears, times, others=(), is_broken=False):
    """A bell that rings so many times for so many ears, with these lines before the first time; before they were connected,
    a connection may have been broken."""
    numbers = range(2, ears + 2)
    yield from numbered("a", 1, ["Bell", *["Ear"] * ears])
    if is_broken:
        yield from (connect("a", 1, 2, 1), disconnect("a", 1))
    yield from (connect("a", 1, ear, ear - 1 + is_broken) for ear in numbers)
    yield from others
    yield from [ring("a", called("a", "hear(int)", numbers, 5))] * times


def heard_in_turn(bells, ears, times):
    """So many bells, which were connected with each of so many ears in turn; the first of them rings so many times."""
    numbers = range(bells + 1, bells + ears + 1)
    yield from numbered("a", 1, ["Bell"] * bells + ["Ear"] * ears)
    ends = ((bell, ear) for ear in numbers for bell in range(1, bells + 1))
    yield from (connect("a", *it, number) for number, it in enumerate(ends, 1))
    yield from [ring("a", called("a", "hear(int)", numbers, 5))] * times


def other_sessions(count):
    """Sessions that each have two objects and a connection between them."""
    for number in range(count):
        yield from connections(f"s{number}", 1)


def other_connections(count, ears):
    """Connections of another bell of the session that has so many ears."""
    bell = ears + 2
    yield new("a", bell, "Bell")
    yield from (connect("a", bell, 2, ears + number) for number in range(1, count + 1))


# Properties.


def cells(kind, slot, others, times):
    """A Cell that is set so many times, and each time calls this slot of so many other objects of this class."""
    numbers = range(2, others + 2)
    yield from numbered("a", 1, ["Cell", *[kind] * others])
    yield from (connect("a", 1, it, it - 1, "xChanged(int)", slot) for it in numbers)
    yield from (set_x("a", value, called("a", slot, numbers, value)) for value in range(1, times + 1))


def set_beside(standing, times):
    """A Cell that is set so many times next to so many others, with nobody connected."""
    yield from numbered("a", 1, ["Cell"] * (standing + 1))
    yield from (set_x("a", value) for value in range(1, times + 1))


def chains_by_notify(chains, length, times):
    """So many chains of Cells in which each one sets the next. The chains take turns: the first Cell of one is set, so many
    times in all."""
    firsts = range(1, chains * length + 1, length)
    yield from numbered("a", 1, ["Cell"] * (chains * length))
    senders = all_of.from_iterable(range(first, first + length - 1) for first in firsts)
    yield from (tie_cells((it, it + 1), number) for number, it in enumerate(senders, 1))
    for time in range(times):
        first, value = firsts[time % chains], time + 1
        calls = "".join(called("a", "setX(int)", [it + 1], value, sender=it) for it in range(first, first + length - 1))
        yield set_x("a", value, calls, first)


# Publications and joins.


def publisher():
    """A Cell of session a that is published."""
    yield new("a", 1, "Cell")
    yield publish("a", "level")


def listeners(count, other):
    """So many sessions with an Ear each, which joins another session."""
    for number in range(count):
        yield new(f"l{number}", 1, "Ear")
        yield join(f"l{number}", other, "level")


def unheard(sessions, times):
    """A Cell that is published, and set so many times next to so many sessions that have joined another one."""
    yield from publisher()
    yield from listeners(sessions, "b")
    yield from (set_x("a", value) for value in range(1, times + 1))


def unheard_under(names, joins, times):
    """A Cell that is published under so many names, and set so many times next to a session with so many joins of other
    names of its session."""
    yield new("a", 1, "Cell")
    yield from (publish("a", f"n{number}") for number in range(names))
    yield new("l0", 1, "Ear")
    yield from (join("l0", "a", f"m{number}") for number in range(joins))
    yield from (set_x("a", value) for value in range(1, times + 1))


def posted(sessions, times):
    """The same, where they have joined it, and each has some events already; nobody takes any."""
    yield from publisher()
    yield from listeners(sessions, "a")
    yield from (set_x("a", value) for value in range(1, WAITING + times + 1))


def listened(sessions, times, sets=SETS):
    """A Cell that is set some times over, after which so many sessions that have joined it take their events; so many
    times."""
    yield from publisher()
    yield from listeners(sessions, "a")
    for first in range(1, sets * times + 1, sets):
        values = range(first, first + sets)
        yield from (set_x("a", value) for value in values)
        for number in range(sessions):
            name = f"l{number}"
            yield spin(name, sets, "".join(called(name, "hear(int)", [1], value, sender=0) for value in values))
