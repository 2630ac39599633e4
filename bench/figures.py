"""The figures: what each counts, in which input, and by how much some of them grow."""

from __future__ import annotations

from dataclasses import dataclass, replace
from typing import Callable, Iterable, Tuple

import binding_inputs as bound
import inputs
from lines import CELL_DESCRIBED, METHODS, demonstration_classes, lamps, usual_classes

Line = Tuple[str, str]

INSTRUCTIONS, ALLOCATIONS = "instructions", "allocations"

LINES = 20_000
SOME_LINES = 10_000
FEWER_LINES = 3_000
SESSIONS = 10_000
MANY_SESSIONS = 100_000
LISTENERS = 100
OBJECTS = 4_000
CONNECTIONS = 16_384  # as many as a session may have; it may have as many events
OTHER_CONNECTIONS = 15_000
FEW = 16
EARS = 1_000
EVENTS = 1_000
BINDINGS = 1_000
MOST_BINDINGS = 1_024  # as many as a session may have
REACHED = (33, 330, 1_023)  # bindings that a set reaches; each reads many properties
NEXT_TO = (10, 100, 1_000)  # bindings of others
RINGS = 20
TREES = 2
METAS = 300
SOME_OBJECTS = 1_000
SOME_CONNECTIONS = 10_000
SENDERS = 16
LOOKS = 20
LONG_CHAIN = 10
CHAINS = 100
CLASSES = 1_024  # as many as a file may have
LISTED = 1_000  # as many as one reply lists
JOINS = 1_024  # as many as a session may have; it may have as many publications


@dataclass(frozen=True)
class Figure:
    """The cost of one of many: the difference of two inputs, one of them with so many times as many.

    `lines` gives the input that does it so many times over. Each time has so many `rounds`, and each round has so many
    of what is counted, in addition to what the figure `less` counts. To be timed it is done `often` as many times over.
    """

    name: str
    unit: str
    rounds: int
    lines: Callable[[int], Iterable[Line]]
    each: int = 1
    less: Figure | None = None
    classes: Callable[[int], str] = lambda times: usual_classes()
    what: str = INSTRUCTIONS
    often: int = 6

    @property
    def counts(self):
        return f"{self.what} per {self.unit}"

    @property
    def counts_instructions(self):
        return self.what == INSTRUCTIONS

    def shared_out(self, more, times, of_others):
        """What one takes, where doing it so many times more often takes so much more."""
        beside = of_others[self.less.name] if self.less else 0
        return (more / (times * self.rounds) - beside) / self.each


@dataclass(frozen=True)
class Ratio:
    """How many times as large as another figure one is."""

    name: str
    large: Figure
    small: Figure
    counts: str = "times"


def grown(name, make, small, large, things):
    """The figures of something next to few things and next to many, and by how much it grows."""
    few, many = make(small), make(large)
    return [few, many, Ratio(f"{name}: from {small:,} to {large:,} {things}", many, few)]


# Each of these makes a figure.


def line(name, lines, count=SOME_LINES, classes=usual_classes):
    """A figure of each of many lines; `lines` gives the input with so many."""
    return Figure(name, "line", count, lambda times: lines(times * count), classes=lambda times: classes())


def line_told(name, lines, count, told, classes=usual_classes):
    """The cost of a line of output, with so many lines each time; `lines` gives the input of so many times."""
    return Figure(name, "line told", count, lambda times: lines(times * count), told, classes=lambda times: classes())


def so_many(count, things):
    """A text that says how many."""
    return f"{count:,} {things}" if count > 1 else f"{count} {things[:-1]}"


def in_sessions(count):
    return line(f"set and get, in {so_many(count, 'sessions')}", lambda lines: inputs.in_turn(count, lines), LINES)


def set_beside(others):
    name = f"set of an int, next to {so_many(others, 'objects')}"
    return line(name, lambda lines: inputs.set_beside(others, lines))


def beside_objects(others):
    name = f"new and delete, next to {so_many(others, 'objects')}"
    return line(name, lambda lines: inputs.beside_objects(others, lines))


def beside_connections(session):
    """Makes the figure of objects that come and go next to so many connections of others."""
    return lambda count: line(
        f"new and delete, next to {count:,} connections of {OWNERS[session]}",
        lambda lines: inputs.beside_connections(session, count, lines),
    )


def in_trees(name, **shape):
    """The figure of trees that are made and deleted, of one shape."""
    return Figure(name, "line", TREES * (OBJECTS + 1), lambda times: inputs.in_trees(times * TREES, OBJECTS, **shape))


def tied_by_chance(name, **kind):
    """The figure of random connections that come and go next to many of them."""
    name = f"{name}, next to {SOME_CONNECTIONS:,} of {SOME_OBJECTS:,} random objects"
    return line(name, lambda lines: inputs.ties_by_chance(SOME_OBJECTS, SOME_CONNECTIONS, lines, **kind))


def tied(session):
    """Makes the figure of connections that come and go next to so many of others."""
    return lambda count: line(
        f"connect and disconnect, next to {count:,} of {OWNERS[session]}",
        lambda lines: inputs.tie_and_untie(session, count, lines),
    )


OWNERS = {"a": "others", "b": "another session"}


def many_at_once(name, unit, lines, less, work):
    """Makes the figure of what a line does so many times, next to what the line itself takes.

    `lines` gives the input where it does so many, in so many rounds; about so much `work` is done at each time.
    """

    def made(count):
        rounds = max(1, work // count)
        return Figure(name.format(count), unit, rounds, lambda times: lines(count, times * rounds), count, less)

    return made


def heard(name, others=lambda: (), **how):
    """The figure of calls of many receivers, with other lines before it."""
    return Figure(name, "call", RINGS, lambda times: inputs.heard_by(EARS, times * RINGS, others(), **how), EARS)


def told(name, kind, slot):
    """The figure of calls of many slots by a property that is set."""
    return Figure(name, "call", RINGS, lambda times: inputs.cells(kind, slot, EARS, times * RINGS), EARS)


def chained(chains):
    """The cost of a line of output where properties set each other in so many chains."""
    name = f"a set and its calls, in {so_many(chains, 'chains')} of {LONG_CHAIN} properties that set each other"
    return line_told(name, lambda times: inputs.chains_by_notify(chains, LONG_CHAIN, times), LINES // LONG_CHAIN, LONG_CHAIN)


def followed(bindings):
    """The figure of a property that is set, which so many others follow in a chain."""
    rounds = max(1, LINES // bindings)
    name = f"a binding, in a chain of {bindings:,}"
    return Figure(name, "evaluation", rounds, lambda times: bound.chain(bindings, times * rounds), bindings)


def fanned(bindings):
    """The figure of a property that is set, which so many others follow at once."""
    rounds = max(1, LINES // bindings)
    name = f"a binding, in a fan of {bindings:,}"
    return Figure(name, "evaluation", rounds, lambda times: bound.fan(bindings, times * rounds), bindings)


def scattered(bindings):
    """The figure of a property that is set, which reaches so many bindings that read many properties each."""
    rounds = max(1, MOST_BINDINGS // bindings)
    name = f"a binding that reads {bound.READS} scattered properties, of {bindings:,} that a set reaches"
    return Figure(name, "evaluation", rounds, lambda times: bound.diamonds(bindings, times * rounds), bindings)


def paired(bindings):
    """The figure of a property that is set and read by one of so many bindings."""
    one = f"one of {bindings:,} bindings" if bindings > 1 else "the only binding"
    return line(f"set of what {one} reads", lambda lines: bound.pairs(bindings, lines))


def next_to(name, lines):
    """Makes the figure of lines that bind and unbind, next to so many bindings of others."""
    return lambda bindings: line(f"{name}, next to {bindings:,} bindings", lambda count: lines(bindings, count), FEWER_LINES)


def gone_next_to(name, lines, told):
    """Makes the figure of objects that are made, bound or read, and deleted, next to so many bindings of others."""
    rounds = FEWER_LINES // 3
    name = f"new, bind and delete of an object that is {name}, next to {{:,}} bindings"
    return lambda bindings: line_told(name.format(bindings), lambda times: lines(bindings, times), rounds, told)


def three(name, make, sizes, things):
    """The figures of something next to few things, next to more and next to many, and by how much it grows to the last."""
    few, more, many = sizes
    return [make(more), *grown(name, make, few, many, things)]


UNREAD = line("set of an int that no binding reads", lambda lines: bound.unread(0, lines))
UNREAD_BESIDE = line("set of an int that no binding reads, next to one binding", lambda lines: bound.unread(1, lines))
GROUPED = line("set of an int that no binding reads, in a group", lambda lines: bound.grouped(1, lines))


def unheard(sessions):
    """The figure of a property that is set, published, and joined by none of so many sessions."""
    name = f"set of an int that is published, next to {so_many(sessions, 'sessions')}"
    return line(name, lambda lines: inputs.unheard(sessions, lines))


def unheard_under(names):
    """The figure of a property that is set and published under so many names, next to a session with joins of others."""
    published = "published" if names == 1 else f"published under {names:,} names"
    name = f"set of an int that is {published}, next to {JOINS:,} joins of other names"
    return line(name, lambda lines: inputs.unheard_under(names, JOINS, lines), max(RINGS, SOME_LINES // names))


def listened(sessions, sets=inputs.SETS):
    """The cost of a line of output where so many sessions have joined a property that is set."""
    told = sets + (sets + 1) * sessions
    rounds = max(1, LINES // told)
    published = f"{sets} sets that are published" if sets > 1 else "a set that is published"
    name = f"{published}, and a spin in each of {sessions:,} sessions"
    return Figure(name, "line told", rounds * told, lambda times: inputs.listened(sessions, times * rounds, sets))


def taken_at_random(ears):
    """The cost of a line of output where events for random ones of so many objects are posted and taken."""
    told, rounds = 2 * EVENTS + 1, LINES // (2 * EVENTS)
    name = f"events of {ears:,} random receivers, posted and taken"
    return line_told(name, lambda times: inputs.posted_at_random(ears, EVENTS, times), rounds, told)


def class_file(count):
    """The figure of a class file with so many classes, against one with half as many; little else is given."""
    half = count // 2
    size = len(lamps(count)) - len(lamps(half))
    name = f"a class file of {count:,} classes"
    return Figure(name, "byte", size, lambda times: inputs.idle(1), classes=lambda times: lamps(times * half), often=2)


def memory(figure):
    """A figure that counts allocations instead of instructions."""
    return replace(figure, name=f"memory: {figure.name}", what=ALLOCATIONS, less=None)


SENT = line("a signal sent to nobody", lambda lines: inputs.rings(0, lines))
SENT_AND_SPUN = Figure(
    "a signal sent to nobody, and a spin", "two lines", SOME_LINES, lambda times: inputs.rings_later(0, times * SOME_LINES)
)
NONE_SEEN = line("children of an object without any", lambda lines: inputs.seen(0, lines))
NONE_SEARCHED = line("find below an object without children", lambda lines: inputs.searched(0, lines))

IN_TREES = in_trees(f"new and delete, in trees of {OBJECTS:,} objects")
CALLED = many_at_once("a call, of a signal with {:,} connections", "call", inputs.rings, SENT, LINES)
POSTED = many_at_once("an event posted and taken, {:,} at once", "event", inputs.rings_later, SENT_AND_SPUN, LINES)
SEEN = many_at_once("children, of {:,}", "object", inputs.seen, NONE_SEEN, 4 * LINES)
SEARCHED = many_at_once("find, among {:,}", "object", inputs.searched, NONE_SEARCHED, 4 * LINES)
NONE_FOUND = line("findAll below an object without children", lambda lines: inputs.all_found(0, lines))
ALL_FOUND = many_at_once("findAll, of {:,}", "object", inputs.all_found, NONE_FOUND, 4 * LINES)
NO_CONNECTIONS = line("connections of a session without any", lambda lines: inputs.connections_listed(0, lines))
CONNECTIONS_LISTED = many_at_once("connections, of {:,}", "connection", inputs.connections_listed, NO_CONNECTIONS, LINES)
NO_BINDINGS = line("bindings of a session without any", lambda lines: bound.bindings_listed(0, lines))
BINDINGS_LISTED = many_at_once("bindings, of {:,}", "binding", bound.bindings_listed, NO_BINDINGS, LINES)
WITH_PRIORITIES = line_told(
    "events of random priorities, posted and taken",
    inputs.posted_with_priorities,
    LINES // (2 * inputs.AT_ONCE),
    2 * inputs.AT_ONCE + 1,
)
ARRIVED = many_at_once("a post, in {:,} sessions", "arrival", inputs.posted, unheard(FEW), LINES)

HEARD = heard(f"a call, of a signal with {EARS:,} receivers")
HEARD_BEHIND_BROKEN = heard(f"a call, of a signal with {EARS:,} receivers, after a connection was broken", is_broken=True)
HEARD_IN_TURN = Figure(
    f"a call, of one of {SENDERS} signals with {EARS:,} receivers, connected in turn",
    "call",
    RINGS,
    lambda times: inputs.heard_in_turn(SENDERS, EARS, times * RINGS),
    EARS,
)
HEARD_BESIDE_SESSIONS = heard(f"a call, next to {SESSIONS:,} other sessions", lambda: inputs.other_sessions(SESSIONS))
HEARD_BESIDE_OTHERS = heard(
    f"a call, next to {OTHER_CONNECTIONS:,} other connections", lambda: inputs.other_connections(OTHER_CONNECTIONS, EARS)
)
TOLD = told("a call by NOTIFY, of a slot that does nothing", "Ear", "hear(int)")
TOLD_SETS = told("a call by NOTIFY, of a slot that sets", "Cell", "setX(int)")

FIGURES = [
    *grown("set and get", in_sessions, 1, SESSIONS, "sessions"),
    in_sessions(100),
    Figure("new, set and get in each of many sessions", "line", 3 * SESSIONS, lambda times: inputs.once_each(times * SESSIONS)),
    line("set and get, with blanks and escapes", lambda lines: inputs.spelled(inputs.in_turn(1, lines)), LINES),
    line("set of a list, which is refused", inputs.with_lists),
    line("set of a negative number with a fraction, which is refused", inputs.with_fractions),
    line("a line that is not JSON", inputs.without_json),
    line("a line that is JSON, without a key of its command", inputs.without_keys),
    line("set and get of a declared int", inputs.ints, LINES, demonstration_classes),
    line("set and get of a negative int", inputs.negatives, LINES, demonstration_classes),
    line(f"set and get of texts of {inputs.TEXT_BYTES:,} bytes", inputs.long_texts, FEWER_LINES),
    line("status", inputs.counts),
    line("set and get of a dynamic property", inputs.tags, LINES, demonstration_classes),
    *grown("set of an int", set_beside, 1, OBJECTS, "objects"),
    IN_TREES,
    in_trees(f"new and delete, in binary trees of {OBJECTS:,} objects", of_each=2),
    beside_objects(SOME_OBJECTS),
    *grown("new and delete", beside_objects, 1, OBJECTS, "objects"),
    *grown("new and delete", beside_connections("a"), FEW, CONNECTIONS, "connections of others"),
    *grown("new and delete", beside_connections("b"), FEW, CONNECTIONS, "of another session"),
    *grown("connect and disconnect", tied("a"), FEW, CONNECTIONS - 1, "of others"),
    *grown("connect and disconnect", tied("b"), FEW, CONNECTIONS, "of another session"),
    tied_by_chance("connect and disconnect"),
    tied_by_chance("connect with unique and disconnect by pattern", unique=True),
    SENT,
    line_told("invoke of a slot", inputs.notes, SOME_LINES, 2, demonstration_classes),
    *grown("a call", CALLED, FEW, CONNECTIONS, "connections"),
    HEARD,
    HEARD_BEHIND_BROKEN,
    HEARD_IN_TURN,
    HEARD_BESIDE_SESSIONS,
    Ratio(f"a call: from no other sessions to {SESSIONS:,}", HEARD_BESIDE_SESSIONS, HEARD),
    HEARD_BESIDE_OTHERS,
    Ratio(f"a call: from no other connections to {OTHER_CONNECTIONS:,}", HEARD_BESIDE_OTHERS, HEARD),
    TOLD,
    TOLD_SETS,
    Ratio("a call by NOTIFY: from a slot that does nothing to one that sets", TOLD_SETS, TOLD),
    chained(1),
    chained(CHAINS),
    *grown("a binding", followed, 2 * FEW, BINDINGS, "in a chain"),
    *three("a binding", fanned, NEXT_TO, "in a fan"),
    *three("a binding that reads scattered properties", scattered, REACHED, "reached"),
    paired(1),
    *grown("set of what a binding reads", paired, 10, MOST_BINDINGS, "bindings"),
    *three("bind and unbind", next_to("bind and unbind", bound.bound_and_unbound), NEXT_TO, "bindings"),
    *three("bind of what is bound", next_to("bind of what is bound", bound.bound_again), NEXT_TO, "bindings"),
    *three("deletion of a bound object", gone_next_to("bound", bound.bound_and_deleted, 3), NEXT_TO, "bindings"),
    *three("deletion of an object that is read", gone_next_to("read", bound.read_and_deleted, 4), NEXT_TO, "bindings"),
    UNREAD,
    UNREAD_BESIDE,
    Ratio("set of what no binding reads: from no binding to one", UNREAD_BESIDE, UNREAD),
    GROUPED,
    Ratio("set of what no binding reads: from outside a group to one", GROUPED, UNREAD_BESIDE),
    SENT_AND_SPUN,
    line_told("a queued signal, posted and taken", inputs.posted_and_taken, SOME_LINES, 3, demonstration_classes),
    WITH_PRIORITIES,
    *grown("events of random receivers", taken_at_random, FEW, OBJECTS, "receivers"),
    *grown("an event", POSTED, FEW, CONNECTIONS, "at once"),
    *grown("set of what is published", unheard, FEW, MANY_SESSIONS, "sessions"),
    unheard_under(1),
    unheard_under(JOINS),
    *grown("a post", ARRIVED, FEW, SESSIONS, "sessions"),
    *grown("sets and spins", listened, LISTENERS, SESSIONS, "sessions"),
    listened(LISTENERS, sets=1),
    NONE_SEEN,
    *grown("children", SEEN, FEW, OBJECTS, "objects"),
    NONE_SEARCHED,
    *grown("find", SEARCHED, FEW, OBJECTS, "objects"),
    line(f"find of a name, in a tree of {SOME_OBJECTS:,}", lambda lines: inputs.found_last(SOME_OBJECTS, lines), LOOKS),
    NONE_FOUND,
    *grown("findAll", ALL_FOUND, FEW, OBJECTS, "objects"),
    NO_CONNECTIONS,
    *grown("connections", CONNECTIONS_LISTED, FEW, LISTED, "listed"),
    NO_BINDINGS,
    *grown("bindings", BINDINGS_LISTED, FEW, LISTED, "listed"),
    line("meta of Cell", lambda lines: inputs.metas(lines, CELL_DESCRIBED), SOME_LINES, demonstration_classes),
    line(f"meta of a class with {METHODS} methods", inputs.metas, METAS),
    *grown("a class file", class_file, 2 * FEW, CLASSES, "classes"),
    *(memory(it) for it in (in_sessions(1), IN_TREES, HEARD, POSTED(CONNECTIONS), listened(LISTENERS))),
]
