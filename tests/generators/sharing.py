"""Sessions with as many publications and joins as there may be, and with posts that find no room."""

from tests.support.limits import EVENTS, JOINS, PUBLICATIONS, TEXT_BYTES, TURNS

from .steps import (
    E05, E07, E14, E15, E16, RESET, SPIN, STATUS, call,
    counted, delete, delete_later, get, invoke, join, leave, new, of, publish, reply,
    set_to, spun, unpublish, warning,
)


def publications():
    """As many publications as there may be, all of one signal. Another session joins the last and the first."""
    names = [f"p{at}" for at in range(PUBLICATIONS)]
    yield new(), reply(1)
    yield new(), reply(2)
    yield from ((publish(1, "down()", name), reply(True)) for name in names)
    yield publish(1, "down()", "one_more"), E14
    yield publish(2, "down()", "one_more"), E14
    yield publish(1, "down()", names[0]), E15
    yield publish(1, "note()", names[0]), E05
    yield STATUS, counted(objects=2, publications=PUBLICATIONS)
    yield of("b", new(), reply(1))
    yield of("b", join("a", names[-1], [], 1, "note()"), reply(True))
    yield of("b", join("a", names[0], [], 1, "ask()"), reply(True))
    yield of("b", join("a", names[1], ["int"], 1, "note()"), reply(True))
    yield invoke(1, "down()"), reply(True)
    yield of("b", STATUS, counted(joins=3, mismatched=1, objects=1, queued=2))
    yield of("b", SPIN, call("ask()", 1, 0), call("note()", 1, 0), spun(3, 0, 0, 1))
    yield unpublish(names[0]), reply(True)
    yield unpublish(names[0]), reply(False)
    yield publish(2, "down()", names[0]), reply(True)
    yield publish(2, "down()", "one_more"), E14
    yield delete(1), reply(True)
    yield STATUS, counted(objects=1, publications=1)
    yield from ((publish(2, "down()", name), reply(True)) for name in names[1:])
    yield publish(2, "down()", "one_more"), E14
    yield RESET, reply(True)
    yield new(), reply(1)
    yield publish(1, "down()", "one_more"), reply(True)


def joins():
    """As many joins as there may be, which make as many events as there may be, and then once again."""
    names = [f"p{at}" for at in range(JOINS)]
    posts, more = EVENTS // JOINS, JOINS // 2
    yield new(), reply(1)
    yield from ((publish(1, "xChanged(int)", name), reply(True)) for name in names)
    yield of("b", new(), reply(1))
    yield of("b", new(), reply(2))
    yield from (of("b", join("a", name, ["int"], at % 2 + 1, "keep(int)"), reply(True)) for at, name in enumerate(names))
    yield of("b", join("a", "one_more", ["int"], 1, "keep(int)"), E14)
    yield of("b", join("b", names[0], ["int"], 1, "keep(int)"), E16)
    yield of("b", join("a", names[0], [], 1, "keep(int)"), E07)
    yield from ((set_to(1, "x", at), reply(True)) for at in range(1, posts + 1))
    yield of("b", STATUS, counted(joins=JOINS, objects=2, queued=EVENTS))
    yield set_to(1, "x", 0), reply(True)
    yield of("b", STATUS, counted(joins=JOINS, lost=JOINS, objects=2, queued=EVENTS))
    calls = [call("keep(int)", at % 2 + 1, 0, value) for value in range(1, posts + 1) for at in range(JOINS)]
    yield of("b", SPIN, *calls, spun(EVENTS, 0, JOINS))
    yield of("b", get(1, "x"), reply(posts))
    yield of("b", delete(1), reply(True))
    yield of("b", STATUS, counted(joins=more, lost=JOINS, objects=1))
    again = join("a", names[1], ["int"], 2, "keep(int)")
    yield from (of("b", again, reply(True)) for _ in range(JOINS - more))
    yield of("b", again, E14)
    yield set_to(1, "x", 1), reply(True)
    yield of("b", STATUS, counted(joins=JOINS, lost=JOINS, objects=1, queued=JOINS))
    yield of("b", leave("a", names[1], 2, "keep(int)"), reply(True))
    yield of("b", STATUS, counted(joins=more - 1, lost=JOINS, objects=1, queued=JOINS))
    yield of("b", SPIN, *[call("keep(int)", 2, 0, 1)] * JOINS, spun(JOINS, 0, JOINS))


def lost_posts():
    """Posts that meet as many events as there may be. Those that one command cannot take are taken later."""
    yield new(), reply(1)
    yield of("b", new(), reply(1))
    yield of("b", join("a", "temp", ["int"], 1, "keep(int)"), reply(True))
    yield publish(1, "xChanged(int)", "temp"), reply(True)
    yield from ((set_to(1, "x", at), reply(True)) for at in range(1, EVENTS + 2))
    calls, spent = [call("keep(int)", 1, 0, at) for at in range(1, EVENTS + 1)], warning("E23")
    yield of("b", SPIN, *calls[:TURNS], spent, spun(TURNS, EVENTS - TURNS, 1))
    yield of("b", SPIN, *calls[TURNS:], spun(EVENTS - TURNS, 0, 1))
    yield SPIN, spun(0)


def full_neighbours():
    """One session has as many events as there may be: another one, with the same joins, loses nothing."""
    yield new(), reply(1)
    yield publish(1, "down()", "temp"), reply(True)
    for session in "bc":
        yield of(session, new(), reply(1))
        yield of(session, join("a", "temp", [], 1, "note()"), reply(True))
    yield from (of("b", delete_later(1), reply(True)) for _ in range(EVENTS))
    yield invoke(1, "down()"), reply(True)
    yield of("b", STATUS, counted(joins=1, lost=1, objects=1, queued=EVENTS))
    yield of("c", STATUS, counted(joins=1, objects=1, queued=1))
    yield of("b", SPIN, spun(1, 0, 1))
    yield of("c", SPIN, call("note()", 1, 0), spun(1))
    yield invoke(1, "down()"), reply(True)
    yield of("b", STATUS, counted(lost=1))


def posted_texts():
    """Texts of the maximum length that are posted."""
    yield new(), reply(1)
    yield of("b", new(), reply(1))
    yield publish(1, "told(QString,int)", "temp"), reply(True)
    yield of("b", join("a", "temp", ["QString", "int"], 1, "hear(QString,int)"), reply(True))
    for unit in ("x", "ä", "\U0001f600"):
        longest = unit * (TEXT_BYTES // len(unit.encode()))
        yield invoke(1, "told(QString,int)", longest, 1), reply(True)
        yield invoke(1, "told(QString,int)", longest + "x", 1), E14
        yield of("b", SPIN, call("hear(QString,int)", 1, 0, longest, 1), spun(1))
