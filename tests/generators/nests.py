"""Sessions that nest as deep as they may, alone and where others have filled the memory before."""

from __future__ import annotations

from functools import lru_cache
from pathlib import Path
from typing import Iterable, NamedTuple

from tests.support.lines import lines_of, text_of
from tests.support.program import Row

from . import limits
from . import steps as commands

CLASSES = ("classes.json",)
DEEP_CLASSES = ("deep.json",)  # with bodies that are nested as deep as may be
DEEP_SPACE = 12 * 2**20  # bytes in which there is memory to read these
SLOTS = ("note()", "keep(int)", "drop()", "dropFirst()")
CLASS = {
    **limits.CLASS,
    "signals": ["xChanged(int)", "yChanged(int)"],
    "slots": [it for it in limits.CLASS["slots"] if it["sig"] in SLOTS],
}
PROPERTIES = 64
TEXT = "n" * 4_096
BLOCK = PROPERTIES * len(TEXT)  # bytes of texts of a large session
SMALL = 128  # sessions of one text, which take what a large one that fails gives back
LEAST = 64  # sessions of one object
DEEPENED = limits.deepened({"prop": "x"})


class Part(NamedTuple):
    """Some lines of input, and what is written for them where memory is ample."""

    given: bytes
    wanted: bytes


def part_of(steps: Iterable[tuple], session: str = "a") -> Part:
    """The lines of steps, each a command and what it is answered by, of a session."""
    steps = [commands.of(session, *step) for step in steps]
    return Part(lines_of(step[0] for step in steps), lines_of(line for step in steps for line in step[1:]))


def row_of(name: str, parts: Iterable[Part], words: "tuple[str]", folder: Path) -> Row:
    parts = list(parts)
    given, wanted = b"".join(it.given for it in parts), b"".join(it.wanted for it in parts)
    return Row(name, given, wanted, words=words, folder=folder)


def put_classes(folder: Path) -> None:
    """Puts the class files of the rows into a folder."""
    for words, declared in ((CLASSES, CLASS), (DEEP_CLASSES, limits.CLASS)):
        (folder / words[0]).write_text(text_of({"classes": [declared]}))


@lru_cache(maxsize=None)
def deletions(slot: str) -> "tuple[Part, Part]":
    """As many objects as there may be, in trees as deep as may be; and what deletes them all, nested, by this slot."""
    steps = list(limits.ends(slot, False))
    at = next(at for at, step in enumerate(steps) if step[0]["do"] == "delete")
    return part_of(steps[:at]), part_of(steps[at:])


@lru_cache(maxsize=None)
def functors_and_bindings() -> "list[Part]":
    """Functors that call each other as deep as they may, and rings of bindings that do, with forms as deep as may be."""
    count = limits.LEVELS + 2
    return [
        part_of(limits.chain_of_functors(count), "f"),
        part_of(limits.ring_of_bindings(count, DEEPENED), "b"),
        part_of(limits.bound_chain(count, limits.deepened), "c"),
    ]


@lru_cache(maxsize=None)
def large_session(number: int) -> Part:
    """A session with one object that holds many texts."""
    steps = [(commands.new(), commands.reply(1))]
    steps += [(commands.set_to(1, f"p{at}", TEXT), commands.reply(False)) for at in range(PROPERTIES)]
    return part_of(steps, f"large{number}")


@lru_cache(maxsize=None)
def small_sessions() -> Part:
    """Sessions with one object, at first with a text each and then without one."""
    texts = [part_of([(commands.new(), commands.reply(1)), (commands.set_to(1, "p0", TEXT), commands.reply(False))], f"small{at}") for at in range(SMALL)]
    parts = texts + [part_of([(commands.new(), commands.reply(1))], f"least{at}") for at in range(LEAST)]
    return Part(b"".join(it.given for it in parts), b"".join(it.wanted for it in parts))


def filling(size: int) -> "list[Part]":
    """Sessions that hold so many bytes together, and some more."""
    return [*map(large_session, range(size // BLOCK + 1)), small_sessions()]


def rows_of(size: int, folder: Path) -> "list[Row]":
    """Rows that nest, one of them after sessions that fill so many bytes."""
    slot, words = ("dropDeep()", DEEP_CLASSES) if size >= DEEP_SPACE else ("drop()", CLASSES)
    made, ended = deletions(slot)
    return [
        row_of("deletions", deletions("drop()"), CLASSES, folder),
        row_of("functors and bindings", functors_and_bindings(), CLASSES, folder),
        row_of("deletions in full memory", [made, *filling(size), ended], words, folder),
    ]
