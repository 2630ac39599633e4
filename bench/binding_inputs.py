"""The inputs in which properties are bound: lines, each with its expected output."""

from __future__ import annotations

from itertools import chain as all_of
from random import Random
from typing import Iterable, Iterator, List, Tuple

from inputs import numbered
from lines import (
    begin,
    bind,
    bindings_told,
    delete,
    end,
    follow,
    follow_y,
    in_error,
    new,
    pair,
    read_x,
    set_x,
    set_y,
    sum_of,
    unbind,
)

Line = Tuple[str, str]
Lines = Iterator[Line]

READS = 31  # of each binding that reads many properties; with what adds them up it has nearly as many forms as it may
REACHED = 15  # of these reads, at most, where the same `set` reaches what is read
UNBOUND = 1_024  # Links that are read and not bound


def in_group(binds: Iterable[Line]) -> Lines:
    """Lines that bind, in a group, so that nothing is evaluated for each of them."""
    return all_of([begin("a")], binds, [end("a")])


def bound_pairs(count: int) -> Lines:
    """So many Pairs, each with a binding of its own."""
    yield from numbered("a", 1, ["Pair"] * count)
    yield from in_group(pair("a", number) for number in range(1, count + 1))


# Properties are written that bindings read, or that no binding reads.


def bindings_listed(count: int, looks: int) -> Lines:
    """Links, each bound to be one more than the one before, listed again and again."""
    yield from numbered("a", 1, ["Link"] * (count + 1))
    yield from in_group(follow("a", number, number - 1) for number in range(2, count + 2))
    yield from [bindings_told("a", range(2, count + 2))] * looks


def chain(length: int, times: int) -> Lines:
    """A Link that is set so many times, and so many others that are each bound to be one more than the one before.

    They are bound in a group, so that the chain is not evaluated for each of them.
    """
    last = length + 1
    yield from numbered("a", 1, ["Link"] * last)
    yield from in_group(follow("a", number, number - 1) for number in range(2, last + 1))
    yield from (set_x("a", value) for value in range(1, times + 1))
    yield read_x("a", last, times + length)


def pairs(bindings: int, times: int) -> Lines:
    """A Pair that is set so many times, next to others. Each has a binding of its own, so many in all, which are made in a
    group."""
    yield from bound_pairs(bindings)
    yield from (set_y("a", value) for value in range(1, times + 1))
    yield read_x("a", 1, times + 1)


def unread(bindings: int, times: int) -> Lines:
    """A Link that no binding reads, set so many times in a session with so many bindings of other Links."""
    yield from numbered("a", 1, ["Link"] * (bindings + 2))
    yield from (follow("a", number, number - 1) for number in range(3, bindings + 3))
    yield from (set_x("a", value) for value in range(1, times + 1))


def grouped(bindings: int, times: int) -> Lines:
    """The same in a group, which does not end."""
    yield from unread(bindings, 0)
    yield begin("a")
    yield from (set_x("a", value) for value in range(1, times + 1))


def fan(bindings: int, times: int) -> Lines:
    """A Link that is set so many times, and so many others that are each bound to be one more than it."""
    last = bindings + 1
    yield from numbered("a", 1, ["Link"] * last)
    yield from in_group(follow("a", number, 1) for number in range(2, last + 1))
    yield from (set_x("a", value) for value in range(1, times + 1))
    yield read_x("a", last, times + 1)


def same_as(reached: List[int], others: List[int]) -> dict:
    """An expression with the value that an odd number of Links have in common; it also reads others, which are 0."""
    half = len(others) // 2
    more, less = ([{"prop": "x", "of": it} for it in found] for found in (reached[::2] + others[:half], reached[1::2] + others[half:]))
    return {"-": [sum_of(more), sum_of(less)]}


def diamonds(bindings: int, times: int) -> Lines:
    """A Link that is set so many times, and so many others with random numbers that each become what it is. Each reads many
    random Links: some that are set or bound before it, so that most are reached in many ways, and some that stay 0."""
    random, reached = Random("diamonds"), [1]
    numbers = random.sample(range(2, UNBOUND + bindings + 2), UNBOUND + bindings)
    bound, unbound = numbers[:bindings], numbers[bindings:]
    binds = []
    for number in bound:
        some = min(len(reached) - 1 | 1, REACHED)
        binds.append(bind("a", number, same_as(random.sample(reached, some), random.sample(unbound, READS - some))))
        reached.append(number)
    yield from numbered("a", 1, ["Link"] * (len(numbers) + 1))
    yield from in_group(binds)
    yield from (set_x("a", value) for value in range(1, times + 1))
    yield from (read_x("a", number, times) for number in bound)


# Bindings and bound objects that come and go next to so many bindings of others.


def bound_and_deleted(bindings: int, rounds: int) -> Lines:
    """A Pair that is made, bound to another one and deleted, again and again."""
    yield from bound_pairs(bindings)
    for number in range(bindings + 1, bindings + rounds + 1):
        yield new("a", number, "Pair")
        yield follow_y("a", number, 1)
        yield delete("a", number)


def read_and_deleted(bindings: int, rounds: int) -> Lines:
    """A Pair that is made, read by another one that is bound to it, and deleted, again and again."""
    reader = bindings + 1
    yield from bound_pairs(bindings)
    yield new("a", reader, "Pair")
    for number in range(reader + 1, reader + rounds + 1):
        yield new("a", number, "Pair")
        yield follow_y("a", reader, number)
        yield delete("a", number, in_error("a", reader))


def bound_and_unbound(bindings: int, lines: int) -> Lines:
    """A Pair that is bound and unbound, again and again."""
    yield from bound_pairs(bindings)
    yield new("a", bindings + 1, "Pair")
    yield from [pair("a", bindings + 1), unbind("a", bindings + 1)] * (lines // 2)


def bound_again(bindings: int, lines: int) -> Lines:
    """A Pair that is bound, and then bound to another expression, again and again."""
    yield from bound_pairs(bindings)
    yield new("a", bindings + 1, "Pair")
    yield from (pair("a", bindings + 1, more) for more in range(1, lines + 1))
