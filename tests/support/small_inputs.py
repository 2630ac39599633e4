"""The inputs that `make bench` counts, in small sizes."""

from __future__ import annotations

import sys
from typing import Iterable, Iterator, Tuple

from .program import ROOT

sys.path.insert(0, str(ROOT / "bench"))

import binding_inputs  # isort: skip  # noqa: E402
import held_inputs  # isort: skip  # noqa: E402
import inputs  # isort: skip  # noqa: E402

Line = Tuple[str, str]
HELPERS = {
    *("numbered", "spelled", "values_in_turn", "family", "come_and_go", "connections", "random_ends", "tie_cells", "other_sessions"),
    *("other_connections", "publisher", "listeners", "in_group", "bound_pairs", "same_as", "names_of"),
}  # functions that give parts of inputs


def small_inputs() -> Iterator[Tuple[str, Iterable[Line]]]:
    """Each input of the figures in a small size, with the name of the function that gives it."""
    yield from small_objects()
    yield from small_calls()
    yield from small_bindings()
    yield from small_held()


def small_objects() -> Iterator[Tuple[str, Iterable[Line]]]:
    """Small inputs of objects, their values and their trees."""
    yield "in_turn", inputs.in_turn(3, 12)
    yield "once_each", inputs.once_each(4)
    yield "idle", inputs.idle(4)
    for it in (inputs.with_lists, inputs.with_fractions, inputs.without_json, inputs.without_keys, inputs.long_texts, inputs.counts, inputs.metas):
        yield it.__name__, it(6)
    for it in (inputs.ints, inputs.negatives, inputs.tags):
        yield it.__name__, it(20)
    yield "in_trees", inputs.in_trees(2, 30)
    for it in (inputs.seen, inputs.searched, inputs.all_found, inputs.found_last, inputs.beside_objects):
        yield it.__name__, it(12, 4)


def small_calls() -> Iterator[Tuple[str, Iterable[Line]]]:
    """Small inputs of connections, calls, events and publications."""
    yield "connections_listed", inputs.connections_listed(8, 2)
    for it in (inputs.beside_connections, inputs.tie_and_untie):
        yield from ((it.__name__, it(session, 6, 8)) for session in "ab")
    yield "ties_by_chance", inputs.ties_by_chance(9, 20, 30)
    yield "ties_by_chance", inputs.ties_by_chance(9, 20, 30, unique=True)
    for it in (inputs.notes, inputs.posted_and_taken, inputs.posted_with_priorities):
        yield it.__name__, it(3)
    yield "posted_at_random", inputs.posted_at_random(7, 40, 3)
    yield "rings", inputs.rings(5, 3)
    yield "rings_later", inputs.rings_later(5, 3)
    yield "heard_by", inputs.heard_by(5, 3, inputs.other_connections(4, 5))
    yield "heard_by", inputs.heard_by(5, 3, is_broken=True)
    yield "heard_in_turn", inputs.heard_in_turn(3, 5, 3)
    yield "cells", inputs.cells("Cell", "setX(int)", 4, 3)
    yield "set_beside", inputs.set_beside(4, 5)
    yield "chains_by_notify", inputs.chains_by_notify(3, 4, 7)
    yield "unheard", inputs.unheard(3, 5)
    yield "unheard_under", inputs.unheard_under(3, 4, 5)
    yield "posted", inputs.posted(3, 5)
    yield "listened", inputs.listened(3, 4, sets=2)


def small_bindings() -> Iterator[Tuple[str, Iterable[Line]]]:
    """Small inputs of bindings."""
    own = (binding_inputs.chain, binding_inputs.pairs, binding_inputs.unread, binding_inputs.grouped, binding_inputs.fan)
    changed = (binding_inputs.bound_and_deleted, binding_inputs.read_and_deleted, binding_inputs.bound_and_unbound, binding_inputs.bound_again)
    for it in (*own, *changed, binding_inputs.bindings_listed, binding_inputs.diamonds):
        yield it.__name__, it(6, 8)
    yield "diamonds", binding_inputs.diamonds(40, 2)


def small_held() -> Iterator[Tuple[str, Iterable[Line]]]:
    """Small inputs of what memory is measured for."""
    of_few = (held_inputs.many_cells, held_inputs.many_events, held_inputs.many_joins, held_inputs.many_connections)
    yield from ((it.__name__, it(2, 5)) for it in of_few)
    yield "many_bindings", held_inputs.many_bindings(2, 5, 8)
    yield "many_calls", held_inputs.many_calls(2, 3, 5)
