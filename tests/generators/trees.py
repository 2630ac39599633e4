"""Sessions with trees of objects: deep and wide ones that are deleted whole, from the middle and from the end, and many
small ones of random commands."""

import random

from tests.plain.classes import Classes
from tests.support.limits import LEVELS, OBJECTS

CLASSES = ("QObject", "Cell", "Probe")
CLASSES_THERE = Classes([{"name": name, "super": "QObject"} for name in CLASSES[1:]])
KINDS = {"new": 9, "delete": 1, "deleteLater": 1, "spin": 1, "status": 1, "setParent": 4, "children": 3, "find": 4, "set": 2, "get": 1, "findAll": 3, "parent": 3, "object": 3}
CHANCES = 300
COMMANDS = 120


def by_chance(seed):
    """Commands of two sessions. Most name objects that are there."""
    chance, made = random.Random(seed), {"a": 0, "b": 0}
    for _ in range(COMMANDS):
        session = chance.choice("aab")
        one, other = (chance.randint(1, made[session] + 1) for _ in range(2))
        kind = chance.choices(list(KINDS), KINDS.values())[0]
        command = {"do": kind, "session": session}
        if kind not in ("new", "spin", "status") and (kind != "children" or chance.random() < 0.8):
            command["object"] = one
        if kind == "new":
            command["class"] = chance.choice(CLASSES + ("Nope",)) if chance.random() < 0.5 else "QObject"
            if chance.random() < 0.8:
                command["parent"] = other
            made[session] += 1
        if kind == "setParent":
            command["parent"] = other if chance.random() < 0.8 else None
        if kind in ("find", "findAll"):
            command |= {key: chance.choice(of) for key, of in (("name", "xyz"), ("class", CLASSES)) if chance.random() < 0.6}
        if kind in ("set", "get"):
            command["property"] = "objectName"
        if kind == "set":
            command["value"] = chance.choice("xy")
        yield command


def new(parent):
    command = {"class": "QObject", "do": "new", "session": "a"}
    return command if parent is None else command | {"parent": parent}


def delete(number):
    return {"do": "delete", "object": number, "session": "a"}


def whole_trees():
    """Trees by the parents of their objects, each with the orders in which it is deleted."""
    chain = [None, *range(1, LEVELS)]
    wide = [None] + [1] * (OBJECTS - 1)
    bushy = [None] + [1 + place // 4 for place in range(1_023)]
    comb = [None] + [number - number % 2 or 1 for number in range(1, 2 * LEVELS - 4)]
    for name, parents in (("a chain", chain), ("a wide tree", wide), ("a bushy tree", bushy), ("a comb", comb)):
        count = len(parents)
        yield f"{name}, from its root", parents, [1]
        yield f"{name}, from its middle", parents, [count // 2, 1]
        yield f"{name}, from its end", parents, range(count, max(count - 200, 0), -1)


def sessions():
    """The commands of each session, with its name."""
    for name, parents, order in whole_trees():
        looks = [{"do": "children", "session": "a"}, {"do": "children", "object": 1, "session": "a"}]
        goes = [line for number in order for line in (delete(number), *looks)]
        yield name, [new(parent) for parent in parents] + goes + [new(None)]
    for seed in range(CHANCES):
        yield f"random, {seed}", list(by_chance(seed))
