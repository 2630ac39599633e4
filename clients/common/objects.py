"""What is known of the objects of a session, between commands: which there are, and their places in the trees.

`Met` keeps which objects were met and which have gone, `Objects` their places and names too, and `Living` the same without
a memory of those that have gone. `changes` says what each command does to them.
"""

from __future__ import annotations

from typing import Collection, Iterable, List

ROOT = 0  # stands for the parent of a root; no object has this number


class Misfit(Exception):
    """A line that is no answer to the command that it stands for."""


class Met:
    """The objects of a session that were met: the classes of those that were made, and which have gone."""

    def __init__(self) -> None:
        self.classes: dict[int, str] = {}
        self.gone: set[int] = set()

    def make(self, number: int, class_name: str, parent: int = ROOT) -> None:
        """An object was made."""
        self.classes[number] = class_name

    def tell_class(self, number: int, class_name: str) -> None:
        """The class of an object, which may have been made before anything was known."""
        self.classes[number] = class_name

    def delete(self, number: int) -> None:
        """An object was deleted."""
        self.gone.add(number)

    def fail(self, is_certain: bool) -> None:
        """The session has found no memory: if that is certain, all its objects are gone."""
        if is_certain:
            self.gone.update(self.classes)


class Objects(Met):
    """What is known of the objects of a session, between commands.

    A known parent is the object's parent if the object exists; of an object in `whole` all children that exist are known,
    in their order.
    """

    def __init__(self) -> None:
        super().__init__()
        self.last = 0  # the highest number that is known to have been given
        self.names: dict[int, str] = {}
        self.bound: set[int] = set()  # those whose names are bound, so that they change with other properties
        self.parents: dict[int, int] = {}
        self.below: dict[int, list[int]] = {ROOT: []}
        self.whole = {ROOT}
        self.sure: set[int] = set()  # those that stand for certain
        self.posted: set[int] = set()  # those whose deletion waits, or that are gone already
        self.may_wait = False  # whether deletions of any others may wait
        self.failed = False
        self.has_earlier = False  # whether there were objects before the transcript began

    # ---- their names ----

    def name(self, number: int, name: str) -> None:
        """An object has this name, which stays where it is not bound."""
        if number not in self.bound:
            self.names[number] = name

    def forget_name(self, number: int | None) -> None:
        """The name of an object is not known any more; without its number that of any."""
        if number is None:
            self.names = {}
        else:
            self.names.pop(number, None)

    def bind(self, number: int) -> None:
        """The name of an object is bound. No slot binds one."""
        self.bound.add(number)
        self.names.pop(number, None)

    def unbind(self, number: int) -> None:
        self.bound.discard(number)

    # ---- their places ----

    def put(self, number: int, parent: int) -> None:
        """An object, if it exists, is a child of this one, its newest if it was not before."""
        if self.parents.get(number) == parent:
            return
        if number in self.tree_above(parent):
            raise Misfit
        self.take(number)
        self.parents[number] = parent
        self.below.setdefault(parent, []).append(number)

    def take(self, number: int) -> None:
        if number in self.parents:
            self.below[self.parents.pop(number)].remove(number)

    def tree_above(self, number: int) -> list[int]:
        """An object and those that are known to be above it."""
        above = [number]
        while above[-1] in self.parents:
            above.append(self.parents[above[-1]])
        return above

    def tree_below(self, number: int) -> list[int]:
        """An object and those that are known to be below it."""
        found = [number]
        for it in found:
            found += self.below.get(it, [])
        return found

    def child(self, number: int, name: str) -> int | None:
        """The object of this name that is certainly below another one, where it is known which that is, or None."""
        level = [number]
        while level and self.whole.issuperset(level):
            level = [it for above in level for it in self.below.get(above, [])]
            if not self.names.keys() >= set(level):
                return None
            named = [it for it in level if self.names[it] == name]
            if named:
                return named[0] if named[0] in self.sure else None
        return None

    def all(self) -> list[int]:
        """The objects that may exist, by number."""
        return sorted(self.classes.keys() - self.gone)

    def adrift(self) -> list[int]:
        """The objects that may exist at an unknown place."""
        return [it for it in self.all() if it not in self.parents]

    # ---- whether they exist ----

    def meet(self, numbers: Iterable[int]) -> None:
        """These objects are named, and so were made before."""
        self.has_earlier = self.has_earlier or any(number > self.last for number in numbers)

    def stand(self, numbers: Collection[int]) -> None:
        self.meet(numbers)
        for number in numbers:
            above = [it for it in self.tree_above(number) if it != ROOT]
            if self.gone.intersection(above):
                raise Misfit
            self.sure.update(above)

    def make(self, number: int, class_name: str, parent: int = ROOT) -> None:
        self.has_earlier = self.has_earlier or number != self.last + 1
        self.last = max(self.last, number)
        super().make(number, class_name)
        self.names[number] = ""
        self.put(number, parent)
        self.whole.add(number)
        self.stand([number])

    def remove(self, number: int) -> None:
        """An object is gone, and what is known to have been below it."""
        for it in self.tree_below(number):
            self.gone.add(it)
            self.sure.discard(it)
            self.whole.discard(it)
        self.take(number)

    def delete(self, number: int) -> None:
        """An object was deleted, with all below it, and nothing else was done."""
        self.remove(number)
        self.doubt(self.adrift())

    def doubt(self, numbers: Iterable[int]) -> None:
        """It is no longer known that these exist, and what is below them."""
        for number in numbers:
            self.sure.difference_update(self.tree_below(number))

    # ---- what is said about them ----

    def shake(self) -> None:
        """Slots may have moved, named and deleted any object, and asked for deletions."""
        self.parents, self.below, self.names = {}, {}, {}
        self.whole, self.sure, self.may_wait = set(), set(), True

    def list_below(self, parent: int, numbers: Collection[int]) -> None:
        """The children of an object, or the roots, are exactly these."""
        for number in set(self.below.get(parent, [])).difference(numbers):
            self.remove(number)
        for number in numbers:
            self.put(number, parent)
            self.stand([number])
        self.below[parent] = list(numbers)
        self.whole.add(parent)
        if self.whole.issuperset(self.tree_below(ROOT)):
            for number in self.adrift():
                self.remove(number)

    def spin(self, left: int) -> None:
        """Events were taken, until so many were left."""
        if self.may_wait:
            self.sure.clear()
        if left:
            self.doubt([*self.posted, *(self.adrift() if self.posted else ())])
            return
        for number in self.posted - self.gone:
            self.delete(number)
        self.forget_events()

    def forget_events(self) -> None:
        self.posted, self.may_wait = set(), False

    def count(self, objects: int, queued: int) -> None:
        """So many objects exist, and so many events wait."""
        if queued == 0:
            self.forget_events()
        if objects == len(self.sure):
            for number in [it for it in self.all() if it not in self.sure]:
                self.remove(number)
        elif objects == len(self.all()):
            self.stand(self.all())
        self.has_earlier = self.has_earlier or objects > len(self.all())

    def fail(self, is_certain: bool) -> None:
        """All is gone. Without objects before, it may be that the session was not entered, and has not failed."""
        self.failed = is_certain or bool(self.classes)
        for number in self.all():
            self.remove(number)


class Living(Objects):
    """What is known of the objects of a session, without a memory of those that have gone."""

    def __init__(self) -> None:
        super().__init__()
        self.lost: List[int] = []  # objects that have gone, and were not looked at yet

    def tell_class(self, number: int, class_name: str) -> None:
        super().tell_class(number, class_name)
        self.last = max(self.last, number)
        self.stand([number])

    def remove(self, number: int) -> None:
        gone = self.tree_below(number)
        super().remove(number)
        for it in gone:
            self.classes.pop(it, None)
            self.names.pop(it, None)
            self.parents.pop(it, None)
            self.below.pop(it, None)
            self.posted.discard(it)
            self.bound.discard(it)
        self.gone.clear()
        self.lost += gone
