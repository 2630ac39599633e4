"""What a command changes of the objects of its session, by its reply or the code of its refusal, and by what it has called."""

from __future__ import annotations

from dataclasses import dataclass, field
from typing import Any, Collection, Sequence

from .asked import OBJECT_NAME, Asked, all_named_in, named_in, word_of
from .following import DELETE_LATER, Bodies, Called, Deed, followed, move, post
from .objects import ROOT, Met, Objects

FAILED = "E20"  # says that a session has failed, and holds nothing
FAILING = (FAILED, "E21")
LINE_CODES = ("E01", "E02", *FAILING)  # which say nothing of the objects that a command names


@dataclass
class Done:
    """A command that has ended: what it asked, its reply or else the code of its refusal, the slots and functors that were
    called meanwhile, and the objects whose actions were refused."""

    asked: Asked
    reply: Any = None
    error: str | None = None
    calls: Sequence[Called] = ()
    warned: Collection[int] = field(default_factory=set)
    is_known: bool = True  # whether it is a command of the protocol
    number: int = 0

    @property
    def word(self) -> str:
        """What it asked to do."""
        return word_of(self.asked)


def change(objects: Objects, done: Done, slots: Bodies | None = None) -> None:
    """A command was done or refused. `slots` says what slots do, where that is known. A `reset` is left to whoever keeps the
    sessions."""
    deeds = settle(objects, done, slots)
    if done.error is not None:
        refuse(objects, done)
    elif not done.is_known:
        objects.shake()  # nothing is known of what it does
    elif done.word != "reset":
        do(objects, done, deeds is None)
        move(objects, deeds or [])


def settle(objects: Objects, done: Done, slots: Bodies | None) -> list[Deed] | None:
    """Keeps what is still known after the command's calls; answers what they are known to have moved, or None where they
    may have changed anything."""
    deeds: list[Deed] | None = []
    if any(call.call != DELETE_LATER for call in done.calls):
        deeds = followed(slots, objects, done.word, done.calls, done.warned) if slots else None
    if deeds is None:
        objects.shake()
    post(objects, deeds or (), done.warned)
    objects.meet(call.object for call in done.calls)
    for call in done.calls:
        if call.call == DELETE_LATER and call.object in done.warned:
            objects.may_wait = True
        elif call.call == DELETE_LATER:
            objects.posted.add(call.object)
    return deeds


def lose(objects: Met, code: str | None) -> bool:
    """Whether a refusal says that the session has found no memory, and what follows for its objects."""
    if code in FAILING:
        objects.fail(is_certain=code == FAILED)
    return code in FAILING


def meet(objects: Met, done: Done) -> None:
    """What a command did to which objects there are."""
    if done.word == "new":
        objects.make(done.reply, done.asked["class"], done.asked.get("parent", ROOT))
    elif done.word == "delete":
        objects.delete(done.asked["object"])


def refuse(objects: Objects, done: Done) -> None:
    """What a refusal tells."""
    named = all_named_in(done.asked)
    if lose(objects, done.error):
        return
    if done.error == "E04" and len(named) == 1 and named[0] in objects.all():
        objects.remove(named[0])
    elif done.error not in (*LINE_CODES, "E04") and done.is_known:
        objects.stand(named_in(done.asked))


def do(objects: Objects, done: Done, was_shaken: bool) -> None:
    """What a command did that was not refused."""
    word, asked, reply, target = done.word, done.asked, done.reply, done.asked.get("object", ROOT)
    if asked.get("property") == OBJECT_NAME:
        tie(objects, word, target, reply)
    if word == "delete" or word == "new" and not was_shaken:
        meet(objects, done)
    elif word == "spin":
        objects.spin(reply["left"])
    elif word != "new" and not was_shaken:
        objects.stand(all_named_in(asked))
        tell(objects, word, asked, target, reply)


def tie(objects: Objects, word: str, target: int, reply: Any) -> None:
    """What a command did to the binding of an object's name."""
    if word == "bind":
        objects.bind(target)
    elif word == "unbind" or word == "set" and reply:
        objects.unbind(target)


def tell(objects: Objects, word: str, asked: Asked, target: int, reply: Any) -> None:
    """What a command did or replied that leaves objects in their places."""
    if word == "setParent":
        objects.put(target, asked["parent"] or ROOT)
    elif word == "deleteLater":
        objects.posted.add(target)
    elif word == "children":
        objects.list_below(target, reply)
    elif word in ("find", "findAll", "parent"):
        objects.stand(reply if word == "findAll" else [it for it in (reply,) if it is not None])
    elif word == "object" and reply["parent"] is not None:
        objects.stand([reply["parent"]])
    elif word == "status":
        objects.count(reply["objects"], reply["queued"])
    elif word in ("set", "get") and asked["property"] == OBJECT_NAME:
        name = reply if word == "get" else asked["value"]
        if isinstance(name, str):
            objects.name(target, name)
