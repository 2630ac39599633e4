"""What a session of a server holds, and the commands that make it again in a server that has just begun."""

from __future__ import annotations

import json
from dataclasses import dataclass
from typing import Any, Dict, List, Sequence

from metad.asking import Asked
from metad.dumping import Snapshot, commands_of, snapshot

from .serving import Kept, Server

ROOT_CLASS = "QObject"
ENDS = {"signal": "destroyed()", "method": "deleteLater()"}

Command = Dict[str, Any]


def line_of(session: str, do: str, **keys: Any) -> bytes:
    """A command of a session as a line."""
    return json.dumps({"do": do, **keys, "session": session}, separators=(",", ":"), sort_keys=True).encode()


def reply_in(do: str, answer: Sequence[bytes]) -> Any:
    """The reply that an answer is. Anything else keeps the record as it is."""
    told = json.loads(answer[-1])
    if len(answer) > 1:
        raise Kept(f"{do} calls or warns")
    if "reply" not in told:
        raise Kept(f"{do} is answered {told.get('error')}")
    return told["reply"]


@dataclass
class Contents:
    """What a session holds, and the lines in which a server says so."""

    session: str
    shot: Snapshot
    told: List[bytes]


def keys_of(asked: Asked[Any]) -> Dict[str, Any]:
    """The keys of a command as the protocol has them: those that are words of Python have an underscore there."""
    return {key.rstrip("_"): value for key, value in asked.keys.items()}


def contents_of(server: Server, session: str) -> Contents:
    """Asks for what a session holds."""
    steps, told = snapshot(), []
    asked = next(steps)
    while True:
        answers = server.ask([line_of(session, it.do, **keys_of(it)) for it in asked])
        told += [line for answer in answers for line in answer]
        replies = [reply_in(it.do, answer) for it, answer in zip(asked, answers)]
        try:
            asked = steps.send(replies)
        except StopIteration as end:
            return Contents(session, end.value, told)


@dataclass
class Numbers:
    """The numbers that the next object and the next connection of a session get."""

    object: int
    connection: int


def numbers_of(server: Server, session: str) -> Numbers:
    """Finds the next numbers by making an object and a connection."""
    made = reply_in("new", server.ask([line_of(session, "new", **{"class": ROOT_CLASS})])[0])
    connect = line_of(session, "connect", sender=made, receiver=made, **ENDS)
    return Numbers(made, reply_in("connect", server.ask([connect])[0]))


def makings(held: Contents, numbers: Numbers) -> List[bytes]:
    """The commands that make what a session holds, so that the next numbers are these too."""
    made = commands_of(held.shot)
    begins = [it for it in made if it["do"] == "begin"]
    made = [it for it in made if it["do"] != "begin"]
    made += skipping(held, made, numbers) + begins
    return [line_of(held.session, it["do"], **{key: value for key, value in it.items() if key != "do"}) for it in made]


def skipping(held: Contents, made: Sequence[Command], numbers: Numbers) -> List[Command]:
    """Commands that use up numbers of objects and connections that are there no more."""
    objects = sum(it["do"] == "new" for it in made)
    connections = sum(it["do"] in ("connect", "connectFunctor") for it in made)
    more: List[Command] = []
    host = max(held.shot.objects, default=objects + 1)
    if numbers.object > objects + 1:
        host = objects + 1
        more.append({"do": "new", "class": ROOT_CLASS})
    for number in range(connections + 1, numbers.connection):
        more.append({"do": "connect", "sender": host, "receiver": host, **ENDS})
        more.append({"do": "disconnect", "connection": number})
    for number in range(objects + 1, numbers.object):
        if number > objects + 1:
            more.append({"do": "new", "class": ROOT_CLASS})
        more.append({"do": "delete", "object": number})
    return more
