"""What the replies to commands mean: each function is given what a command asked and what it was replied."""

from __future__ import annotations

from typing import Any, Dict, Sequence

from common.asked import OBJECT_NAME, Asked

from .expressions import spelled
from .reads import sought_by
from .words import arguments, counted, in_error, listed, misfit, plain, shown


def said_of_new(asked: Asked, reply: Any) -> str:
    place = f"below {asked['parent']}" if "parent" in asked else "a root"
    return f"object {reply} is made, of class {plain(asked['class'])}, {place}"


def said_of_delete(asked: Asked, reply: Any) -> str:
    return f"object {asked['object']} is deleted, with all that was still below it"


def said_of_delete_later(asked: Asked, reply: Any) -> str:
    return f"the deletion of object {asked['object']} waits as an event"


def said_of_set_parent(asked: Asked, reply: Any) -> str:
    parent = asked["parent"]
    return f"object {asked['object']} is {'a root' if parent is None else f'below {parent}'}"


def said_of_children(asked: Asked, reply: Any) -> str:
    if "object" not in asked:
        roots = "roots are" if len(reply) > 1 else "root is"
        return f"the {roots} {listed(reply)}" if reply else "there is no object"
    if not reply:
        return f"object {asked['object']} has no children"
    return f"object {asked['object']} has the {'children' if len(reply) > 1 else 'child'} {listed(reply)}"


def said_of_find(asked: Asked, reply: Any) -> str:
    first = "there is no object" if reply is None else f"object {reply} is the first"
    return f"{first}{sought_by(asked)} below object {asked['object']}"


# ---- properties ----


def said_of_set(asked: Asked, reply: Any) -> str:
    """True says that the class declares the property, false that it does not or that nothing was to be written."""
    name, value = property_of(asked), asked["value"]
    if value is None:
        return misfit() if reply else said_of_null(asked["property"], name)
    if reply:
        return f"{name} was set to {shown(value)}"
    return misfit() if asked["property"] == OBJECT_NAME else f"the dynamic property {name} was set to {shown(value)}"


def said_of_null(declared: str, name: str) -> str:
    if declared == OBJECT_NAME:
        return f"{name} is left as it is, since null is no value"
    return f"null leaves {name} as it is where the class declares it, and else takes it away"


def said_of_get(asked: Asked, reply: Any) -> str:
    if reply is None:
        return f"object {asked['object']} has no property {plain(asked['property'])}"
    return f"{property_of(asked)} is {shown(reply)}"


def said_of_dynamic_names(asked: Asked, reply: Any) -> str:
    target, names = f"object {asked['object']}", listed(map(plain, reply))
    if len(reply) > 1:
        return f"the dynamic properties of {target} are {names}, that first set first"
    return f"{target} has the dynamic property {names}" if reply else f"{target} has no dynamic property"


# ---- bindings and groups ----


def property_of(asked: Asked) -> str:
    return f"{plain(asked['property'])} of object {asked['object']}"


def said_of_bind(asked: Asked, reply: Any) -> str:
    return f"{property_of(asked)} is bound to: {spelled(asked['to'])}"


def said_of_unbind(asked: Asked, reply: Any) -> str:
    now = "is not bound any more, and keeps the value that it had" if reply else "was not bound"
    return f"{property_of(asked)} {now}"


def said_of_binding_error(asked: Asked, reply: Any) -> str:
    return f"{property_of(asked)} is in {'no error' if reply is None else f'error, {in_error(reply)}'}"


def said_of_begin(asked: Asked, reply: Any) -> str:
    return f"{groups(reply)}; changes of properties are announced when the outermost one ends"


def said_of_end(asked: Asked, reply: Any) -> str:
    return f"{groups(reply)}; {'what has changed is announced when the outermost one ends' if reply else 'what had changed has been announced'}"


def groups(number: int) -> str:
    return f"{counted(number, 'group')} {'are' if number > 1 else 'is'} open now"


# ---- signals, slots and events ----


def said_of_connect(asked: Asked, reply: Any) -> str:
    return connected_to(f"{plain(asked['method'])} of object {asked['receiver']}", asked, reply)


def said_of_connect_functor(asked: Asked, reply: Any) -> str:
    return connected_to(f"the functor {plain(asked['functor'])} for object {asked['context']}", asked, reply)


def connected_to(called: str, asked: Asked, reply: int) -> str:
    """The connection of a signal to what it calls."""
    does = "posts a call of" if asked.get("type") == "queued" else "calls"
    signal = f"{plain(asked['signal'])} of object {asked['sender']}"
    return f"connection {reply} is made: {signal} {does} {called}{', once' if asked.get('single') else ''}"


def said_of_disconnect(asked: Asked, reply: Any) -> str:
    if "connection" in asked:
        return f"connection {asked['connection']} {'is broken' if reply else 'does not exist'}"
    signal = f"{plain(asked['signal'])} of " if "signal" in asked else ""
    method = f"{plain(asked['method'])} of " if "method" in asked else ""
    end = f" to {method}object {asked['receiver']}" if "receiver" in asked else ""
    broken = f"{counted(reply, 'connection')} {'are' if reply > 1 else 'is'} broken"
    return f"{broken}, from {signal}object {asked['sender']}{end}"


def said_of_invoke(asked: Asked, reply: Any) -> str:
    method, target = plain(asked["method"]), f"object {asked['object']}"
    if not reply:
        return f"{target} has no method {method}, and nothing is done"
    if asked.get("type") == "queued":
        priority = f" of priority {asked['priority']}" if "priority" in asked else ""
        return f"{method} of {target} waits as an event{priority}, {arguments(asked['args'])}"
    return f"{method} of {target} was called or sent, {arguments(asked['args'])}"


def said_of_block(asked: Asked, reply: Any) -> str:
    now = "are blocked now" if asked["on"] else "are let through now"
    return f"the signals of object {asked['object']} {now}; before, they were {'' if reply else 'not '}blocked"


def lost_of(reply: Dict[str, int]) -> str:
    """What is counted from the first command of the session on."""
    lost, mismatched = counted(reply["lost"], "call"), counted(reply["mismatched"], "post")
    return f"since the session began {lost} lost, {mismatched} mismatched"


def said_of_spin(asked: Asked, reply: Any) -> str:
    return f"{counted(reply['events'], 'event')} taken, {reply['left'] or 'none'} left; {lost_of(reply)}"


def said_of_status(asked: Asked, reply: Any) -> str:
    said = f"the session has {counted(reply['objects'], 'object')} and {counted(reply['connections'], 'connection')}"
    told = {"objects", "connections", "queued", "lost", "mismatched"}
    further = [f"{plain(key)} {shown(value)}" for key, value in reply.items() if key not in told and value != 0]
    rest = f"; {listed(further)}" if further else ""
    return f"{said}, and {counted(reply['queued'], 'event')} in its queue; {lost_of(reply)}{rest}"


# ---- publications and joins ----


def said_of_publish(asked: Asked, reply: Any) -> str:
    return f"{plain(asked['signal'])} of object {asked['object']} is published as {plain(asked['name'])}"


def said_of_unpublish(asked: Asked, reply: Any) -> str:
    return f"nothing is published as {plain(asked['name'])} any more" if reply else f"nothing was published as {plain(asked['name'])}"


def said_of_join(asked: Asked, reply: Any) -> str:
    types = f"with the types {listed(asked['types'])}" if asked["types"] else "without arguments"
    return f"{publication_of(asked)}, {types}, is joined by {plain(asked['method'])} of object {asked['object']}"


def said_of_leave(asked: Asked, reply: Any) -> str:
    now = "is not joined any more" if reply else "was not joined"
    return f"{publication_of(asked)} {now} by {plain(asked['method'])} of object {asked['object']}"


def publication_of(asked: Asked) -> str:
    return f"{plain(asked['name'])} of session {plain(asked['from'])}"


def said_of_reset(asked: Asked, reply: Any) -> str:
    return "the session is as it is before its first command"


# ---- classes ----


def members_of(names: Sequence[str], offset: int, word: str, many: str) -> str:
    """The methods or properties of a class: how many there are, and which are its own."""
    said, own = f"{len(names) or 'no'} {word if len(names) == 1 else many}", names[offset:]
    return f"{said}, its own: {', '.join(map(plain, own))}" if own else f"{said}, none its own"


def said_of_meta(asked: Asked, reply: Any) -> str:
    above = "the class of all classes" if reply["super"] is None else f"below {plain(reply['super'])}"
    methods = members_of(reply["methods"], reply["methodOffset"], "method", "methods")
    properties = members_of(reply["properties"], reply["propertyOffset"], "property", "properties")
    return f"class {plain(reply['class'])}, {above}; {methods}; {properties}"
