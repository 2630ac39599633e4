"""Expressions: their form in a binding, what they read, and their results."""

from .values import NUMBERS, Refused, is_known_by, is_long, is_name, is_number, is_text, is_value, refuse

NODES = 64
OPERANDS = {"+": 2, "-": 2, "<": 2, "=": 2, "cat": 2, "if": 3}


# Form.


def binding_of(json):
    """The expression of a binding that a piece of JSON is. Faults of form come before limits, wherever they are."""
    if not is_expression(json):
        refuse("E22")
    if sum(1 for _ in nodes_of(json)) > NODES or any(is_long(it.get("const")) for it in nodes_of(json)):
        refuse("E14")
    return json


def is_expression(json):
    """Whether a piece of JSON has the form of an expression that a binding may have."""
    if not isinstance(json, dict):
        return False
    if "prop" in json:
        return json.keys() <= {"prop", "of"} and is_name(json["prop"]) and is_target(json.get("of", "self"))
    if len(json) != 1:
        return False
    [(key, held)] = json.items()
    if key == "const":
        return is_value(held)
    return isinstance(held, list) and len(held) == OPERANDS.get(key) and all(map(is_expression, held))


def is_target(json):
    """Whether a binding may read of this: of its own object, or of one by its number."""
    return json == "self" or is_known_by(json)


def nodes_of(form):
    """An expression and all those that it is made of, in the order in which they are written."""
    yield form
    for key in OPERANDS.keys() & form.keys():
        for part in form[key]:
            yield from nodes_of(part)


def reads_of(form):
    """What an expression may read, each a target and a name, in the order in which they are written."""
    return [(it.get("of", "self"), it["prop"]) for it in nodes_of(form) if "prop" in it]


def shortest(form):
    """An expression in its shortest form: without `"of":"self"`."""
    if "prop" in form:
        return {key: it for key, it in form.items() if (key, it) != ("of", "self")}
    return {key: list(map(shortest, it)) if key in OPERANDS else it for key, it in form.items()}


# Value.


def evaluated(form, args, read, state=None):
    """The result of an expression over these arguments and the state of a functor, where `read` answers what a property
    is, from left to right. The first fault ends it; of `if` only the branch that is chosen counts."""
    if "const" in form:
        return form["const"]
    if "arg" in form:
        return args[form["arg"]]
    if "state" in form:
        return refuse("E22") if state is None else state
    if "prop" in form:
        return read(form.get("of", "self"), form["prop"])
    [(operator, parts)] = form.items()
    if operator == "if":
        test = evaluated(parts[0], args, read, state)
        return evaluated(parts[1 if test else 2], args, read, state) if isinstance(test, bool) else refuse("E22")
    return computed(operator, *[evaluated(part, args, read, state) for part in parts])


def next_state(form, args, state):
    """The state of a functor after a call: the result of its expression, where that is a whole number of 64 bits without
    sign, and else the same."""
    try:
        found = evaluated(form, args, lambda target, name: refuse("E04"), state)
    except Refused:
        return state
    return found if is_number(found) and 0 <= found <= NUMBERS[1] else state


def computed(operator, a, b):
    """What an operator makes of two values."""
    numbers = is_number(a) and is_number(b)
    texts = is_text(a) and is_text(b)
    truths = isinstance(a, bool) and isinstance(b, bool)
    if operator == "=" and (numbers or texts or truths):
        return a == b
    if operator == "<" and numbers:
        return a < b
    if operator in "+-" and numbers:
        made = a + b if operator == "+" else a - b
        return made if NUMBERS[0] <= made <= NUMBERS[1] else refuse("E22")
    if operator == "cat" and texts:
        return refuse("E14") if is_long(a + b) else a + b
    return refuse("E22")
