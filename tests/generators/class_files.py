"""Class files: those that the schema and the program have to take and those that both have to refuse, and random changes of
class files."""

import copy
import random

SIGNATURES = [
    *("f()", " f ( ) ", "f(void)", "f( void )", "f(int)", "f(QString const&)", "int(int)", "f(const int)"),
    *("f(int const)", "_9(const\tQString\n&)", "f(int  const &)", "f(bool,int , uint,qlonglong,\rqulonglong,QString)"),
    *("void(void)", "f(" + ",".join(10 * ["int"]) + ")", 64 * "n" + "()"),
]
NO_SIGNATURES = [
    *("", "f", "f(", "f)", "()", "f(int&)", "f(int,)", "f(,int)", "f(void,int)", "f(double)", "f(constint)"),
    *("f(const)", "f() x", "f(int) const", "f(const int&&)", "9f()", "ä()", "f g()", "f((int))", "f(const void)"),
    *("f(int int)", "f(const int const)", "f(" + ",".join(11 * ["int"]) + ")", 65 * "n" + "()", "f(\u00a0int)"),
]
ARG, NAME = {"arg": 0}, {"prop": "objectName"}
RIGHT_ACTIONS = [
    {"set": "objectName", "to": {"const": 4096 * "x"}},
    {"set": "objectName", "to": {"cat": [NAME, {**NAME, "of": {"child": ""}}]}, "of": 4294967295},
    {"emit": "told(int)", "args": [{"+": [ARG, {"-": [ARG, {"const": -9223372036854775808}]}]}]},
    {"emit": "told(int)", "args": [], "of": "sender"},
    {"connect": "told(int)", "to": 1, "method": "told( int )", "type": "queued", "unique": True, "of": "self"},
    {"connect": "told(int)", "to": "self", "method": "slot(int)", "single": False},
    *({"disconnect": None}, {"disconnect": "told(int)", "to": "self", "method": "slot(int)"}),
    *({"disconnect": None, "to": "sender"}, {"delete": "self"}, {"deleteLater": {"child": "a b"}}, {"block": True}),
    *({"setParent": None}, {"setParent": 7, "of": "sender"}),
    {"when": {"<": [ARG, {"const": 18446744073709551615}]}, "then": [{"block": False}], "else": []},
    {"when": {"=": [{"const": True}, {"if": [{"const": True}, {"const": False}, {"const": ""}]}]}, "then": []},
]
CONNECT = {"connect": "told(int)", "to": "self", "method": "slot(int)"}
WRONG_ACTIONS = [
    *({}, [], "delete", {"drop": "self"}, {"set": "objectName"}, {"set": "a b", "to": ARG}, {"set": "x", "to": 1}),
    *({"emit": "told(int)"}, {"emit": "told", "args": []}, {"emit": "told(int)", "args": ARG}),
    *({"emit": "told(int)", "args": [], "to": 1}, {"connect": "told(int)", "to": "self"}),
    *({**CONNECT, **changed} for changed in ({"type": "blocking"}, {"type": None}, {"unique": 1}, {"method": None})),
    *({"disconnect": "told(int)", "method": "slot(int)"}, {"disconnect": True}, {"disconnect": None, "to": None}),
    *({"delete": "other"}, {"delete": 0}, {"delete": 4294967296}, {"delete": None}, {"delete": "self", "of": "self"}),
    *({"deleteLater": {"child": 1}}, {"deleteLater": {"child": "c", "of": "self"}}, {"block": 1}, {"setParent": False}),
    *({"when": ARG}, {"when": ARG, "then": {}}, {"when": ARG, "then": [], "else": None}),
    {"when": ARG, "then": [], "of": "self"},
]
WRONG_EXPRESSIONS = [
    *(1, True, "x", None, [], {}, {"const": None}, {"const": 1.5}, {"const": []}, {"const": 4097 * "x"}),
    *({"const": 2**64}, {"const": -(2**63) - 1}, {"arg": -1}, {"arg": "0"}, {"arg": 10}, {"arg": 0, "of": "self"}),
    *({"prop": "a b"}, {"prop": "x", "of": "me"}, {"+": ARG}, {"+": [ARG]}, {"-": [ARG, ARG, ARG]}, {"<": []}),
    *({"=": [ARG, 1]}, {"if": [ARG, ARG]}, {"cat": [ARG, ARG], "of": 1}, {"*": [ARG, ARG]}),
]
WRONG_FILES = [1, [], {}, {"classes": {}}, {"classes": [1]}, {"classes": [], "$schema": "classes.schema.json"}]
WRONG_IN_CLASS = [
    *({"name": "a-b"}, {"name": 65 * "n"}, {"name": ""}, {"name": "QObject"}, {"super": 1}, {"super": None}),
    *({"slot": []}, {"signals": {}}, {"signals": None}, {"signals": ["f()", "f()"]}),
    *({"slots": [[]]}, {"slots": [{"sig": "f()"}]}),
]
WRONG_IN_PROPERTY = [
    *({"name": "objectName"}, {"name": "a b"}, {"type": "double"}, {"notify": "told(int,int)"}, {"notify": "told"}),
    *({"notify": None}, {"bindable": 0}, {"x": 1}),
]
MANY = [f"n{at}" for at in range(1025)]


def file_of(**more):
    """A class file with one class that has these members."""
    return {"classes": [{"name": "A", "super": "QObject", **more}]}


def slot_of(*actions):
    return file_of(signals=["told(int)"], slots=[{"sig": "slot(int)", "body": list(actions)}])


def properties_of(*properties, **more):
    return file_of(properties=list(properties), **more)


def right_files():
    """Class files that keep to the rules, each with its name."""
    told = {"name": "p", "type": "int", "notify": " told ( const int & ) ", "bindable": True}
    named = {"name": "q", "type": "QString", "notify": "destroyed()"}
    yield "no class", {"classes": []}
    yield "a class alone", file_of()
    yield "properties", properties_of(told, named, signals=["told(int)"])
    yield from ((f"signal {text!r}", file_of(signals=[text])) for text in SIGNATURES)
    yield from ((f"action {action}"[:80], slot_of(action)) for action in RIGHT_ACTIONS)
    last = {"set": "objectName", "to": {"arg": 9}}
    yield "the last of 10 arguments", file_of(slots=[{"sig": SIGNATURES[-2], "body": [last]}])
    yield "32 actions", slot_of(*32 * [{"block": True}])
    yield "31 actions in another", slot_of({"when": ARG, "then": 31 * [{"block": True}]})
    yield "253 signals", file_of(signals=[f"{name}()" for name in MANY[:253]])
    yield "63 properties", properties_of(*({"name": name, "type": "bool"} for name in MANY[:63]))
    yield "1,024 classes", {"classes": [{"name": name, "super": "QObject"} for name in MANY[:1024]]}


def wrong_files():
    """Class files with a fault that the schema can say, each with its name."""
    yield from ((f"the file {classes}", classes) for classes in WRONG_FILES)
    yield "a class without its superclass", {"classes": [{"name": "A"}]}
    yield from ((f"a class with {changed}", file_of(**changed)) for changed in WRONG_IN_CLASS)
    for changed in WRONG_IN_PROPERTY:
        made = {"name": "p", "type": "int", **changed}
        yield f"a property with {changed}", properties_of(made, signals=["told(int,int)"])
    yield "a property without its type", properties_of({"name": "p"})
    yield from ((f"signal {text!r}", file_of(signals=[text])) for text in NO_SIGNATURES)
    yield from ((f"action {action}"[:80], slot_of(action)) for action in WRONG_ACTIONS)
    yield from ((f"expression {it}"[:60], slot_of({"set": "objectName", "to": it})) for it in WRONG_EXPRESSIONS)
    yield "33 actions", slot_of(*33 * [{"block": True}])
    yield "32 actions in another", slot_of({"when": ARG, "then": [], "else": 32 * [{"block": True}]})
    yield "254 signals", file_of(signals=[f"{name}()" for name in MANY[:254]])
    yield "64 properties", properties_of(*({"name": name, "type": "bool"} for name in MANY[:64]))
    yield "1,025 classes", {"classes": [{"name": name, "super": "QObject"} for name in MANY]}


class Changes(random.Random):
    """Random changes of class files."""

    NUMBERS = (0, 1, -1, 1.5, 9, 32, 2**32, 2**64)
    TEXTS = ("", "x", "a b", "self", "f()", "f(int)", "int")
    VALUES = (*NUMBERS, *TEXTS, None, True, [], {}, [1], {"const": 1})

    def holders(self, value):
        """The arrays and objects of a value, itself among them."""
        inside = value.values() if isinstance(value, dict) else value if isinstance(value, list) else ()
        return ([value] if inside else []) + [it for part in inside for it in self.holders(part)]

    def changed(self, classes):
        classes = copy.deepcopy(classes)
        for _ in range(self.choice((1, 1, 2))):
            holder = self.choice(self.holders(classes))
            at = self.choice(list(holder)) if isinstance(holder, dict) else self.randrange(len(holder))
            self.choice((self.replace, self.replace, self.take, self.twice, self.rename))(holder, at)
        return classes

    def replace(self, holder, at):
        holder[at] = copy.deepcopy(self.choice(self.VALUES))

    def take(self, holder, at):
        if len(holder) > 1:
            del holder[at]

    def twice(self, holder, at):
        if isinstance(holder, list):
            holder.insert(at, copy.deepcopy(holder[at]))

    def rename(self, holder, at):
        if isinstance(holder, dict):
            holder[self.choice(("of", "to", "name", "body", "then", "arg", "prop", "x"))] = holder.pop(at)
