"""Errors of bindings, as the inspector knows them: no line tells that one is over, so it has to find out."""

import unittest

from inspecting import graphs, views
from inspecting.classes import Classes
from inspecting.evaluating import Evaluation, InError, NotKnown, settle_errors
from inspecting.session import Binding
from inspecting.world import World

from .fronts import Client
from .inspected import hear
from .inspectors import InspectCases
from .test_inspect_model import CELLS, connecting, heard, setting
from .test_inspect_page import PageCases

LOOP, FAULT = "BindingLoop", "EvaluationError"


def binding(number, name, to):
    return {"do": "bind", "object": number, "property": name, "to": to}


def plus(one, other):
    return {"+": [one, other]}


def prop(name, of="self"):
    return {"prop": name, "of": of}


TWO = {"const": 2}
LOOPS = (binding(1, "x", plus(prop("y"), TWO)), binding(1, "y", plus(prop("x"), prop("x", 2))))  # x and y of 1 read each other


def errors_of(world):
    """The errors of a session, each with whether it is known to be there still."""
    return {spot: (cell.value, cell.is_sure) for spot, cell in world.sessions["a"].errors.items()}


class Over(unittest.TestCase):
    """Errors that are over, in sessions that the plain program answers."""

    def check(self, *commands, **left):
        """After some commands these errors are left, by the names of properties of object 1."""
        world, _ = heard(*CELLS, *commands)
        self.assertEqual(errors_of(world), {(1, name): value for name, value in left.items()})
        nodes = graphs.bindings(world.sessions["a"])["nodes"]
        shown = {it["name"]: (it["error"], it["error_sure"]) for it in nodes if it["error"]}
        self.assertEqual(shown, {f"#1.{name}": value for name, value in left.items()})
        return world

    def test_there(self):
        """An error is known once a warning has reported it, and as long as it lasts."""
        self.check(*LOOPS, x=(LOOP, True), y=(LOOP, True))
        self.check(*LOOPS, setting(2, "x", 7), x=(LOOP, True), y=(LOOP, True))
        self.check(binding(1, "z", prop("x", 2)), {"do": "delete", "object": 2}, {"do": "delete", "object": 3}, z=(FAULT, True))

    def test_written(self):
        """A write to one property of a loop ends the errors of all its properties, and their values are known."""
        world = self.check(*LOOPS, setting(1, "y", 4))
        self.assertEqual(world.sessions["a"].cells[1, "x"][::2], (6, True))

    def test_bound_anew(self):
        """A property whose new binding has a value is no longer in error, nor is what reads it."""
        world = self.check(*LOOPS, binding(1, "z", prop("x")), binding(1, "y", TWO))
        self.assertEqual([world.sessions["a"].cells[1, name].value for name in "xyz"], [4, 2, 4])

    def test_bound_to_error(self):
        """A property that is bound again to an expression with the same error stays in error, though no line says so."""
        self.check(*LOOPS, binding(1, "y", plus(prop("x"), TWO)), x=(LOOP, True), y=(LOOP, True))

    def test_unbound(self):
        """One that is not bound any more is in no error."""
        self.check(*LOOPS, {"do": "unbind", "object": 1, "property": "x"})

    def test_branch(self):
        """A loop through a branch of an `if` is over once that branch is no longer chosen."""
        loop = binding(1, "x", {"if": [prop("flag"), TWO, plus(prop("x"), TWO)]})
        self.check(loop, x=(LOOP, True))
        self.check(loop, setting(1, "flag", True))
        self.check(loop, setting(1, "flag", True), setting(1, "flag", False), x=(LOOP, True))

    def test_range(self):
        """A number out of range is an error up to the write that brings it back into the range."""
        over = binding(1, "x", plus(prop("y"), prop("z")))
        most = [setting(1, "y", 2**31 - 1), setting(1, "z", 1), over]
        self.check(*most, x=(FAULT, True))
        self.check(*most, setting(1, "z", 0))
        self.check(*most, setting(1, "z", 5), x=(FAULT, True))

    def test_group(self):
        """In a group no line says that an error is over, and it is still shown. After the group's end it is over."""
        begin, end = {"do": "begin"}, {"do": "end"}
        self.check(*LOOPS, begin, setting(1, "y", 4), x=(LOOP, False))
        self.check(*LOOPS, begin, setting(1, "y", 4), end)
        self.check(*LOOPS, begin, setting(1, "y", 4), LOOPS[1], end, x=(LOOP, True), y=(LOOP, True))

    def test_deleted(self):
        """The errors of an object go with it."""
        self.check(*LOOPS, {"do": "delete", "object": 1})


class Told(unittest.TestCase):
    """Errors that are known to be over only from what the server sends."""

    def world(self, *steps):
        """What is known where the class file is not, of commands with their answers."""
        world = World(Classes())
        hear(world, {"session": "a", "do": "new", "class": "Cell"}, [{"session": "a", "reply": 1}])
        warning = {"session": "a", "object": 1, "property": "x", "warning": FAULT}
        hear(world, {"session": "a", **binding(1, "x", prop("y"))}, [warning, {"session": "a", "reply": True}])
        for asked, reply in steps:
            hear(world, {"session": "a", "object": 1, **asked}, [{"session": "a", "reply": reply}])
        return errors_of(world)

    def test_asked(self):
        """An error is over where the command that asks for it answers null, or `get` another value than the default of a type."""
        ask, get = {"do": "bindingError", "property": "x"}, {"do": "get", "property": "x"}
        there, write = {(1, "x"): (FAULT, True)}, ({"do": "set", "property": "y", "value": 4}, True)
        self.assertEqual(self.world(), there)
        self.assertEqual(self.world(write), {(1, "x"): (FAULT, False)})
        self.assertEqual(self.world(write, (ask, FAULT)), there)
        self.assertEqual(self.world((ask, None)), {})
        for value in (1, -1, True, "t"):
            self.assertEqual(self.world((get, value)), {}, value)
        for value in (0, False, ""):
            self.assertEqual(self.world((get, value)), there, value)

    def test_signal(self):
        """It is over once a signal carries another value, though what the expression reads is not known."""
        read = {"do": "invoke", "object": 3, "method": "setX(int)", "args": [3]}
        functor = {"do": "connectFunctor", "sender": 3, "signal": "xChanged(int)", "context": 1, "functor": "count"}
        commands = [functor, connecting(1, 2, "seen(int)"), binding(1, "x", {"+": [prop("y"), {"const": 2**31 - 1}]}), setting(1, "y", 1)]
        world, _ = heard(*CELLS, *commands)
        self.assertEqual(errors_of(world), {(1, "x"): (FAULT, True)})
        session = world.sessions["a"]
        session.doubt_all("y")  # as where a slot may have written it
        session.doubt((1, "x"))
        settle_errors(world.classes, session, 99)
        self.assertEqual(errors_of(world), {(1, "x"): (FAULT, False)}, "nothing tells that it is over")
        told = {"session": "a", "call": "seen(int)", "object": 2, "sender": 1, "args": [2**31 - 1]}
        hear(world, {"session": "a", **read}, [
            {"session": "a", "call": "setX(int)", "object": 3, "sender": 0, "args": [3]},
            {"session": "a", "call": "count", "object": 1, "sender": 3, "args": [3]}, told, {"session": "a", "reply": True},
        ])  # fmt: skip
        self.assertEqual(errors_of(world), {})

    def test_doubtful(self):
        """An error that may be over is shown as doubtful, in the graph and with its object."""
        world, _ = heard(*CELLS, *LOOPS)
        session = world.sessions["a"]
        session.loosen((1, "y"))
        session.doubt((1, "x"))
        session.doubt((1, "y"))
        self.assertEqual({it["error_sure"] for it in graphs.bindings(session)["nodes"] if it["error"]}, {False})
        rows = {it["name"]: it["error"] for it in views.object_of(world, "a", 1)["properties"]}
        self.assertEqual((rows["x"][:2], rows["y"][:2]), ([LOOP, False], [LOOP, False]))


class Evaluated(unittest.TestCase):
    """The values of expressions."""

    def value(self, form, steps=1_000, **cells):
        """The value of z of a Cell that is bound to an expression, where others have these values."""
        world, _ = heard(*CELLS, *(setting(1, name, value) for name, value in cells.items()))
        session = world.sessions["a"]
        session.bind((1, "z"), Binding(form, (), 0))
        try:
            return Evaluation(world.classes, session, steps).value((1, "z"))
        except InError as error:
            return error.args[0]
        except NotKnown:
            return None

    def test_forms(self):
        """Each form has the value that docs/PROTOCOL.md gives it."""
        for form, value in (
            (plus(TWO, prop("x")), 7), ({"-": [TWO, prop("x")]}, -3), ({"if": [{"<": [prop("x"), TWO]}, TWO, prop("x")]}, 5),
            ({"if": [{"=": [prop("objectName"), {"const": "n"}]}, {"const": 1}, {"const": 0}]}, 1), ({"if": [{"const": 1}, TWO, TWO]}, FAULT),
            ({"const": "t"}, FAULT), ({"const": True}, FAULT), ({"cat": [{"const": 1}, TWO]}, FAULT), (plus(prop("flag"), TWO), FAULT),
            ({"const": 2**31}, FAULT), (plus({"const": 2**64 - 1}, {"const": 1}), FAULT), ({"if": [{"=": [{"const": True}, {"const": 1}]}, TWO, TWO]}, FAULT),
            (prop("z"), LOOP), (plus(prop("z"), {"const": "t"}), LOOP), ({"if": [prop("flag"), TWO, prop("z")]}, 2), (prop("x", 9), FAULT),
            ({"new form": [1]}, None), ({"+": [TWO]}, None), (5, None), (prop("nothing"), None),
        ):  # fmt: skip
            self.assertEqual(self.value(form, x=5, flag=True, objectName="n"), value, form)

    def test_steps(self):
        """Work that would take too long is left, and so is what is nested too deep."""
        wide = prop("x")
        for _ in range(5):
            wide = plus(wide, wide)
        self.assertEqual((self.value(wide, x=1), self.value(wide, 10, x=1)), (32, None))
        deep = prop("x")
        for _ in range(5_000):
            deep = plus(deep, TWO)
        world, _ = heard(*CELLS, *LOOPS)
        session = world.sessions["a"]
        session.bind((1, "y"), Binding(deep, ((1, "x"),), 0))
        session.doubt((1, "x"))
        settle_errors(world.classes, session, 9)
        self.assertEqual(errors_of(world), {(1, "x"): (LOOP, False), (1, "y"): (LOOP, False)})


class Shown(InspectCases):
    """What the page receives about a running server."""

    def test_graph(self):
        """The graph of bindings shows an error while it lasts, and no longer."""
        with self.shown() as (path, _, asker), Client(path) as client:
            client.ask('{"do":"new","class":"Cell"}')
            client.ask('{"do":"bind","object":1,"property":"x","to":{"prop":"y"}}')
            client.say('{"do":"bind","object":1,"property":"y","to":{"prop":"x"}}')
            self.assertEqual([("warning" in client.hear()) for _ in range(3)], [True, True, False])
            wanted = {"kind": "bindings", "session": "c1"}
            asker.until(self, lambda it: [node["error"] for node in it["nodes"]] == [LOOP, LOOP], "graph", **wanted)
            client.ask('{"do":"set","object":1,"property":"y","value":3}')
            found = asker.until(self, lambda it: [node["error"] for node in it["nodes"]] == [None, None], "graph", **wanted)
            self.assertEqual([node["name"] for node in found["nodes"]], ["#1.x", "#1.y"])


class Drawn(PageCases):
    """How the graph of bindings shows errors, in a browser."""

    def test_graph(self):
        """What is in error is red while it is known to be, and says where that may be over."""
        functor = {"do": "connectFunctor", "sender": 2, "signal": "xChanged(int)", "context": 3, "functor": "count"}
        over = binding(3, "x", plus(prop("y"), {"const": 2**31 - 1}))
        with self.shown() as (path, _, asker), Client(path) as client:
            self.give(client, [*CELLS, *LOOPS])
            with self.opened(asker.address + "#session=c1&view=graphs") as browser:
                red = "[...document.querySelectorAll('#graph .node.loop')].map((it) => it.dataset.node).sort().join()"
                browser.wait_for(f"{red} === '#1.x,#1.y'")
                self.assertIn(LOOP, browser.value("document.getElementById('graph').textContent"))
                self.give(client, [setting(1, "y", 4), functor, over])
                browser.wait_for(f"document.querySelectorAll('#graph .node').length > 3 && {red} === ''")
                self.assertNotIn(LOOP, browser.value("document.getElementById('graph').textContent"))
                self.give(client, [setting(2, "x", 1)])
                browser.wait_for(f"document.getElementById('graph').textContent.includes('{FAULT}, may be over') && {red} === ''")
                self.give(client, [{"do": "bindingError", "object": 3, "property": "x"}])
                browser.wait_for(f"{red} === '#3.x'")
