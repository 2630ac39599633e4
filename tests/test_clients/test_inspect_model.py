"""What `inspect` knows of a server (clients/inspecting): compared with what the plain program knows, for random sessions,
and worked examples of what has led to calls."""

import json
from collections import Counter
from concurrent.futures import ProcessPoolExecutor

from inspecting import graphs, happened, views
from inspecting.classes import DEMONSTRATION, Classes, classes_of, file_in
from inspecting.entries import CALLS_MOST
from inspecting.forms import formula, reads_of

from tests.generators import bindings, mixed, sessions, signals
from tests.plain import classes as plain_classes
from tests.plain.lines import DEMONSTRATION as OF_ROWS
from tests.plain.world import Server
from tests.support.cases import Cases
from tests.support.seeds import SEED

from .inspected import claims_of, hear, world_of

ALONE = 30  # sessions of each kind
TOGETHER = 10  # runs of sessions that listen to each other
EACH = 10  # commands between two checks of the claims


def judged(world, server, counts):
    """The first claim of a world that is wrong, or None."""
    for claims in claims_of(world, server):
        counts.update(claims.counts)
        if claims.faults:
            return claims.faults[0]
    return None


def run(declared, steps, server):
    """Has a world hear some steps, and looks at what it claims; answers the first fault, and what was claimed."""
    world, counts = world_of(declared), Counter()
    for number, (command, lines) in enumerate(steps):
        hear(world, command, lines)
        fault = judged(world, server, counts) if number % EACH == 0 or number > 10_000 else None
        if fault:
            return f"{fault}, after command {number + 1}: {command} {lines}", counts
    return judged(world, server, counts), counts


def steps_of_one(made, server, number):
    """The commands of a random session with their output, as they are made."""
    session = server.session("a")
    for _ in range(number):
        command = {**made.command(session), "session": "a"}
        yield command, server.step(command)


def try_one(case):
    """What is wrong with what is known of a random session."""
    kind, seed = case
    made = kind(seed)
    declared, turns = list(made.classes()), made.choice(signals.TURNS)
    server = Server(plain_classes.Classes(declared), turns)
    return run(declared, steps_of_one(made, server, 300), server)


def steps_together(made, server, groups, number):
    for _ in range(number):
        name, sources = made.choice(list(made.choice(groups).items()))
        command = {**made.command_among(server, name, sources), "session": name}
        yield command, server.step(command)


def try_together(seed):
    """What is wrong with what is known of sessions that listen to each other."""
    made = mixed.Chance(seed)
    declared, turns = list(made.classes()), made.choice(signals.TURNS)
    server = Server(plain_classes.Classes(declared), turns)
    groups = [mixed.group_of(made, at) for at in range(3)]
    return run(declared, steps_together(made, server, groups, 600), server)


class Known(Cases):
    """What is known of random sessions."""

    def check_all(self, cases, do, wanted):
        tried = self.check_each(cases, do, lambda it: it[0], ProcessPoolExecutor)
        shown = Counter()
        for _, counts in tried:
            shown.update(counts)
        values, known = shown["values"], shown["a value"]
        self.tell(f"values known: {known:,} of {values:,}, connections known: {shown['connections that are known']:,}, counts of events: {shown['events']:,}")
        self.assertGreater(known, values * wanted, "too little is known")

    def test_sessions(self):
        """All that the inspector claims to know of random sessions is true."""
        kinds = [(f"{kind.__module__.rpartition('.')[2]} {seed}", (kind, seed)) for kind in (signals.Chance, bindings.Chance) for seed in range(SEED, SEED + ALONE)]
        self.check_all(kinds, try_one, 0.2)

    def test_sessions_together(self):
        """And of sessions that listen to each other."""
        self.check_all([(f"together {seed}", seed) for seed in range(SEED, SEED + TOGETHER)], try_together, 0.2)

    def test_sessions_in_turn(self):
        """All claims about a hundred sessions that take turns are true, and much is known of them."""
        server = Server(plain_classes.Classes(sessions.CLASSES))
        commands = [it for it in sessions.in_turn(listen=True) if int(it["session"][1:]) < 10]
        fault, counts = run(sessions.CLASSES, ((it, server.step(it)) for it in commands), server)
        self.assertIsNone(fault)
        self.assertGreater(counts["a value"], counts["values"] * 0.5)


CELLS = [{"do": "new", "class": "Cell"}] * 3


def heard(*commands, classes=None):
    """A world that has heard the commands of a session, which the plain program answers, and the last of them."""
    declared = classes or json.loads(OF_ROWS.read_text())["classes"]
    world, server = world_of(declared), Server(plain_classes.Classes(declared))
    for it in commands:
        command = {"session": "a", **it}
        hear(world, command, server.step(command))
    return world, world.entries.kept[-1]


def connecting(sender, receiver, method, signal="xChanged(int)", **more):
    return {"do": "connect", "sender": sender, "signal": signal, "receiver": receiver, "method": method, **more}


def setting(number, name, value):
    return {"do": "set", "object": number, "property": name, "value": value}


def nested(entry):
    """The calls of a command, each with the one that it was made in, and the last signal that has led to it."""
    return [(it.object, it.call, it.parent, it.path[-1][:2] if it.path else None, it.is_traced) for it in entry.calls]


class Causes(Cases):
    """What has led to calls, in worked examples."""

    def test_within_one_another(self):
        """The calls that a slot causes by setting a property are within its call. The next call of the same signal is next to it."""
        _, entry = heard(*CELLS, connecting(1, 2, "setX(int)"), connecting(1, 3, "seen(int)"), connecting(2, 3, "seen(int)"), setting(1, "x", 4))
        first, second = (1, "xChanged(int)"), (2, "xChanged(int)")
        self.assertEqual(nested(entry), [(2, "setX(int)", -1, first, True), (3, "seen(int)", 0, second, True), (3, "seen(int)", -1, first, True)])
        self.assertEqual([(it.object, it.signal, it.call, it.calls) for it in entry.emissions], [(1, first[1], -1, [0, 2]), (2, second[1], 0, [1])])

    def test_by_bindings(self):
        """What is bound to a property that is set calls what hears of it."""
        _, entry = heard(*CELLS, {"do": "bind", "object": 2, "property": "x", "to": {"prop": "y", "of": 1}}, connecting(2, 3, "seen(int)"), setting(1, "y", 4))
        self.assertEqual(nested(entry), [(3, "seen(int)", -1, (2, "xChanged(int)"), True)])

    def test_signals_that_call_signals(self):
        """The path to a call has all signals that have led to it, and the connections between them."""
        functor = {"do": "connectFunctor", "sender": 2, "signal": "xChanged(int)", "context": 3, "functor": "clamp"}
        world, entry = heard(*CELLS, connecting(1, 2, "xChanged(int)"), functor, setting(1, "x", 400))
        self.assertEqual(entry.calls[0].path, ((1, "xChanged(int)", None), (2, "xChanged(int)", 1)))
        self.assertEqual((entry.calls[0].call, entry.calls[0].connection), ("clamp", 2))
        steps = [(it["kind"], it.get("text")) for it in happened.chain(world, entry.number, 0)]
        self.assertEqual(steps[1:], [("signal", "xChanged(int)"), ("signal", "xChanged(int)"), ("call", "clamp")])

    def test_events(self):
        """A queued call has what has posted it: a signal, a command, or another session."""
        join = {"do": "join", "session": "b", "from": "a", "name": "level", "types": ["int"], "object": 1, "method": "seen(int)"}
        publish = {"do": "publish", "object": 1, "signal": "xChanged(int)", "name": "level"}
        later = {"do": "invoke", "object": 3, "method": "setX(int)", "args": [9], "type": "queued"}
        spins = [{"do": "spin"}, {"do": "spin", "session": "b"}]
        world, entry = heard(*CELLS, connecting(1, 2, "seen(int)", type="queued"), {**CELLS[0], "session": "b"}, join, publish, setting(1, "x", 4), later, *spins)
        spun = world.entries.get(entry.number - 1)
        self.assertEqual([(it.call, it.posted) for it in spun.calls], [("seen(int)", (8, -1, "a")), ("setX(int)", (9, -1, "a"))])
        self.assertEqual([(it.call, it.posted) for it in entry.calls], [("seen(int)", (8, -1, "a"))])
        self.assertEqual(world.entries.get(8).emissions[0].events, [(10, 0), (11, 0)])

    def test_not_known(self):
        """What fits nothing that is known is not said to have a cause."""
        world = world_of([])
        hear(world, {"session": "a", "do": "spin"}, [{"session": "a", "call": "f()", "object": 1, "sender": 2, "args": []}, {"session": "a", "reply": {"events": 1, "left": 0, "lost": 0, "mismatched": 0}}])  # noqa: E501
        self.assertEqual(nested(world.entries.kept[-1]), [(1, "f()", -1, None, False)])
        self.assertFalse(views.sessions(world, 0, 9, "", "name")["rows"][0]["objects"][1])


class Parts(Cases):
    """Formulas, graphs, and classes."""

    def test_formulas(self):
        """Expressions are formulas, and what they read is found."""
        for form, text, reads in (
            ({"prop": "x"}, "x", [(1, "x")]),
            ({"+": [{"prop": "x", "of": 2}, {"-": [{"prop": "y", "of": "self"}, {"const": 1}]}]}, "#2.x + (y − 1)", [(2, "x"), (1, "y")]),
            ({"if": [{"<": [{"prop": "x"}, {"const": 3}]}, {"const": "<b>"}, {"cat": [{"prop": "a"}, {"prop": "a"}]}]}, '(x < 3) ? "<b>" : (a & a)', [(1, "x"), (1, "a")]),
            ({"const": {"prop": "x"}}, '{"prop": "x"}', []),
        ):
            self.assertEqual((formula(form, 1), list(reads_of(form, 1))), (text, reads))

    def test_loops(self):
        """What leads to itself is in a loop, and nothing else is."""
        leads = {1: [2], 2: [3, 4], 3: [1], 4: [5], 5: [6], 6: [5, 7], 8: [8], 9: [1]}
        self.assertEqual(graphs.in_loops(leads), {1, 2, 3, 5, 6, 8})

    def test_classes(self):
        """The class file among the words of a server is found, and the demonstration classes are those of the program."""
        for words, path in (([], None), (["--turns", "5"], None), (["--turns=5", "a"], "a"), (["a", "--turns", "5"], "a"), (["--", "--turns"], "--turns")):
            self.assertEqual(file_in(words), path, words)
        self.assertEqual(json.loads(DEMONSTRATION.read_text()), json.loads(OF_ROWS.read_text()))
        self.assertEqual(sorted(classes_of([]).own), ["Cell", "Probe", "QObject"])
        self.assertFalse(classes_of(["no-such-file"]).is_whole)
        self.assertEqual(Classes().methods("Cell"), [])

    def test_bounds(self):
        """Only the newest commands are kept, and of one command only so many calls."""
        world = world_of([])
        world.entries.most = 10
        for _ in range(30):
            hear(world, {"session": "a", "do": "status"}, [{"session": "a", "error": "E21"}])
        self.assertEqual((world.entries.first(), world.entries.count, world.entries.get(20), world.entries.get(30).number), (21, 30, None, 30))
        call = {"session": "a", "call": "f()", "object": 1, "sender": 0, "args": []}
        hear(world, {"session": "a", "do": "spin"}, [call] * (CALLS_MOST + 5) + [{"session": "a", "reply": {"events": 2_005, "left": 0, "lost": 0, "mismatched": 0}}])
        hear(world, {"session": "b", "do": "invoke"}, [{"session": "b", "reply": True}])
        self.assertFalse(world.sessions["b"].is_known, "a command that was answered, though it is not valid")
        world.entries.kept.pop()
        self.assertEqual((len(world.entries.kept[-1].calls), world.entries.kept[-1].left_out), (CALLS_MOST, 5))
