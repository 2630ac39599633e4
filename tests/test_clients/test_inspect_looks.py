"""What the inspector asks on its own (clients/inspecting), instead of showing that something is not known.

What has to be known then is what the plain program knows.
"""

import json
import shutil
import subprocess
from pathlib import Path
from tempfile import TemporaryDirectory

from inspecting import views
from inspecting.classes import Classes
from inspecting.looking import MOST, Looks, Pace
from inspecting.world import World

from tests.generators import mixed
from tests.plain import classes as plain_classes
from tests.plain.world import Server
from tests.support.cases import Cases
from tests.support.program import SECONDS
from tests.support.seeds import SEED

from . import CLIENTS
from .fronts import Client
from .inspected import claims_of, hear, world_of
from .inspectors import InspectCases

RUNS, COMMANDS, TURNS = 12, 150, 20
ROUNDS = 20  # of looks, after which all has to be known
PLENTY = 10**6
LOOKING = CLIENTS / "inspecting" / "page" / "looking.js"
SCRIPT = """
import { Look } from "./looking.mjs";
const said = [], pauses = [], later = [];
const answers = [{ asked: 5, left: 2 }, { asked: 0, left: 2 }];
const look = new Look(
  async (name, place) => { said.push([name, place]); return answers.shift(); },
  (next, pause) => { pauses.push(pause); later.push(next); },
);
const settle = () => new Promise((done) => setTimeout(done, 0));
look.at({ session: "c1", object: 1 }, "object");
look.at({ session: "c1" }, "tree");
look.at(null, "tree");
await settle();
later.shift()();
await settle();
look.at({ session: "c1", object: 1 }, "object");
await settle();
later.shift()();
await settle();
console.log(JSON.stringify([said, pauses, later.length]));
"""


def answered_by(world, server):
    """What a session is asked for the inspector, answered by the plain program; and the words that were asked."""
    words = []

    def ask(name, command):
        given = {**json.loads(command), "session": name}
        words.append(given["do"])
        hear(world, given, server.step(given))
        return world.entries.kept[-1]

    return ask, words


def look_fault(case):
    """What is wrong with what is known of the sessions of a run once all was asked that is wanted, or None."""
    seed, has_classes = case
    made = mixed.Chance(seed)
    declared = list(made.classes())
    server = Server(plain_classes.Classes(declared), TURNS)
    world = world_of(declared) if has_classes else World(Classes(None))
    for command in mixed.run_of(made, Server(plain_classes.Classes(declared), TURNS), 1, COMMANDS).commands():
        hear(world, command, server.step(command))
    ask, _ = answered_by(world, server)
    looks = Looks(ask, Pace(PLENTY))
    for name, plain in list(server.sessions.items()):
        if name not in world.sessions:
            continue
        for number in (None, *(row.number for row in plain.rows)):
            for _ in range(ROUNDS):
                if not looks.look(world, name, number)["left"]:
                    break
        faults = [*not_known(world, name, plain), *(it.faults[0] for it in claims_of(world, server) if it.faults)]
        if faults:
            return f"{name}: {faults[0]}"
    return None


def members_shown(world, name, plain, row):
    """What the page shows of the class of an object, and what the class file declares."""
    found = views.object_of(world, name, row.number)
    declared, chain = plain.classes, list(plain.classes.chain(row.class_name))
    methods = [(of, it) for of in reversed(chain) for it in declared.own_methods[of]]
    kinds = {(it.text, "signal" if it.is_signal else "slot", of) for of, it in methods}
    types = {it.name: (it.kind, False) for it in declared.properties(row.class_name)}
    shown = (found["chain"], {(it["text"], it["kind"], it["of"]) for it in found["methods"]}, {it["name"]: (it["type"], it["dynamic"]) for it in found["properties"]})
    return shown, (chain, kinds, {**dict.fromkeys(row.dynamic, (None, True)), **types})


def not_known(world, name, plain):
    """What is not known of a session."""
    shown = world.sessions[name]
    objects = shown.objects
    for row in plain.rows:
        members, declared = members_shown(world, name, plain, row)
        if members != declared:
            yield f"the members of {row.number} are shown as {members}, and not {declared}"
    for row in plain.rows:
        if objects.classes.get(row.number) != row.class_name or row.number not in objects.sure:
            yield f"object {row.number} is not known: {objects.classes.get(row.number)}"
        if shown.blocked.get(row.number, False) != row.blocked:
            yield f"whether object {row.number} is blocked"
        for name in (*row.values, *row.dynamic):
            cell = shown.cells.get((row.number, name))
            if cell is not None and (not cell.is_sure or cell.value != plain.read(row, name)):
                yield f"{name} of {row.number} is {cell}"
    if not shown.are_connections_sure or {it.number for it in shown.connections.values()} != {it.number for it in plain.connections}:
        yield "the connections"
    if set(shown.bindings) != set(map(tuple, plain.bindings)):
        yield f"the bindings: {set(shown.bindings)}, and not {set(map(tuple, plain.bindings))}"
    for number in (0, *(row.number for row in plain.rows)):
        if [it.number for it in plain.children(number or None)] != objects.below.get(number, []):
            yield f"the children of {number}: {objects.below.get(number)} and not {[it.number for it in plain.children(number or None)]}"


class Looking(Cases):
    """What is asked, without a front."""

    def test_all_known(self):
        """Once all was asked that is wanted, all is known of random sessions, also where the class file is not."""
        cases = [(f"random, {seed}, {'with' if has else 'without'} classes", (seed, has)) for seed in range(SEED, SEED + RUNS) for has in (True, False)]
        self.check_each(cases, look_fault)

    def test_nothing_in_vain(self):
        """What is known is not asked; what brings nothing new is asked once, up to the session's next command."""
        declared = json.loads((Path(__file__).parents[1] / "rows" / "class_file_of_the_demonstration_classes" / "classes.json").read_text())["classes"]
        world, server = world_of(declared), Server(plain_classes.Classes(declared))

        def do(**command):
            hear(world, {"session": "a", **command}, server.step({"session": "a", **command}))

        do(do="new", **{"class": "Cell"})
        ask, words = answered_by(world, server)
        looks = Looks(ask, Pace(PLENTY))
        self.assertEqual((looks.look(world, "a", 1), looks.look(world, "a", None), looks.look(world, "b", 1)), ({"asked": 0, "left": 0},) * 3)
        do(do="bind", object=1, property="y", to={"prop": "x"})
        do(do="set", object=1, property="x", value=4)
        self.assertEqual((looks.look(world, "a", 1), words), ({"asked": 1, "left": 0}, ["properties"]), "a value that is not known")
        self.assertEqual(world.sessions["a"].cells[1, "y"][::2], (4, True), "is known then")
        self.assertEqual(looks.look(world, "a", 1)["asked"], 0, "what is known")
        looks.look(world, "a", 9)
        self.assertEqual(looks.look(world, "a", 9), {"asked": 0, "left": 0}, "an object that is not there")
        do(do="status")
        self.assertGreater(looks.look(world, "a", 9)["asked"], 0, "when the session has done something")

    def test_older_server(self):
        """A word that a server does not know is asked once."""
        world = World(Classes(None))
        hear(world, {"do": "new", "class": "Cell", "session": "a"}, [{"reply": 1, "session": "a"}])
        given = []

        def ask(name, command):
            given.append(json.loads(command)["do"])
            hear(world, {**json.loads(command), "session": name}, [{"error": "E02", "session": name}])
            return world.entries.kept[-1]

        looks = Looks(ask, Pace(PLENTY))
        for number in (1, 1, 2, None, 2):
            looks.look(world, "a", number)
        self.assertEqual(len(given), len(set(given)), given)

    def test_false_descriptions(self):
        """What is no description, and classes that are above themselves, leave the page as it is."""
        world, empty = World(Classes(None)), {"properties": [], "signals": [], "slots": []}
        hear(world, {"do": "new", "class": "A", "session": "a"}, [{"reply": 1, "session": "a"}])
        for name, reply in (("A", {**empty, "class": "A", "super": "B"}), ("B", {**empty, "class": "B", "super": "A"}), ("B", {**empty, "super": []}), ("B", 1)):
            hear(world, {"do": "describe", "class": name, "session": "a"}, [{"reply": reply, "session": "a"}])
        self.assertEqual(views.object_of(world, "a", 1)["chain"], ["A", "B"])
        ask, words = answered_by(world, Server(plain_classes.Classes()))
        Looks(ask, Pace(PLENTY)).look(world, "a", 1)
        self.assertNotIn("describe", words)

    def test_pace(self):
        """At most five a second."""
        now = [0.0]
        pace = Pace(clock=lambda: now[0])
        taken = []
        for at in range(300):
            now[0] = at / 100
            if pace.take():
                taken.append(now[0])
        self.assertEqual(len(taken), 3 * MOST)
        self.assertTrue(all(later - earlier >= 1 for earlier, later in zip(taken, taken[MOST:])))

    def test_page(self):
        """The page asks once at a time, soon again where that brought something, and not what is shown no more."""
        if shutil.which("node") is None:
            self.skipTest("node is not on the path")
        room = Path(self.enterContext(TemporaryDirectory(prefix="metad-page-")))
        (room / "asking.mjs").write_text((LOOKING.parent / "asking.js").read_text())
        (room / "looking.mjs").write_text(LOOKING.read_text().replace('"./asking.js"', '"./asking.mjs"'))
        (room / "try.mjs").write_text(SCRIPT)
        ran = subprocess.run(["node", room / "try.mjs"], capture_output=True, text=True, timeout=SECONDS)
        said = ["look", {"session": "c1", "object": 1}]
        self.assertEqual((json.loads(ran.stdout), ran.stderr), ([[said, said], [250, 1000], 0], ""))


class Shown(InspectCases):
    """Behind a front."""

    def test_asked(self):
        """A page that may ask makes known what is not; another one may not have it asked."""
        with self.shown(options=("--inspect-ask",)) as (path, _, asker), Client(path) as client:
            client.ask('{"do":"new","class":"Cell"}')
            client.ask('{"do":"bind","object":1,"property":"y","to":{"prop":"x"}}')
            client.ask('{"do":"set","object":1,"property":"x","value":4}')
            found = asker.until(self, lambda it: it["wanted"], "object", session="c1", number=1)
            values = {it["name"]: (it["value"], it["sure"]) for it in found["properties"]}
            self.assertNotEqual(values["y"], (4, True), "before")
            self.assertEqual(asker.post("look", {"session": "c1", "object": 1}), {"asked": 1, "left": 0})
            found = asker.get("object", session="c1", number=1)
            values = {it["name"]: (it["value"], it["sure"]) for it in found["properties"]}
            self.assertEqual((values["y"], found["wanted"]), ((4, True), 0), "then")
            self.assertEqual(asker.get("tree", session="c1")["wanted"], 0, "of the tree")
            for asked in ({"session": "c1", "object": "1"}, {"session": "c 1", "object": 1}, {"object": 1}, {"session": "c1", "object": 0}, {"session": "c1", "object": True}):
                self.assertEqual(asker.post("look", asked), 400, asked)
            self.assertEqual(asker.ask("c1", do="connections", object=1, after=1)["answer"], '{"reply":[],"session":"c1"}')
            self.assertEqual(asker.ask("c1", do="connections", sender=1), 403, "a key that it has not")
        with self.shown() as (path, _, asker), Client(path) as client:
            client.ask('{"do":"new","class":"Cell"}')
            client.ask('{"do":"bind","object":1,"property":"y","to":{"prop":"x"}}')
            client.ask('{"do":"set","object":1,"property":"x","value":4}')
            found = asker.until(self, lambda it: it["commands"] == 3, "about")
            self.assertEqual(asker.post("look", {"session": "c1", "object": 1}), 403, "without leave")
            self.assertEqual(asker.get("object", session="c1", number=1)["wanted"], 0, "and nothing is wanted")
