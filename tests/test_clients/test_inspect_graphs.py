"""The graphs of the inspector: where boxes and arrows are, what they stand for, and how they are looked at."""

import json
import random
import shutil
import sys
from collections import Counter
from pathlib import Path
from tempfile import TemporaryDirectory

from inspecting.drawing import Layouts, by_dot
from inspecting.layers import Link, laid_out

from tests.support.cases import Cases
from tests.support.lines import text_of

from .fronts import Client
from .test_inspect_page import CELL, PageCases, command, connecting, setting

OBJECTS, LINKS = 300, 400
SIZE = (168.0, 34.0)
FINE = 16  # points of each curve that are looked at
BOXES = "[...document.querySelectorAll('#graph [data-node]')]"
# the arrows that cross boxes that are not their ends, and the boxes that overlap, by where the browser has drawn them
GEOMETRY = """(() => {
  const svg = document.querySelector('#graph svg'), boxes = [...svg.querySelectorAll('.node')].map((it) => {
    const [x, y] = it.getAttribute('transform').match(/-?[\\d.]+/g).map(Number), box = it.querySelector('rect');
    return [x, y, x + Number(box.getAttribute('width')), y + Number(box.getAttribute('height'))];
  });
  const crossed = [], overlapped = [];
  boxes.forEach((a, one) => boxes.slice(0, one).forEach((b, other) => {
    if (a[0] < b[2] && b[0] < a[2] && a[1] < b[3] && b[1] < a[3]) overlapped.push([one, other]);
  }));
  const paths = [...svg.querySelectorAll('.edge')];
  for (const path of paths) {
    const ends = [Number(path.dataset.from), Number(path.dataset.to)], length = path.getTotalLength();
    for (let at = 0; at <= length; at += 12) {
      const { x, y } = path.getPointAtLength(at);
      boxes.forEach(([left, top, right, low], box) => {
        if (!ends.includes(box) && x > left + 1 && x < right - 1 && y > top + 1 && y < low - 1) crossed.push([path.dataset.edge, box]);
      });
    }
  }
  return [boxes.length, paths.length, crossed.slice(0, 5), overlapped.slice(0, 5)];
})()"""


def random_links(seed):
    """Edges between some nodes: of any, of a few that lead to many, in loops and to themselves, and many of the same."""
    chance = random.Random(seed)
    count = chance.choice((2, 7, 40, OBJECTS))
    few = max(1, count // chance.choice((1, 10)))
    made = [Link(chance.randrange(few), chance.randrange(count), chance.choice("abc")) for _ in range(LINKS * count // OBJECTS + 2)]
    return count, [*made, Link(0, 0, "a"), Link(0, 1, "a"), Link(1, 0, "a"), Link(0, 1, "b")]


def curves(way):
    """The points of each cubic curve of a way."""
    for at in range(0, len(way) - 1, 3):
        yield [curve_point(way[at : at + 4], step / FINE) for step in range(FINE + 1)]


def curve_point(points, part):
    """A point of a curve, as de Casteljau finds it."""
    while len(points) > 1:
        points = [tuple(a + (b - a) * part for a, b in zip(one, other)) for one, other in zip(points, points[1:])]
    return points[0]


def crossed(points, boxes):
    """The boxes that some points of a curve are inside of. A curve is nowhere outside of its points' borders."""
    (left, right), (top, low) = ((min(them), max(them)) for them in zip(*points))
    near = [at for at, box in enumerate(boxes) if box[0] < right and left < box[2] and box[1] < low and top < box[3]]
    return {at for at in near for x, y in points if boxes[at][0] + 1 < x < boxes[at][2] - 1 and boxes[at][1] + 1 < y < boxes[at][3] - 1}


def geometry_fault(sizes, links, laid):
    """What is wrong with a layout, or None."""
    boxes = [(x, y, x + width, y + height) for (x, y), (width, height) in zip(laid.spots, sizes)]
    for at, one in enumerate(boxes):
        if not (0 <= one[0] and 0 <= one[1] and one[2] <= laid.width and one[3] <= laid.height):
            return f"box {at} is outside"
        for number, other in enumerate(boxes[:at]):
            if one[0] < other[2] and other[0] < one[2] and one[1] < other[3] and other[1] < one[3]:
                return f"boxes {number} and {at} overlap"
    for link, way in zip(links, laid.ways):
        for points in curves(way):
            if crossed(points, boxes) - {link.start, link.end}:
                return f"the edge {link} crosses {crossed(points, boxes)}"
        for (x, y), end in ((way[0], link.start), (way[-1], link.end)):
            left, top, right, low = boxes[end]
            if not (left - 14 <= x <= right + 14 and top - 14 <= y <= low + 14):
                return f"the edge {link} does not end at box {end}"
    return None


class Layout(Cases):
    """Where boxes and arrows are."""

    def test_layers(self):
        """No arrow of our own layout crosses a box that is not its end, and no boxes overlap."""

        def fault(seed):
            count, links = random_links(seed)
            sizes = [(SIZE[0], random.Random(seed).choice((34.0, 47.0))) for _ in range(count)]
            return geometry_fault(sizes, links, laid_out(sizes, links))

        self.check_each([(f"random, {seed}", seed) for seed in range(8)], fault)

    def test_bundles(self):
        """Edges of one signal leave a node at one point, and those of different signals at different ones."""
        links = [Link(0, at, signal) for at in range(1, 9) for signal in "ab"]
        ways = laid_out([SIZE] * 9, links).ways
        starts = {signal: {way[0] for link, way in zip(links, ways) if link.bundle == signal} for signal in "ab"}
        self.assertEqual({signal: len(them) for signal, them in starts.items()}, {"a": 1, "b": 1})
        self.assertNotEqual(starts["a"], starts["b"])

    def test_dot(self):
        """What is drawn where dot is there has no fault either."""
        if shutil.which("dot") is None:
            self.skipTest("dot is not on the path")
        links = random_links(1)[1]
        count = 1 + max(max(it.start, it.end) for it in links)
        sizes = (SIZE,) * count
        self.assertIsNone(geometry_fault(sizes, links, Layouts().of(sizes, tuple(links))))
        small = (Link(0, 1, "a"), Link(1, 2, "a"), Link(0, 2, "b"), Link(2, 0, "a"), Link(1, 1, "b"))
        self.assertIsNone(geometry_fault([SIZE] * 4, small, by_dot(shutil.which("dot"), [SIZE] * 4, small)))

    def test_bad_dot(self):
        """Where dot fails, writes nonsense, is too slow, or draws across a box, our own layout is drawn."""
        room = Path(self.enterContext(TemporaryDirectory(prefix="metad-dot-")))
        sizes, links = (SIZE,) * 3, (Link(0, 1, "a"), Link(1, 2, "a"), Link(0, 2, "a"))
        across = "graph 1 9 1\\n" + "".join(f"node {at} {1 + 3 * at} 0.5 2.3 0.4 x solid box black grey\\n" for at in range(3))
        across += "".join(f"edge {it.start} {it.end} 4 {1 + 3 * it.start} .5 {2 + 3 * it.start} .5 {3 * it.end} .5 {1 + 3 * it.end} .5 solid black\\n" for it in links)
        for name, script in (("fails", "sys.exit(1)"), ("nonsense", "print('node x')"), ("slow", "import time; time.sleep(60)"), ("across", f"print('{across}stop')")):
            program = room / name
            program.write_text(f"#!{sys.executable}\nimport sys\n{script}\n")
            program.chmod(0o755)
            self.assertEqual(Layouts(str(program)).of(sizes, links), laid_out(sizes, links), name)
        self.assertIsNotNone(by_dot(str(room / "across"), sizes, links), "what is across is read")


class Shown(PageCases):
    """Graphs in the page."""

    shares_browser = True

    def test_large(self):
        """300 objects with 400 connections: no arrow crosses a box, no boxes overlap, and there is one arrow for each signal
        from one object to another; what is around an object is what is linked to it."""
        chance = random.Random(4)
        ends = [(chance.randrange(1, OBJECTS + 1), chance.randrange(1, OBJECTS + 1)) for _ in range(LINKS)]
        with self.shown() as (path, _, asker), Client(path) as client:
            self.give(client, [CELL] * OBJECTS)
            self.give(client, [connecting(one, other, "seen(int)") for one, other in ends])
            self.give(client, [setting(ends[0][0], "objectName", "first")])
            with self.opened(asker.address + f"#session=c1&view=graphs&graph=connections&object={ends[0][0]}") as browser:
                arrows = len(set(ends))
                browser.wait_for(f"document.querySelectorAll('#graph .edge').length === {arrows}")
                linked = {it for pair in ends for it in pair}
                self.assertEqual(browser.value(GEOMETRY), [len(linked), arrows, [], []])
                counts = Counter(ends)
                pair, count = counts.most_common(1)[0]
                found = browser.value("fetch('graph?kind=connections&session=c1').then((it) => it.json())")
                drawn = {(found["nodes"][one]["object"], found["nodes"][other]["object"]): said[2] for one, other, *said in found["edges"]}
                self.assertEqual((set(drawn), drawn[pair]), (set(ends), count))
                self.assertEqual(browser.value("document.querySelector('#graph .node.chosen').ariaLabel"), f"#{ends[0][0]}, Cell first")
                self.assertEqual(browser.texts(".legend [data-signal]"), [f"xChanged(int) {arrows}"])
                browser.write("#near", "1")
                around = {it for pair in ends for it in pair if ends[0][0] in pair}
                browser.wait_for(f"{BOXES}.length === {len(around)}")
                self.assertEqual(set(browser.value(f"{BOXES}.map((it) => it.dataset.node)")), {f"#{it}" for it in around})
                self.assertIn("near=1", browser.value("location.hash"))

    def test_looked_at(self):
        """It is zoomed, and gone through by keys; the arrows of a signal are lit."""
        signals = ("xChanged(int)", "objectNameChanged(QString)")
        with self.shown() as (path, _, asker), Client(path) as client:
            self.give(client, [CELL] * 3)
            self.give(client, [connecting(1, 2, "seen(int)"), connecting(2, 3, "seen(int)")])
            self.give(client, [command("connect", sender=1, signal=signals[1], receiver=2, method=signals[1])])
            with self.opened(asker.address + "#session=c1&view=graphs&graph=connections") as browser:
                browser.wait_for("document.querySelectorAll('#graph .edge').length === 3")
                width = browser.value("document.querySelector('#graph svg').getBoundingClientRect().width")
                browser.click("[aria-label='zoom in']")
                self.assertAlmostEqual(browser.value("document.querySelector('#graph svg').getBoundingClientRect().width") / width, 1.25, 2)
                browser.click(f"[data-signal='{signals[1]}']")
                self.assertEqual(browser.value("[...document.querySelectorAll('#graph .edge.lit')].map((it) => it.dataset.signal)"), [signals[1]])
                browser.value("document.querySelector('#graph [data-node=\"#1\"]').focus()")
                self.assertEqual(browser.value("[...document.querySelectorAll('#graph .edge.lit')].map((it) => it.dataset.edge)"), ["#1 #2", "#1 #2"])
                for wanted in ("#2", "#3"):
                    browser.press("ArrowRight")
                    self.assertEqual(browser.value("document.activeElement.dataset.node"), wanted)
                browser.press("0")
                self.assertLessEqual(browser.value("document.querySelector('#graph svg').getBoundingClientRect().width"), browser.value("document.getElementById('graph').clientWidth + 1"))
                self.give(client, [connecting(3, 1, "seen(int)")])
                browser.wait_for("document.querySelectorAll('#graph .edge').length === 4")
                self.assertEqual(browser.value("document.activeElement.dataset.node"), "#3", "the focus stays")
                browser.press("Enter")
                browser.wait_for("document.querySelector('#object h2 .code')?.textContent.trim() === '#3'")

    def test_names_and_joins(self):
        """Bindings show the names of objects, and connections the sessions that joins lead from and to."""
        with self.shown() as (path, _, asker), Client(path) as one, Client(path) as two:
            self.give(one, [CELL, setting(1, "objectName", "panel"), command("publish", object=1, signal="xChanged(int)", name="level")])
            join = command("join", name="level", types=["int"], object=1, method="seen(int)", **{"from": "c1"})
            self.give(two, [CELL, join, command("bind", object=1, property="y", to={"prop": "x"}), setting(1, "objectName", "dial")])
            with self.opened(asker.address + "#session=c2&view=graphs") as browser:
                browser.wait_for("document.querySelectorAll('#graph .edge').length === 1")
                self.assertEqual(sorted(browser.value(f"{BOXES}.map((it) => [...it.querySelectorAll('text')].slice(0, 2).map((one) => one.textContent))")), [["#1.x", "Cell dial"], ["#1.y", "Cell dial"]])  # noqa: E501
                for session, arrow in (("c2", "c1 #1"), ("c1", "#1 c2")):
                    browser.click(f"[data-session={session}]")
                    browser.write("#kind", "connections")
                    browser.wait_for(f"document.querySelector('#graph .edge')?.dataset.edge === '{arrow}'")
                browser.click("#graph .node.outside")
                browser.wait_for("page.state.session === 'c2'")
                self.assertEqual(json.loads(two.ask(text_of(command("joins"))))["reply"][0]["from"], "c1")
