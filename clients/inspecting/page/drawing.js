// Drawings of nodes and of what leads from one to another, with the places and ways that the server has laid out.

import { drawn, el, short } from "./elements.js";
import { write } from "./texts.js";

const ZOOM_LEAST = 0.05, ZOOM_MOST = 4, STEP = 1.25, LETTERS = 22;

function arrow(id) {
  const tip = drawn("path", { d: "M0 0 L8 4 L0 8 z", class: "tip" });
  return drawn(
    "defs", {},
    drawn(
      "marker",
      { id, viewBox: "0 0 8 8", refX: 7, refY: 4, markerWidth: 8, markerHeight: 8, markerUnits: "userSpaceOnUse", orient: "auto" },
      tip,
    ),
  );
}

/** Cubic curves as SVG writes them. */
export function pathOf([first, ...rest]) {
  const curves = [];
  for (let at = 0; at + 2 < rest.length; at += 3) curves.push(`C${rest.slice(at, at + 3).map(([x, y]) => `${x} ${y}`).join(" ")}`);
  return `M${first[0]} ${first[1]} ${curves.join(" ")}`;
}

let drawings = 0;

/** A graph that can be zoomed, moved, and gone through by keys. */
export class Drawing {
  /** `choose(node)` opens a node, `classesOf(node)` are its classes, and `label` says what the graph is of. */
  constructor(label, choose, classesOf) {
    Object.assign(this, { label, choose, classesOf });
    this.tip = `tip${++drawings}`;
    this.zoom = 1;
    this.place = el("div", { class: "scroll graph", "data-zoom": 1 });
    this.place.addEventListener("wheel", (event) => this.wheel(event), { passive: false });
    this.place.addEventListener("pointerdown", (event) => this.drag(event));
    this.place.addEventListener("keydown", (event) => this.pressed(event));
    const button = (text, title, does) => el("button", { type: "button", text, title, "aria-label": title, onclick: does });
    this.buttons = el(
      "span", { class: "zoom", role: "group", "aria-label": "Zoom" }, button("−", "zoom out", () => this.by(1 / STEP)),
      button("+", "zoom in", () => this.by(STEP)), button("1:1", "the size of texts", () => this.to(1)),
      button("fit", "show all of it", () => this.fit()),
    );
  }

  show(graph) {
    const focused = this.place.contains(document.activeElement) ? document.activeElement.dataset.node : null;
    const { scrollLeft, scrollTop } = this.place;
    this.graph = graph;
    const spoken = `${this.label}: ${graph.nodes.length} boxes, ${graph.edges.length} arrows`;
    this.svg = drawn(
      "svg", { viewBox: `0 0 ${graph.width} ${graph.height}`, role: "group", "aria-label": spoken }, arrow(this.tip),
    );
    for (const edge of graph.edges) this.svg.append(this.edge(edge));
    this.boxes = graph.nodes.map((node) => this.node(node));
    this.svg.append(...this.boxes);
    this.place.replaceChildren(this.svg);
    this.to(this.zoom);
    this.place.scrollTo(scrollLeft, scrollTop);
    const next = this.boxes.find((it) => it.dataset.node === (focused ?? this.at)) ?? this.boxes[0];
    next?.setAttribute("tabindex", 0);
    if (focused) next?.focus({ preventScroll: true });
    this.light();
  }

  edge([from, to, isLoop, title, count, signal, way]) {
    const nodes = [this.graph.nodes[from], this.graph.nodes[to]];
    const isGrey = nodes.some((it) => this.classesOf(it).includes("grey"));
    return drawn(
      "path",
      {
        d: pathOf(way), class: `edge ${isLoop ? "loop" : ""} ${isGrey ? "grey" : ""}`, "marker-end": `url(#${this.tip})`,
        "data-edge": `${nodes[0].name} ${nodes[1].name}`, "data-signal": signal, "data-from": from, "data-to": to,
      },
      drawn("title", { text: [`${nodes[0].name} → ${nodes[1].name}`, ...title.split("\n")] }),
    );
  }

  node(node) {
    const error = node.error && !node.error_sure ? `${node.error}, may be over` : node.error;
    const texts = [node.label, [error, node.under].filter(Boolean).join("  ")].filter((it) => it !== undefined);
    const open = () => this.choose(node);
    return drawn(
      "g",
      {
        class: `node ${this.classesOf(node)}`, transform: `translate(${node.x} ${node.y})`, onclick: open, "data-node": node.name,
        tabindex: -1, role: "button", "aria-label": [node.name, ...texts].filter(Boolean).join(", "),
        onfocus: (event) => this.focused(event.currentTarget),
      },
      drawn("title", { text: [node.name, ...texts] }), drawn("rect", { width: node.width, height: node.height, rx: 4 }),
      drawn("text", { x: 8, y: 14, text: short(node.name, LETTERS - 2) }),
      texts.map((text, at) => drawn("text", { x: 8, y: 27 + 13 * at, class: "under", text: short(text, LETTERS) })),
    );
  }

  // ---- which edges are lit ----

  /** Lights the edges of a signal, or none. */
  lit(signal) {
    this.signal = signal;
    this.light();
  }

  focused(box) {
    for (const it of this.boxes) it.setAttribute("tabindex", it === box ? 0 : -1);
    this.at = box.dataset.node;
    this.light();
  }

  light() {
    const at = this.place.contains(document.activeElement) ? this.boxes.indexOf(document.activeElement) : -1;
    for (const it of this.svg.querySelectorAll(".edge")) {
      const isOf = at >= 0 && (Number(it.dataset.from) === at || Number(it.dataset.to) === at);
      it.classList.toggle("lit", isOf || Boolean(this.signal) && it.dataset.signal === this.signal);
    }
  }

  // ---- zoom and movement ----

  /** Zooms to a factor, so that a point of the window stays where it is: the middle, if none is given. */
  to(zoom, [x, y] = [this.place.clientWidth / 2, this.place.clientHeight / 2]) {
    const next = Math.min(ZOOM_MOST, Math.max(ZOOM_LEAST, zoom)), before = this.zoom;
    const left = (this.place.scrollLeft + x) / before, top = (this.place.scrollTop + y) / before;
    this.zoom = next;
    this.place.dataset.zoom = next.toFixed(3);
    if (!this.svg) return;
    this.svg.setAttribute("width", this.graph.width * next);
    this.svg.setAttribute("height", this.graph.height * next);
    if (next === before) return;
    this.place.scrollLeft = left * next - x;
    this.place.scrollTop = top * next - y;
  }

  by(factor) {
    this.to(this.zoom * factor);
  }

  fit() {
    if (this.graph) this.to(Math.min(1, this.place.clientWidth / this.graph.width, this.place.clientHeight / this.graph.height));
  }

  wheel(event) {
    if (!event.ctrlKey) return;
    event.preventDefault();
    const all = this.place.getBoundingClientRect();
    this.to(this.zoom * STEP ** (event.deltaY < 0 ? 1 : -1), [event.clientX - all.left, event.clientY - all.top]);
  }

  drag(event) {
    if (event.button !== 0 || event.target.closest(".node")) return;
    const { place } = this, start = [event.clientX + place.scrollLeft, event.clientY + place.scrollTop];
    const move = (now) => { place.scrollLeft = start[0] - now.clientX; place.scrollTop = start[1] - now.clientY; };
    const end = () => { place.removeEventListener("pointermove", move); place.classList.remove("dragged"); };
    place.setPointerCapture(event.pointerId);
    place.classList.add("dragged");
    place.addEventListener("pointermove", move);
    place.addEventListener("pointerup", end, { once: true });
    place.addEventListener("pointercancel", end, { once: true });
  }

  // ---- keys ----

  pressed(event) {
    if (event.ctrlKey || event.altKey || event.metaKey) return;
    const at = this.boxes?.indexOf(document.activeElement) ?? -1;
    const does = { "+": () => this.by(STEP), "-": () => this.by(1 / STEP), 0: () => this.fit() }[event.key];
    const way = { ArrowRight: [1, 0], ArrowLeft: [-1, 0], ArrowDown: [0, 1], ArrowUp: [0, -1] }[event.key];
    if (does) does();
    else if (at >= 0 && way) this.step(at, way);
    else if (at >= 0 && (event.key === "Enter" || event.key === " ")) this.choose(this.graph.nodes[at]);
    else return;
    event.preventDefault();
  }

  /** Moves the focus to the nearest box in a direction. */
  step(at, [right, down]) {
    const middle = (it) => [it.x + it.width / 2, it.y + it.height / 2], [x, y] = middle(this.graph.nodes[at]);
    let best = -1, least = Infinity;
    this.graph.nodes.forEach((it, number) => {
      const [dx, dy] = [middle(it)[0] - x, middle(it)[1] - y], along = dx * right + dy * down, aside = Math.abs(dx * down + dy * right);
      const far = along + 3 * aside;
      if (along > 1 && aside <= 4 * along && far < least) [best, least] = [number, far];
    });
    if (best < 0) return;
    this.boxes[best].focus({ preventScroll: true });
    this.boxes[best].scrollIntoView({ block: "nearest", inline: "nearest" });
  }
}

/** The signals of a graph, the most frequent first: each lights its edges. */
export function legend(drawing, graph, most = 12) {
  const counts = new Map();
  for (const [, , , , , signal] of graph.edges) counts.set(signal, (counts.get(signal) ?? 0) + 1);
  const first = [...counts].sort((a, b) => b[1] - a[1]).slice(0, most);
  const place = el("span", { class: "legend", role: "group", "aria-label": "Signals" });
  const draw = () => {
    for (const it of place.children) it.setAttribute("aria-pressed", String(it.dataset.signal === drawing.signal));
  };
  place.append(...first.map(([signal, count]) => {
    const light = () => { drawing.lit(drawing.signal === signal ? null : signal); draw(); };
    const made = el(
      "button", { type: "button", class: "signal code", "data-signal": signal, title: `light its ${count} arrows`, onclick: light },
    );
    write(made, `${short(signal, 30)} ${count}`);
    return made;
  }));
  draw();
  return place;
}
