// Graphs: bindings, connections of one session, and who listens to whom.

import { clear, el } from "./elements.js";
import { write } from "./texts.js";
import { Pause, get, oneAtATime } from "./asking.js";
import { Drawing, legend } from "./drawing.js";

const KINDS = [
  ["bindings", "Bindings: which property reads which"], ["connections", "Connections of the session"],
  ["joins", "Joins: who listens to whom"],
];
const NEAR = [["", "all of it"], ["1", "1 step around"], ["2", "2 steps around"], ["3", "3 steps around"]];
const PAUSE = 1000; // milliseconds between two pictures, so that a busy graph can be read

export class GraphsView {
  constructor(page) {
    this.page = page;
    const select = (id, label, choices, key) => el(
      "select", { id, "aria-label": label, onchange: (event) => page.choose({ view: "graphs", [key]: event.target.value || null }) },
      choices.map(([value, text]) => el("option", { value, text })),
    );
    this.kind = select("kind", "Graph", KINDS, "graph");
    this.near = select("near", "How much of it", NEAR, "near");
    this.said = el("p", { class: "faint", id: "graph_said" });
    this.drawing = new Drawing("Graph", (node) => this.choose(node), (node) => this.classes(node));
    this.drawing.place.id = "graph";
    this.legend = el("span", {});
    this.place = el(
      "div", { class: "detail_of_graphs" },
      el("div", { class: "bar" }, this.kind, this.near, this.drawing.buttons, this.legend), this.said, this.drawing.place,
    );
    this.load = oneAtATime(() => this.draw());
    this.later = new Pause(() => this.load());
  }

  show() {
    const { graph, near } = this.page.state;
    this.kind.value = KINDS.some(([value]) => value === graph) ? graph : "bindings";
    this.near.value = near ? String(Math.min(near, 3)) : "";
    this.key = null;
    this.load();
  }

  /** Draws again soon, if something has changed: the last change is always drawn. */
  refresh() {
    const soon = (this.drawnAt ?? 0) + PAUSE - performance.now();
    this.later.end();
    if (soon <= 0) this.load(); else this.later.begin(soon);
  }

  choose(node) {
    if (node.session && (this.kind.value === "joins" || node.outside)) this.page.choose({ session: node.session, object: null });
    else this.page.choose({ object: node.object, view: "objects" });
  }

  async draw() {
    const { session, object } = this.page.state, kind = this.kind.value, near = Number(this.near.value);
    const isNear = near && (object || kind === "joins");
    const found = session || kind === "joins" ? await get("graph", { kind, session, object, near: isNear ? near : "" }) : null;
    if (session !== this.page.state.session || object !== this.page.state.object) return void this.load();
    this.drawnAt = performance.now();
    const key = JSON.stringify([kind, session, object, found]);
    if (key === this.key) return;
    this.key = key;
    write(this.said, this.words(kind, session, found, near && !isNear));
    clear(this.legend);
    if (!found || !found.nodes.length) return void clear(
      this.drawing.place,
      el("p", { class: "faint", text: session || kind === "joins" ? "Nothing is known." : "Choose a session at the left." }),
    );
    this.drawing.show(found);
    if (kind !== "bindings") clear(this.legend, legend(this.drawing, found));
    const where = JSON.stringify([kind, session, object, near]);
    if (where !== this.where) this.bringIn();
    this.where = where;
  }

  /** Moves the chosen box to where it can be seen. */
  bringIn() {
    this.drawing.place.querySelector(".node.chosen")?.scrollIntoView({ block: "center", inline: "center" });
  }

  classes(node) {
    const { session, object } = this.page.state, kind = this.kind.value;
    return [
      node.loop || node.error_sure ? "loop" : "", node.is_there ? "" : "missing", node.outside ? "outside" : "",
      kind === "joins" && session && !node.reaches ? "grey" : "",
      kind === "joins" && node.session === session || kind !== "joins" && node.object === object && object ? "chosen" : "",
    ].join(" ");
  }

  words(kind, session, found, wantsObject) {
    const left = (found?.left ? ` ${found.left} more are not drawn.` : "") + (wantsObject ? " Choose an object to see what is around it." : "");
    if (kind === "bindings") return `An arrow leads from what is read to what is bound; loops are red.${left}`;
    if (kind === "connections") return `An arrow leads from who sends to who is called; dashed boxes are other sessions, linked by joins.${left}`;
    const grey = `What is grey cannot reach ${session} by any join: nothing that it does can show there.`;
    return session ? `An arrow leads from who is listened to. ${grey}${left}`
      : `An arrow leads from who is listened to. Choose a session: all that cannot reach it turns grey.${left}`;
  }
}
