// One object between those that call it and those that it calls.

import { el } from "./elements.js";
import { get, oneAtATime } from "./asking.js";
import { Drawing } from "./drawing.js";

export class Star {
  constructor(page) {
    this.page = page;
    this.drawing = new Drawing("Connections of the object", (node) => this.choose(node), (node) => this.classes(node));
    this.place = el("div", { class: "star" }, this.drawing.place);
    this.load = oneAtATime(() => this.draw());
  }

  choose(node) {
    this.page.choose(node.outside ? { session: node.session, object: null } : { object: node.object });
  }

  classes(node) {
    return [node.object === this.page.state.object ? "chosen" : "", node.outside ? "outside" : ""].join(" ");
  }

  /** The place of the drawing, which is drawn once it is known. */
  of(session, object) {
    Object.assign(this, { session, object });
    this.load();
    return this.place;
  }

  async draw() {
    const { session, object } = this;
    const found = await get("graph", { kind: "connections", session, object, near: 1 });
    const key = JSON.stringify([session, object, found]);
    if (key === this.key) return;
    this.key = key;
    if (found?.nodes.length) this.drawing.show(found);
  }
}
