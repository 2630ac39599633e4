// The slots that were called most, and those whose commands took longest.

import { clear, el, link, span } from "./elements.js";
import { write } from "./texts.js";
import { get, oneAtATime } from "./asking.js";

export class BusiestView {
  constructor(page) {
    this.page = page;
    const orders = [["calls", "most calls"], ["mean", "longest commands, on average"], ["worst", "longest command"]];
    this.order = el(
      "select", { "aria-label": "Order", onchange: () => this.refresh() },
      orders.map(([value, text]) => el("option", { value, text })),
    );
    this.all = el("input", { type: "checkbox", onchange: () => this.refresh() });
    this.said = el("span", { class: "faint grow" });
    this.table = el("table", { id: "busiest" });
    this.place = el(
      "div", { class: "detail_of_graphs" },
      el("div", { class: "bar" }, el("label", {}, this.all, "all sessions"), this.order, this.said),
      el("div", { class: "scroll detail" }, this.table),
    );
    this.refresh = oneAtATime(() => this.draw());
  }

  show() {
    this.refresh();
  }

  async draw() {
    const session = this.all.checked ? "" : this.page.state.session ?? "";
    const found = await get("slots", { session, sort: this.order.value, count: 200 });
    const isTimed = !this.page.about.record;
    const timed = isTimed ? "; a command's time is that of the whole command, as the front saw it" : "";
    write(this.said, `${found.calls} calls of ${found.total} slots${timed}`);
    const head = [
      "session", "slot", "calls", "share", "commands", "calls a command", ...(isTimed ? ["on average", "longest"] : []),
      "see",
    ];
    clear(
      this.table, el("tr", {}, head.map((text, at) => el("th", { scope: "col", class: at > 1 ? "number" : null, text }))),
      found.rows.map((row) => this.row(row, found.calls, isTimed)),
    );
  }

  row(it, total, isTimed) {
    const number = (text) => el("td", { class: "number", text });
    return el(
      "tr", { "data-slot": it.slot }, el("td", {}, link(it.session, () => this.page.choose({ session: it.session }))),
      el("td", { class: "code" }, el("span", { class: "class", text: `${it.class} ` }), el("b", { text: it.slot })),
      number(it.calls), number(`${((100 * it.calls) / Math.max(1, total)).toFixed(1)} %`), number(it.commands),
      number((it.calls / it.commands).toFixed(1)), isTimed ? [number(span(it.mean)), number(span(it.worst))] : null,
      el("td", { class: "number" }, link(`line ${it.entry}`, () => this.page.openEntry(it.entry))),
    );
  }
}
