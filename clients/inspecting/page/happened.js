// What happened: the newest lines, of a session, an object or a signal.

import { el, name, say, span } from "./elements.js";
import { write } from "./texts.js";
import { get } from "./asking.js";
import { List } from "./list.js";
import { ChainView } from "./chain.js";

const PIECE = 300;

export class HappenedView {
  constructor(page) {
    this.page = page;
    this.rows = [];
    this.before = null; // the number before which lines are shown, where they are held
    const changed = () => this.again();
    this.all = el("input", { type: "checkbox", onchange: changed });
    this.object = el("input", { size: 6, placeholder: "object", "aria-label": "Object", oninput: changed });
    this.signal = el(
      "input",
      { placeholder: "signal, slot or command", class: "grow", "aria-label": "Signal, slot or command", oninput: changed },
    );
    this.slice = page.about.record ? el("input", { type: "checkbox", onchange: changed }) : null;
    this.hold = el("button", { type: "button", text: "hold", onclick: () => this.toggle() });
    this.older = el("button", { type: "button", text: "older", onclick: () => this.goBack() });
    this.said = el("span", { class: "faint", id: "sampled" });
    this.list = new List(
      "lines", (from, count) => this.fetchRows(from, count), (row) => this.drawRow(row), (row) => row.entry,
      { label: "Commands, the newest first", choose: (row) => page.openEntry(row.entry) },
    );
    this.chain = new ChainView(page);
    const slice = this.slice ? el("label", {}, this.slice, "slice of the session") : null;
    const bar = el(
      "div", { class: "bar" }, el("label", {}, this.all, "all sessions"), slice, this.object, this.signal, this.hold,
      this.older, this.said,
    );
    this.place = el("div", { class: "split even" }, el("div", {}, bar, this.list.whole), el("div", {}, this.chain.place));
  }

  show() {
    this.again();
    if (this.page.state.entry) this.chain.show(this.page.state.entry, this.page.state.call);
  }

  again() {
    this.before = null;
    write(this.hold, "hold");
    this.list.toTop();
    this.refresh();
  }

  refresh() {
    if (this.before !== null) return;
    this.list.refresh();
  }

  toggle() {
    if (this.before !== null) return this.again();
    this.before = (this.rows[0]?.entry ?? 0) + 1;
    write(this.hold, "go on");
  }

  goBack() {
    const last = this.rows.at(-1);
    if (!last) return;
    this.before = last.entry;
    write(this.hold, "go on");
    this.list.toTop();
    this.list.refresh();
  }

  sought() {
    const session = this.all.checked ? "" : this.page.state.session ?? "";
    const slice = this.slice?.checked ? session : "";
    return { session: slice ? "" : session, slice, object: this.object.value.replace("#", ""), signal: this.signal.value };
  }

  async fetchRows(from, count) {
    const found = await get("lines", { ...this.sought(), before: this.before, count: PIECE });
    const newest = found.rows[0]?.entry ?? 0, past = newest - (this.newest ?? newest);
    const drawn = found.rows.filter((row) => row.entry > (this.newest ?? 0)).length;
    const isSample = this.before === null && past > drawn && found.rows.length;
    const sample = `a sample: ${past} lines since the last picture, ${drawn} of them here`;
    write(this.said, isSample ? sample : `${found.rows.length} of ${found.count}`);
    this.newest = newest;
    this.rows = found.rows;
    const at = this.rows.findIndex((row) => row.entry === this.page.state.entry);
    const chosen = at < 0 ? null : { at, row: this.rows[at] };
    return { total: this.rows.length, rows: this.rows.slice(from, from + count), chosen };
  }

  drawRow(row) {
    const made = el(
      "div", { "data-entry": row.entry, title: row.said ?? row.text, onclick: () => this.page.openEntry(row.entry) },
      el("span", { class: "at", text: row.entry }), name(row.session, "who"),
      el("span", { class: "word", text: row.word || "?" }),
      row.error ? el("span", { class: "mark red", text: row.error }) : null,
      row.calls ? el("span", { class: "mark", text: `${row.calls} call${row.calls > 1 ? "s" : ""}` }) : null,
      row.warnings ? el("span", { class: "mark amber", text: `${row.warnings} warned` }) : null,
      row.by_inspector ? el("span", { class: "mark", text: "by this page" }) : null,
      el("span", { class: "grow faint", text: row.said ?? row.text }),
      row.taken && !this.page.about.record ? el("span", { class: "faint", text: span(row.taken) }) : null,
    );
    return made;
  }

  open(entry, call) {
    this.chain.show(entry, call).catch((error) => say(String(error)));
    this.list.refresh();
  }
}
