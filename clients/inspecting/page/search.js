// Search across all sessions.

import { clear, el, link, name } from "./elements.js";
import { write } from "./texts.js";
import { Pause, get, oneAtATime } from "./asking.js";

const KINDS = ["", "session", "object", "class", "name", "value", "publication"];
const PAUSE = 200; // milliseconds after a key, before what was typed is searched

export class SearchView {
  constructor(page) {
    this.page = page;
    this.sought = el(
      "input",
      {
        type: "search", class: "grow", id: "sought", "aria-label": "Search all sessions",
        placeholder: "an object's number, a class, a name, a value or a publication",
      },
    );
    this.by = el(
      "select", { "aria-label": "Search by", id: "by", onchange: () => this.go() },
      KINDS.map((it) => el("option", { value: it, text: it || "everything" })),
    );
    this.said = el("span", { class: "faint", id: "search_said", role: "status" });
    this.table = el("table", { id: "found" });
    const again = el("button", { type: "button", text: "search", onclick: () => { this.key = null; this.go(); } });
    this.place = el(
      "div", { class: "detail_of_graphs", role: "search" },
      el("div", { class: "bar" }, this.sought, this.by, again, this.said),
      el("div", { class: "scroll detail", role: "region", "aria-label": "Found" }, this.table),
    );
    this.later = new Pause(() => this.go());
    this.sought.addEventListener("input", () => this.later.begin(PAUSE));
    this.sought.addEventListener("keydown", (event) => { if (event.key === "Enter") { this.key = null; this.go(); } });
    this.load = oneAtATime(() => this.search());
  }

  show() {
    const { sought, by } = this.page.state;
    if (document.activeElement !== this.sought) this.sought.value = sought ?? "";
    this.by.value = by ?? "";
    this.load();
  }

  refresh() {} // a search is not repeated before somebody asks

  go() {
    this.later.end();
    this.page.choose({ view: "search", sought: this.sought.value.trim() || null, by: this.by.value || null });
    this.load();
  }

  async search() {
    const { sought, by } = this.page.state, key = JSON.stringify([sought, by]);
    if (key === this.key) return;
    this.key = key;
    const found = sought ? await get("search", { sought, by }) : null;
    if (!found) { clear(this.table); return void write(this.said, ""); }
    write(this.said, this.words(found));
    const head = ["session", "object", "class", "name", "found by", "match"].map((text) => el("th", { scope: "col", text }));
    clear(this.table, el("tr", {}, head), found.rows.map((row) => this.row(row)));
  }

  words(found) {
    const left = found.sessions - found.looked_at;
    const early = left ? `, ${left} sessions were not looked at` : "";
    return `${found.rows.length}${found.more ? " and more" : ""} found in ${found.looked_at} sessions${found.more ? "" : early}`;
  }

  row(it) {
    const open = () => this.page.choose({ view: "objects", session: it.session, object: it.object });
    return el(
      "tr", { "data-found": `${it.session} ${it.object ?? ""} ${it.kind}` },
      el("td", {}, link(it.session, () => this.page.choose({ view: "objects", session: it.session, object: null }))),
      el("td", { class: "code" }, it.object ? link(`#${it.object}`, open) : null), el("td", {}, it.class ? name(it.class, "class") : null),
      el("td", {}, it.name ? name(JSON.stringify(it.name), "text") : null), el("td", { text: it.kind }),
      el("td", { class: "code" }, name(it.match)),
    );
  }
}
