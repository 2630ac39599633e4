// The sessions at the left.

import { el, name } from "./elements.js";
import { write } from "./texts.js";
import { get } from "./asking.js";
import { List } from "./list.js";

const COLUMNS = [
  ["objects", "objects"], ["connections", "conn.", "connections"], ["queued", "queued", "queued events"],
  ["bindings", "bind.", "bindings"], ["joins", "joins"],
];
const FILTERS = [
  ["failed", "sessions that ran out of memory"], ["busy", "sessions with lines in the last second"],
  ["waiting", "sessions with queued events"],
];

export class Sessions {
  constructor(place, page) {
    this.page = page;
    this.sought = el(
      "input",
      { type: "search", placeholder: "part of a name", class: "grow", "aria-label": "Sought in names of sessions", oninput: () => this.list.refresh() },
    );
    const orders = ["name", "objects", "connections", "queued", "rate", "lines", "first"];
    this.order = el(
      "select", { "aria-label": "Order of the sessions", onchange: () => this.list.refresh() },
      orders.map((it) => el("option", { text: it, value: it })),
    );
    this.list = new List(
      "sessions", (from, count) => this.fetchRows(from, count), (row) => this.drawRow(row), (row) => row.name,
      { label: "Sessions", choose: (row) => page.choose({ session: row.name }) },
    );
    this.said = el("span", { class: "faint" });
    this.filters = new Map(FILTERS.map(([key, title]) => [key, this.filter(key, title)]));
    place.append(
      el("div", { class: "bar" }, this.sought, this.order, this.said),
      el("div", { class: "bar", role: "group", "aria-label": "Show only" }, ...this.filters.values()),
      el(
        "div", { class: "sessions", "aria-hidden": "true" },
        el(
          "div", { class: "head" }, el("span", { class: "name", text: "session" }),
          COLUMNS.map(([, text]) => el("span", { text })), el("span", { text: "lines/s" }),
        ),
      ),
      this.list.whole,
    );
  }

  filter(key, title) {
    const toggle = () => {
      const only = new Set(this.only());
      if (!only.delete(key)) only.add(key);
      this.page.choose({ only: [...only].join(",") || null });
    };
    return el("button", { type: "button", title, "aria-pressed": "false", "data-only": key, text: key, onclick: toggle });
  }

  only() {
    return (this.page.state.only ?? "").split(",").filter((it) => this.filters.has(it));
  }

  refresh() {
    this.list.refresh();
  }

  async fetchRows(from, count) {
    const only = this.only(), chosen = this.page.state.session;
    const found = await get(
      "sessions", { from, count, sought: this.sought.value, sort: this.order.value, only: only.join(","), chosen },
    );
    write(this.said, found.total);
    for (const [key, button] of this.filters) {
      button.setAttribute("aria-pressed", String(only.includes(key)));
      write(button, `${key} ${found.counted[key]}`);
    }
    return found;
  }

  drawRow(row) {
    const counts = COLUMNS.map(([key]) => this.count(row[key], row.since[key]));
    const spoken = COLUMNS.map(([key, text, long]) => `${row[key][0]}${row[key][1] ? "" : " or so"} ${long ?? text}`).join(", ");
    const title = `${row.name}: ${row.lines} lines, ${row.commands} commands, ${row.publications[0]} published`;
    const called = el("span", { class: `name ${row.failed ? "failed" : ""}` }, row.failed ? "✕ " : null, name(row.name));
    const label = `${row.name}${row.failed ? ", failed" : ""}: ${spoken}`;
    return el(
      "div",
      { title, "data-session": row.name, "aria-label": label, onclick: () => this.page.choose({ session: row.name }) },
      called, counts, el("span", { text: row.rate || "" }),
    );
  }

  count([number, isSure], since) {
    const title = isSure ? null : `not known for certain${since ? ` since line ${since}` : ""}`;
    return el("span", { class: isSure ? "" : "unsure", text: isSure ? number : `${number}?`, title });
  }
}
