// Keys that work everywhere in the page, and the list of all keys.

import { el } from "./elements.js";

const HELP = [
  ["/", "search all sessions"], ["?", "show these keys"], ["Alt+1 … Alt+6", "choose a view"],
  ["Alt+S, Alt+O", "go to the list of sessions, to the list of the view"], ["Ctrl+Z", "undo the last value that was set here"],
  ["↑ ↓ Page Home End", "move in a list, or along a graph"], ["Enter", "choose the row"], ["→ ←", "open and close an object of the tree"],
  ["+ − 0", "zoom a graph or the timeline, and show all of it"],
];

export class Keys {
  constructor(page, views) {
    this.page = page;
    this.views = views;
    const rows = HELP.map(([key, text]) => el("tr", {}, el("th", { scope: "row" }, el("kbd", { text: key })), el("td", { text })));
    this.help = el(
      "dialog", { id: "keys", "aria-label": "Keys" }, el("h2", { text: "Keys" }), el("table", {}, rows),
      el("button", { type: "button", text: "close", onclick: () => this.help.close() }),
    );
    document.body.append(this.help);
    document.addEventListener("keydown", (event) => this.pressed(event));
  }

  pressed(event) {
    if (event.isComposing || this.help.open) return;
    const does = event.altKey ? this.withAlt(event) : isField(event.target) ? null : this.plain(event);
    if (!does) return;
    event.preventDefault();
    does();
  }

  withAlt(event) {
    const { page } = this, at = /^Digit[1-9]$/.test(event.code) ? Number(event.code.slice(5)) - 1 : -1;
    if (this.views[at]) return () => page.choose({ view: this.views[at] });
    if (event.code === "KeyS") return () => page.sessions.list.place.focus();
    if (event.code === "KeyO") return () => document.querySelector("#view [role=tree], #view [role=listbox], #view [tabindex='0']")?.focus();
    return null;
  }

  plain(event) {
    if ((event.ctrlKey || event.metaKey) && event.key === "z") return () => this.page.undo.last();
    if (event.ctrlKey || event.metaKey) return null;
    if (event.key === "/") return () => this.page.openSearch();
    if (event.key === "?") return () => this.help.showModal();
    return null;
  }
}

function isField(it) {
  return it instanceof HTMLElement && it.matches("input, select, textarea");
}
