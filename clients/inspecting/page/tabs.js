// The views as tabs, between which the arrow keys move.

import { el } from "./elements.js";

export class Tabs {
  constructor(place, views, choose) {
    this.place = place;
    this.tabs = new Map(views.map(([name, text]) => [name, el(
      "button",
      {
        type: "button", role: "tab", id: `tab_${name}`, "aria-controls": "view", tabindex: -1, text, "data-view": name,
        onclick: () => choose(name),
      },
    )]));
    place.append(...this.tabs.values());
    place.addEventListener("keydown", (event) => this.pressed(event));
  }

  show(chosen) {
    for (const [name, tab] of this.tabs) {
      tab.classList.toggle("chosen", name === chosen);
      tab.setAttribute("aria-selected", String(name === chosen));
      tab.tabIndex = name === chosen ? 0 : -1;
    }
    document.getElementById("view").setAttribute("aria-labelledby", `tab_${chosen}`);
  }

  pressed(event) {
    const all = [...this.tabs.values()], at = all.indexOf(event.target), { length } = all;
    const to = { ArrowRight: at + 1, ArrowLeft: at - 1 + length, Home: 0, End: length - 1 }[event.key];
    if (at < 0 || to === undefined) return;
    event.preventDefault();
    all[to % length].focus();
    all[to % length].click();
  }
}
