// Light or dark: as the system has it, or as somebody has chosen here.

import { el } from "./elements.js";

const KEPT = "metad colours", CHOICES = ["auto", "light", "dark"];

export function themeSwitch() {
  const kept = read();
  set(kept);
  return el(
    "select", { id: "theme", "aria-label": "Colours", title: "colours of the page", onchange: (event) => choose(event.target.value) },
    CHOICES.map((it) => el("option", { value: it, text: it, selected: it === kept })),
  );
}

function choose(theme) {
  set(theme);
  try { localStorage.setItem(KEPT, theme); } catch { /* a browser that keeps nothing forgets it */ }
}

function read() {
  try {
    const kept = localStorage.getItem(KEPT);
    return CHOICES.includes(kept) ? kept : "auto";
  } catch { return "auto"; }
}

function set(theme) {
  if (theme === "auto") delete document.documentElement.dataset.theme;
  else document.documentElement.dataset.theme = theme;
}
