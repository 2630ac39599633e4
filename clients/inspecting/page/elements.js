// Elements of the page. Whatever comes from the server is text alone, without characters that mislead.

import { plain, write } from "./texts.js";

const SVG = "http://www.w3.org/2000/svg";
const SHOWN = new Set(["title", "aria-label", "placeholder"]); // attributes that people read

/** An element with a class, a text or things within it, and what is done on events. */
export function el(tag, how = {}, ...within) {
  const made = document.createElement(tag);
  return filled(made, how, within);
}

/** The same within a drawing. */
export function drawn(tag, how = {}, ...within) {
  return filled(document.createElementNS(SVG, tag), how, within);
}

function filled(made, how, within) {
  for (const [key, value] of Object.entries(how)) {
    if (value === undefined || value === null || value === false) continue;
    if (key.startsWith("on")) made.addEventListener(key.slice(2), value);
    else if (key === "text") write(made, value);
    else if (SHOWN.has(key)) made.setAttribute(key, plain(value));
    else made.setAttribute(key, value === true ? "" : value);
  }
  made.append(...things(within));
  return made;
}

/** Elements as they are, and all else as texts. */
function things(within) {
  const found = within.flat(3).filter((it) => it !== null && it !== undefined && it !== false);
  return found.map((it) => (it instanceof Node ? it : plain(it)));
}

export function clear(place, ...within) {
  place.replaceChildren(...things(within));
  return place;
}

/** Replaces what a place shows. The focus, what somebody has typed, and how far the place is scrolled remain: elements with
 * the same `data-key` are the same. */
export function redraw(place, ...within) {
  const { scrollTop } = place, active = place.contains(document.activeElement) ? document.activeElement : null;
  const key = active?.dataset.key, marks = active && "selectionStart" in active ? [active.selectionStart, active.selectionEnd] : null;
  const drafts = new Map([...place.querySelectorAll("[data-key]")].filter(isDraft).map((it) => [it.dataset.key, it.value]));
  clear(place, ...within);
  const keyed = new Map([...place.querySelectorAll("[data-key]")].map((it) => [it.dataset.key, it]));
  for (const [name, value] of drafts) if (keyed.has(name)) keyed.get(name).value = value;
  place.scrollTop = scrollTop;
  if (!active) return place;
  const next = keyed.get(key) ?? (place.tabIndex === -1 ? place : null);
  next?.focus({ preventScroll: true });
  if (next && marks && marks[0] !== null && next.setSelectionRange) next.setSelectionRange(...marks);
  return place;
}

/** Whether somebody has changed a field. */
function isDraft(it) {
  if (it.tagName === "INPUT") return it.type !== "checkbox" && it.value !== it.defaultValue;
  return it.tagName === "SELECT" && ![...it.options].some((one) => one.selected && one.defaultSelected);
}

/** A link within the page. */
export function link(text, does, more = "") {
  return el(
    "button", { class: `link ${more}`, text, type: "button", onclick: (event) => { event.stopPropagation(); does(); } },
  );
}

/** A name that somebody has given: its direction of reading affects nothing next to it, and what is cut is in the title. */
export function name(text, more = "") {
  return el("bdi", { class: `cut ${more}`, text, title: text });
}

/** A value as JSON, whole numbers beyond what a browser can tell apart as they are. */
export function shown(value) {
  if (value !== null && typeof value === "object" && !Array.isArray(value) && "large" in value) return value.large;
  if (Array.isArray(value)) return `[${value.map(shown).join(", ")}]`;
  return JSON.stringify(value);
}

export function short(text, most = 120) {
  return text.length > most ? `${text.slice(0, most)} …` : text;
}

/** Millionths of a second in words. */
export function span(micros) {
  if (micros >= 60e6) return `${Math.floor(micros / 60e6)} min ${Math.round((micros % 60e6) / 1e6)} s`;
  if (micros >= 1e6) return `${(micros / 1e6).toFixed(2)} s`;
  if (micros >= 1e3) return `${(micros / 1e3).toFixed(1)} ms`;
  return `${micros} µs`;
}

let hiding = 0;

/** Says something at the corner of the page. */
export function say(text) {
  const place = document.getElementById("message");
  write(place, text);
  place.hidden = false;
  clearTimeout(hiding);
  hiding = setTimeout(() => { place.hidden = true; }, 6000);
}
