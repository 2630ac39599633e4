// A list in which only the visible rows exist. It is used by mouse and by keyboard: the list itself has the focus, and
// `aria-activedescendant` names the row that the arrow keys are on, so that redrawing rows never moves the focus.

import { el } from "./elements.js";
import { oneAtATime } from "./asking.js";

const HEIGHT = 24;
const MORE = 10; // rows above and below what can be seen
const HEIGHT_MOST = 15_000_000;
let lists = 0;

export class List {
  /**
   * `fetchRows(from, count)` answers `{total, rows, chosen}`, `drawRow(row)` an element, and `keyOf(row)` what a row is known
   * by. `how` has the list's `label`, its `role`, `choose(row)`, and `press(key, row)` for further keys, which answers whether
   * it has used the key.
   */
  constructor(className, fetchRows, drawRow, keyOf, how) {
    Object.assign(this, { fetchRows, drawRow, keyOf, how });
    this.id = `list${++lists}`;
    this.role = how.role ?? "listbox";
    this.total = this.from = 0;
    this.rows = [];
    this.cursor = null; // the row that the arrow keys are on: its place, and its key
    this.space = el("div", { class: "space", role: "presentation" });
    this.place = el(
      "div", { class: `list ${className}`, tabindex: 0, role: this.role, "aria-label": how.label, id: this.id },
      this.space,
    );
    this.pinned = el("div", { class: `pinned ${className}`, "aria-hidden": "true", hidden: true });
    this.whole = el("div", { class: "listing" }, this.pinned, this.place);
    this.refresh = oneAtATime(() => this.load());
    this.place.addEventListener("scroll", () => this.scrolled(), { passive: true });
    this.place.addEventListener("keydown", (event) => this.pressed(event));
    this.place.addEventListener("focus", () => this.focused());
    this.pinned.addEventListener("click", () => this.showRow(this.found.chosen.at));
    new ResizeObserver(() => this.refresh()).observe(this.place);
  }

  window() {
    const first = Math.max(0, Math.floor(this.place.scrollTop / HEIGHT) - MORE);
    const count = Math.ceil(this.place.clientHeight / HEIGHT) + 2 * MORE;
    return [first, Math.min(count, 400)];
  }

  scrolled() {
    const [first, count] = this.window();
    const last = Math.min(first + count, this.total);
    if (first < this.from || last > this.from + this.rows.length) this.refresh();
    this.pin();
  }

  async load() {
    if (!this.place.isConnected) return;
    const [first, count] = this.window();
    const found = await this.fetchRows(first, count);
    if (!found) return this.show({ total: 0, rows: [] }, 0);
    this.show(found, first);
  }

  show(found, first) {
    this.found = found;
    this.total = found.total;
    this.from = first;
    this.rows = found.rows;
    this.space.style.height = `${Math.min(found.total * HEIGHT, HEIGHT_MOST)}px`;
    const chosen = found.chosen ? this.keyOf(found.chosen.row) : null;
    const drawn = found.rows.map((row, at) => this.drawn(row, first + at, this.keyOf(row) === chosen));
    this.place.replaceChildren(this.space, ...drawn);
    this.follow(found.chosen, chosen);
    this.point();
    this.pin();
  }

  drawn(row, at, isChosen) {
    const made = this.drawRow(row);
    made.classList.add("row");
    made.id = `${this.id}_${this.keyOf(row)}`;
    made.setAttribute("role", this.role === "tree" ? "treeitem" : "option");
    made.setAttribute("aria-setsize", this.total);
    made.setAttribute("aria-posinset", at + 1);
    made.setAttribute("aria-selected", String(isChosen || made.classList.contains("chosen")));
    made.classList.toggle("chosen", made.getAttribute("aria-selected") === "true");
    made.style.top = `${at * HEIGHT}px`;
    return made;
  }

  /** A row that was chosen just now is moved to where it can be seen. */
  follow(chosen, key) {
    if (key === this.followed) return;
    this.followed = key;
    if (!chosen) return;
    this.cursor = { at: chosen.at, key };
    this.showRow(chosen.at);
  }

  /** The chosen row stays in sight: where the list was scrolled away from it, it is shown at its edge. */
  pin() {
    const chosen = this.found?.chosen, isOut = Boolean(chosen) && this.isOut(chosen.at);
    this.pinned.hidden = !isOut;
    if (!isOut) return void this.pinned.replaceChildren();
    const made = this.drawRow(chosen.row);
    made.classList.add("row", "chosen");
    this.pinned.replaceChildren(made);
    this.pinned.classList.toggle("below", chosen.at * HEIGHT > this.place.scrollTop);
  }

  isOut(at) {
    const top = at * HEIGHT, { scrollTop, clientHeight } = this.place;
    return clientHeight > 0 && (top + HEIGHT / 2 < scrollTop || top + HEIGHT / 2 > scrollTop + clientHeight);
  }

  toTop() {
    this.place.scrollTop = 0;
  }

  /** Shows nothing, until other rows come. */
  empty() {
    this.cursor = null;
    this.show({ total: 0, rows: [] }, 0);
    this.toTop();
  }

  showRow(at) {
    const top = at * HEIGHT, { scrollTop, clientHeight } = this.place;
    if (top < scrollTop || top > scrollTop + clientHeight - HEIGHT) {
      this.place.scrollTop = top - Math.max(0, Math.min(3 * HEIGHT, clientHeight - HEIGHT));
    }
  }

  // ---- keys ----

  row(at) {
    return this.rows[at - this.from] ?? null;
  }

  focused() {
    if (!this.cursor && this.total) this.moveTo(this.found?.chosen?.at ?? Math.ceil(this.place.scrollTop / HEIGHT));
  }

  /** Names the row that the keys are on. After a change of the list that is the same row, wherever it is now. */
  point() {
    if (!this.cursor) return void this.place.removeAttribute("aria-activedescendant");
    const at = this.rows.findIndex((row) => this.keyOf(row) === this.cursor.key);
    if (at >= 0) this.cursor.at = at + this.from;
    this.cursor.at = Math.max(0, Math.min(this.cursor.at, this.total - 1));
    const row = this.row(this.cursor.at);
    if (row) this.cursor.key = this.keyOf(row);
    for (const it of this.place.querySelectorAll(".cursor")) it.classList.remove("cursor");
    const made = row && document.getElementById(`${this.id}_${this.cursor.key}`);
    made?.classList.add("cursor");
    if (made) this.place.setAttribute("aria-activedescendant", made.id);
    else this.place.removeAttribute("aria-activedescendant");
  }

  moveTo(at) {
    if (!this.total) return;
    const to = Math.max(0, Math.min(at, this.total - 1)), row = this.row(to);
    this.cursor = { at: to, key: row ? this.keyOf(row) : null };
    this.showRow(to);
    this.point();
  }

  pressed(event) {
    if (event.ctrlKey || event.altKey || event.metaKey) return;
    const at = this.cursor?.at ?? -1, page = Math.max(1, Math.floor(this.place.clientHeight / HEIGHT) - 1);
    const moves = {
      ArrowDown: at + 1, ArrowUp: at - 1, PageDown: at + page, PageUp: at - page, Home: 0, End: this.total - 1,
    };
    const row = at >= 0 ? this.row(at) : null;
    if (event.key in moves) this.moveTo(moves[event.key]);
    else if (row && (event.key === "Enter" || event.key === " ")) this.how.choose(row);
    else if (!row || !this.how.press?.(event.key, row)) return;
    event.preventDefault();
  }
}
