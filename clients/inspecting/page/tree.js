// The objects of a session as a tree, and next to it the object that is chosen.

import { el, link, name, say } from "./elements.js";
import { write } from "./texts.js";
import { get, post } from "./asking.js";
import { List } from "./list.js";
import { ObjectView } from "./object.js";

export class TreeView {
  constructor(page) {
    this.page = page;
    this.closed = new Set();
    this.sought = el(
      "input",
      {
        type: "search", placeholder: "number, class or name", class: "grow", "aria-label": "Sought objects of the session",
        oninput: () => this.list.refresh(),
      },
    );
    this.list = new List(
      "tree", (from, count) => this.fetchRows(from, count), (row) => this.drawRow(row), (row) => row.object,
      { label: "Objects", role: "tree", choose: (row) => page.choose({ object: row.object }), press: (key, row) => this.press(key, row) },
    );
    this.notice = el("div", { class: "notice", hidden: true, role: "status" });
    this.ofClass = el("div", { class: "bar", hidden: true });
    this.object = new ObjectView(page);
    this.ask = el("button", { type: "button", text: "ask for the tree", onclick: () => this.askTree() });
    const bar = el("div", { class: "bar" }, this.sought, page.about.ask ? this.ask : null);
    this.place = el(
      "div", { class: "split" }, el("div", {}, bar, this.ofClass, this.notice, this.list.whole), this.object.place,
    );
  }

  show() {
    if (this.session !== this.page.state.session) {
      this.session = this.page.state.session;
      this.closed.clear();
      this.list.empty();
    }
    this.refresh();
  }

  refresh() {
    this.list.refresh();
    this.object.refresh();
  }

  /** The class whose objects alone are listed. */
  filter() {
    const { object, class: className } = this.page.state;
    return object ? null : className;
  }

  async fetchRows(from, count) {
    const { session, object } = this.page.state, className = this.filter();
    const found = session ? await get(
      "tree", { session, from, count, closed: [...this.closed].join(","), sought: this.sought.value, class: className, chosen: object },
    ) : null;
    if (session !== this.page.state.session) return this.fetchRows(from, count); // the objects of another session are not shown
    this.tell(found, className);
    if (found && object && !found.chosen) await this.openTo(session, object);
    return found;
  }

  /** Opens what is above the chosen object, once. */
  async openTo(session, object) {
    if (this.opened === `${session} ${object}`) return;
    this.opened = `${session} ${object}`;
    const found = await get("place", { session, object });
    const above = (found?.object?.above ?? []).filter((it) => this.closed.delete(it));
    if (above.length) this.list.refresh();
  }

  tell(found, className) {
    let text = "";
    if (!this.page.state.session) text = "Choose a session at the left.";
    else if (!found) text = "Nothing is known of this session.";
    else if (found.failed) text = "The session has failed, and holds nothing.";
    else if (!found.known) text = "Some lines of this session were not seen: this may not be all.";
    else if (!found.whole) text = "Slots were called that may have moved objects: where those on the left edge are is not known.";
    write(this.notice, text);
    this.notice.hidden = !text;
    if (this.shownClass === className) return;
    this.shownClass = className;
    this.ofClass.hidden = !className;
    const all = link("show all", () => this.page.choose({ class: null }));
    this.ofClass.replaceChildren("objects of ", name(className ?? "", "class"), " only ", all);
  }

  drawRow(row) {
    const { page } = this;
    const isClosed = this.closed.has(row.object);
    const made = el(
      "div",
      {
        "data-object": row.object, "aria-level": Math.max(0, row.level) + 1, "aria-expanded": row.below ? String(!isClosed) : null,
        onclick: () => page.choose({ object: row.object }),
      },
    );
    made.style.paddingLeft = `${8 + 14 * Math.max(0, row.level)}px`;
    const twist = (event) => { event.stopPropagation(); this.twist(row.object); };
    made.append(
      row.below ? el(
        "span", { class: "twist", "aria-hidden": "true", text: isClosed ? "▸" : "▾", title: isClosed ? "open" : "close", onclick: twist },
      ) : el("span", { class: "twist" })
    );
    made.append(el("span", { class: "code", text: `#${row.object}` }), name(row.class ?? "class not known", "class"));
    if (row.name) made.append(name(JSON.stringify(row.name), "text"));
    if (row.name === null) made.append(el("span", { class: "unsure", text: "name not known" }));
    if (row.blocked) made.append(el("span", { class: "mark red", text: "blocked" }));
    if (row.blocked === null) made.append(el("span", { class: "mark amber", text: "blocked?" }));
    if (row.level < 0) made.append(el("span", { class: "mark amber", text: "where is not known" }));
    if (!row.sure) made.append(el("span", { class: "mark amber", text: "may be gone" }));
    if (!row.whole) made.append(el("span", { class: "mark", text: "may have more below" }));
    return made;
  }

  twist(number) {
    if (!this.closed.delete(number)) this.closed.add(number);
    this.list.refresh();
  }

  /** The keys of a tree: to the right into what is below, to the left out of it. */
  press(key, row) {
    const at = this.list.cursor.at, isOpen = row.below && !this.closed.has(row.object);
    if (key === "ArrowRight" && row.below) {
      if (isOpen) this.list.moveTo(at + 1); else this.twist(row.object);
    } else if (key === "ArrowLeft" && isOpen) this.twist(row.object);
    else if (key === "ArrowLeft") this.toParent(row, at);
    else return key === "ArrowRight";
    return true;
  }

  toParent(row, at) {
    for (let before = at - 1; before >= this.list.from; before--) {
      if (this.list.row(before)?.level < row.level) return void this.list.moveTo(before);
    }
  }

  async askTree() {
    this.ask.disabled = true;
    try {
      const said = await post("ask_tree", { session: this.page.state.session });
      say(`${said.asked} objects asked for their children${said.left ? `, ${said.left} left` : ""}`);
    } catch (error) { say(String(error)); }
    this.ask.disabled = false;
    this.refresh();
  }
}
