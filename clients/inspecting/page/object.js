// One object: its properties, its methods, and its connections both ways.

import { clear, el, link, name, redraw, say, short, shown } from "./elements.js";
import { get, oneAtATime, post } from "./asking.js";
import { Field, parametersOf } from "./editing.js";
import { Star } from "./star.js";

/** Whether something of an object is not known that could be asked. */
function isUnknown(it) {
  return !it.sure || !it.connections_known || it.properties.some((row) => row.value === null || !row.sure);
}

/** Since when something is not known any more, in words. */
function since(moment) {
  if (!moment) return "";
  const time = moment.time ? ` (${new Date(moment.time).toLocaleTimeString("en-GB")})` : "";
  return ` since line ${moment.entry}${time}`;
}

export class ObjectView {
  constructor(page) {
    this.page = page;
    this.place = el("div", { class: "detail", id: "object", tabindex: -1, role: "region", "aria-label": "Object" });
    this.star = new Star(page);
    this.place.addEventListener("compositionstart", () => { this.isComposing = true; }); // what is being composed is not redrawn
    this.place.addEventListener("compositionend", () => { this.isComposing = false; this.refresh(); });
    this.refresh = oneAtATime(() => this.load());
  }

  async load() {
    const { session, object } = this.page.state;
    if (!session || !object) { this.key = null; return void clear(
      this.place, el("p", { class: "faint", text: "Choose an object of the tree." }),
    ); }
    const found = await get("object", { session, number: object });
    if (session !== this.page.state.session || object !== this.page.state.object) return void this.refresh();
    const key = JSON.stringify([found, this.page.undo.done.length]);
    if (key === this.key || this.isComposing) return;
    this.key = key;
    redraw(this.place, found ? this.parts(found) : el("p", { text: "Nothing is known of this session." }));
  }

  parts(it) {
    const head = el(
      "h2", {}, el("span", { class: "code", text: `#${it.object} ` }), name(it.class ?? "class not known", "class"),
      it.name ? [" ", name(JSON.stringify(it.name), "text")] : null,
    );
    const marks = [
      it.is_there ? null : el("span", { class: "mark red", text: "it is not there" }),
      it.is_there && !it.sure ? el("span", { class: "mark amber", text: "it may be gone" }) : null,
      it.blocked ? el("span", { class: "mark red", text: "its signals are blocked" }) : null,
      it.blocked === null ? el("span", { class: "mark amber", text: "whether its signals are blocked is not known" }) : null,
    ];
    const family = el(
      "p", { class: "faint" }, it.chain.length ? `${it.chain.join(" < ")}; ` : "its class file is not known; ",
      it.parent === null ? "its parent is not known" : it.parent ? "below " : "a root",
      it.parent ? this.toObject(it.parent) : null,
      it.children.length ? [
        "; children ", ...it.children.slice(0, 20).flatMap((child, at) => [at ? ", " : "", this.toObject(child)]),
        it.children.length > 20 ? " …" : "",
      ] : null,
    );
    const ask = this.page.about.ask ? el(
      "button", { type: "button", text: "ask for its values", "data-key": "ask", onclick: () => this.askValues(it) },
    ) : null;
    const isAsked = this.page.about.ask || this.page.about.record || !isUnknown(it);
    return [
      isAsked ? null : el("p", { class: "notice", text: "Some of this is not known: with --inspect-ask the page asks for it." }),
      head, ask || marks.some(Boolean) ? el("p", {}, marks, ask) : null, family, this.properties(it),
      this.connections(it), this.listening(it), this.methods(it),
    ];
  }

  toObject(number, text = `#${number}`) {
    return link(text, () => this.page.choose({ object: number }), "code");
  }

  toEntry(number) {
    return number ? link(
      `line ${number}`, () => this.page.openEntry(number),
    ) : el("span", { class: "faint", text: "at first" });
  }

  // ---- properties ----

  properties(it) {
    const head = ["property", "type", "value", "binding", "last change", ...(this.page.about.write ? ["new value"] : [])];
    const rows = it.properties.map((row) => this.property(it, row));
    return el(
      "div", {}, el("h2", { text: "Properties" }),
      el("table", { id: "properties" }, el("tr", {}, head.map((text) => el("th", { scope: "col", text }))), rows),
    );
  }

  property(it, row) {
    const isKnown = row.value !== null;
    const value = el(
      "td", { class: "code" },
      isKnown ? name(shown(row.value), "value") : el("span", { class: "unsure", text: `not known${since(row.since)}` }),
      isKnown && !row.sure ? [" ", el("span", { class: "mark amber", text: `may have changed${since(row.since) || " since"}` })] : null,
    );
    const binding = el("td", { class: "code" }, row.binding ?? (row.bound ? "bound" : ""));
    if (row.error && row.error[0]) binding.append(
      " ", el("span", { class: "mark red", text: row.error[0] }),
      row.error[1] ? "" : el("span", { class: "mark amber", text: `may be over${since(row.error[3])}` }),
    );
    if (row.readers.length) binding.append(
      " ", el("span", { class: "faint", text: "read by " }),
      ...row.readers.flatMap(([number, called], at) => [at ? ", " : "", this.toObject(number, `#${number}.${called}`)]),
    );
    const made = el(
      "tr", { "data-property": row.name },
      el("td", { class: "code", title: row.notify ? `NOTIFY ${row.notify}` : null }, name(row.name)),
      el("td", { class: "class", text: row.type ?? (row.dynamic ? "dynamic" : "not known") }), value, binding,
      el("td", {}, this.toEntry(row.entry)),
    );
    if (this.page.about.write) made.append(this.setter(it, row));
    return made;
  }

  setter(it, row) {
    const key = `${it.session} ${it.object} set ${row.name}`;
    const field = new Field(row.type, `new value of ${row.name}`, key, row.value);
    const undo = this.page.undo.of(it.session, it.object, row.name);
    const title = row.bound ? "ends the binding of the property, which undo does not bring back" : null;
    const back = undo ? el(
      "button",
      { type: "button", text: "undo", title: `set it to ${undo.before} again`, "data-key": `${key} undo`, onclick: () => this.page.undo.undo(undo) },
    ) : null;
    const submit = (event) => { event.preventDefault(); this.set(it, row, field); };
    const button = el("button", { type: "submit", text: "set", title, "data-key": `${key} button` });
    return el("td", {}, el("form", { class: "give", onsubmit: submit }, field.place, back, button));
  }

  async set(it, row, field) {
    const json = field.json();
    if (json === null) return;
    const isKept = row.value !== null && row.sure && !row.bound;
    const command = { do: "set", object: it.object, property: row.name, value: { json } };
    const isDone = await this.give(it.session, command);
    const before = shown(row.value);
    if (isDone && isKept && before !== json) this.page.undo.keep(it.session, it.object, row.name, before, json);
    if (isDone) field.settle(this.place);
    this.key = null;
    this.refresh();
  }

  // ---- methods ----

  methods(it) {
    const rows = it.methods.map(
      (row) => el(
        "tr", { "data-method": row.text }, el("td", { class: "code" }, name(row.text)),
        el("td", { class: row.kind === "signal" ? "signal" : "", text: row.kind ?? "not known" }),
        el("td", { class: "class", text: row.of ?? "" }),
        el("td", { class: "code faint", text: row.body && row.body.length ? short(JSON.stringify(row.body), 300) : "" }),
        this.page.about.write ? this.invoker(it, row) : null,
      )
    );
    const text = rows.length ? null : el("p", { class: "faint", text: "not known: there is no class file, and neither describe nor meta was asked" });
    const ask = this.page.about.ask && it.class && !it.class_known ? el(
      "button",
      { type: "button", text: "ask for meta", onclick: () => this.give(it.session, { do: "meta", class: it.class }) },
    ) : null;
    const head = ["method", "kind", "class", "body", ...(this.page.about.write ? ["invoke"] : [])];
    return el(
      "div", {}, el("h2", { text: "Methods" }), text, ask,
      el("table", { id: "methods" }, rows.length ? el("tr", {}, head.map((it) => el("th", { scope: "col", text: it }))) : null, rows),
    );
  }

  invoker(it, row) {
    const key = `${it.session} ${it.object} invoke ${row.text}`;
    const first = { bool: false, QString: "" };
    const fields = parametersOf(row.text).map(
      (type, at) => new Field(type, `argument ${at + 1} of ${row.text}`, `${key} ${at}`, first[type] ?? 0),
    );
    const invoke = async (event) => {
      event.preventDefault();
      const given = fields.map((field) => field.json());
      if (given.includes(null)) return;
      const command = { do: "invoke", object: it.object, method: row.text, args: { json: `[${given.join(",")}]` } };
      if (await this.give(it.session, command)) fields.forEach((field) => field.settle(this.place));
    };
    const button = el(
      "button", { type: "submit", text: "invoke", "aria-label": `invoke ${row.text}`, "data-key": `${key} button` },
    );
    return el("td", {}, el("form", { class: "give", onsubmit: invoke }, fields.map((field) => field.place), button));
  }

  // ---- connections ----

  connections(it) {
    const rows = [
      ...it.in.map((row) => this.connection(row, "in")),
      ...it.out.filter((row) => row.sender !== row.receiver).map((row) => this.connection(row, "out")),
    ];
    const doubt = it.connections_known ? null : el(
      "p", { class: "unsure", text: `Slots may have made or broken others${since(it.connections_since)}.` },
    );
    const head = ["number", "from", "signal", "to", "calls", "how", "calls seen", "made"].map((text) => el("th", { scope: "col", text }));
    return el(
      "div", {}, el("h2", { text: "Connections" }), doubt,
      rows.length ? [
        this.star.of(it.session, it.object),
        el("table", { id: "connections" }, el("tr", {}, head), rows),
      ] : el("p", { class: "faint", text: "none is known" }),
    );
  }

  connection(row, way) {
    const how = [
      row.queued ? "queued" : "direct", row.single ? "single" : "", row.functor ? "functor" : "",
    ].filter(Boolean).join(", ");
    return el(
      "tr", { "data-connection": row.number ?? "" },
      el("td", { class: "faint", text: `${row.number ?? "?"} ${way === "in" ? "→ here" : "here →"}` }),
      el("td", {}, this.toObject(row.sender), " ", name(row.sender_label)),
      el("td", { class: "code signal", text: row.signal }),
      el("td", {}, this.toObject(row.receiver), " ", name(row.receiver_label)),
      el("td", { class: "code", text: row.method }), el("td", { text: how }),
      el("td", { class: "number", text: row.calls }), el("td", {}, this.toEntry(row.entry)),
    );
  }

  listening(it) {
    if (!it.published.length && !it.joins.length) return null;
    const published = it.published.map(
      ([called, signal]) => el(
        "li", {}, "publishes ", el("span", { class: "signal code", text: signal }), " as ", el("b", { text: called }),
      )
    );
    const joined = it.joins.map(
      ([source, called, method]) => el(
        "li", {}, el("span", { class: "code", text: method }), " listens to ", el("b", { text: called }), " of ",
        link(source, () => this.page.choose({ session: source, object: null })),
      )
    );
    return el("div", {}, el("h2", { text: "Listening" }), el("ul", {}, published, joined));
  }

  // ---- what is asked and given ----

  /** Gives a command, says what came of it, and answers whether it was done. */
  async give(session, command) {
    let isDone = false;
    try {
      const said = await post("ask", { session, command });
      say(said.answer === null ? "not answered" : `${said.said ?? ""} ${short(said.answer, 400)}`);
      isDone = said.answer !== null && !said.error;
      this.key = null;
    } catch (error) { say(String(error)); }
    this.refresh();
    return isDone;
  }

  async askValues(it) {
    try {
      const ask = (command) => post("ask", { session: it.session, command: { ...command, object: it.object } });
      await ask({ do: "dynamicNames" });
      const found = await get("object", { session: it.session, number: it.object });
      for (const row of found.properties) {
        await ask({ do: "get", property: row.name });
        if (row.binding) await ask({ do: "bindingError", property: row.name });
      }
    } catch (error) { say(String(error)); }
    this.refresh();
  }
}
