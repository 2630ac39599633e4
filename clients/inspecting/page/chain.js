// One command with the calls within one another, and the chain from the first signal to a slot.

import { clear, el, link, shown, short, span } from "./elements.js";
import { get } from "./asking.js";

export class ChainView {
  constructor(page) {
    this.page = page;
    this.place = el("div", { class: "detail", id: "chain" });
    this.empty();
  }

  empty() {
    clear(this.place, el("p", { class: "faint", text: "Choose a line: what was called for it, and why, stands here." }));
  }

  /** Shows a command, and what has led to one of its calls. */
  async show(number, call = null) {
    const turn = this.turn = {}; // what was chosen later is not overwritten
    const it = await get("entry", { number });
    if (this.turn !== turn) return;
    if (!it) return void clear(this.place, el("p", { text: `Line ${number} is not kept any more, or was never seen.` }));
    const chain = call === null || !it.call_rows[call] ? null : await get("chain", { number, call });
    if (this.turn !== turn) return;
    clear(
      this.place, this.head(it), chain ? this.chain(chain) : null, this.calls(it, call), el("h3", { text: "Answer" }),
      el("div", { class: "code", text: short(it.answer, 4000) }),
      it.said ? el("p", { class: "faint", text: it.said }) : null,
    );
    this.place.querySelector("li.chosen")?.scrollIntoView({ block: "nearest" });
  }

  head(it) {
    const page = this.page;
    const time = page.about.record ? "" : `, ${span(it.taken)}`;
    return el(
      "div", {},
      el("h2", { text: `Line ${it.entry} of ${it.session}${it.by_inspector ? ", by this page" : ""}${time}` }),
      el("div", { class: "code", text: short(it.text, 4000) }),
      el("p", {}, link("before", () => page.openEntry(it.entry - 1)), " ", link("after", () => page.openEntry(it.entry + 1))),
    );
  }

  object(session, number) {
    return link(`#${number}`, () => this.page.choose({ session, object: number, view: "objects" }), "code");
  }

  // ---- the chain to one call ----

  chain(steps) {
    const rows = steps.map((it) => el("li", { "data-kind": it.kind }, this.step(it)));
    return el("div", {}, el("h3", { text: "What has led to it" }), el("ol", { class: "chain", id: "steps" }, rows));
  }

  step(it) {
    if (it.kind === "unknown") return el("span", { class: "unsure", text: `line ${it.entry}, which is not kept any more` });
    if (it.kind === "command") return [
      link(`line ${it.entry}`, () => this.page.openEntry(it.entry)), ` of ${it.session}: `,
      el("span", { class: "code", text: it.text }),
    ];
    if (it.kind === "event") return el("span", { class: "faint", text: `it waited as an event, up to line ${it.entry}` });
    const does = it.kind === "signal" ? "sends " : "calls ";
    return [
      this.object(it.session, it.object), it.kind === "signal" ? ` ${does}` : ": ",
      el("span", { class: `code ${it.kind === "signal" ? "signal" : ""}`, text: it.text }),
    ];
  }

  // ---- all calls ----

  calls(it, chosen) {
    if (!it.call_rows.length && !it.warning_rows.length) return el("p", { class: "faint", text: "It has called nothing." });
    const below = new Map();
    for (const row of it.call_rows) below.set(row.parent, [...(below.get(row.parent) ?? []), row]);
    const warned = new Map();
    for (const row of it.warning_rows) warned.set(row[3], [...(warned.get(row[3]) ?? []), row]);
    const left = it.left_out ? el("p", { class: "unsure", text: `${it.left_out} further calls are not kept.` }) : null;
    return el(
      "div", {}, el("h3", { text: "Calls" }), this.warnings(warned.get(0)),
      this.branch(it, below, warned, -1, chosen, 0), left,
    );
  }

  branch(it, below, warned, parent, chosen, depth) {
    const rows = (below.get(parent) ?? []).slice(0, 1000);
    if (!rows.length) return null;
    if (depth > 200) return el("p", { class: "faint", text: "…" });
    return el(
      "ul", { class: "calls" },
      rows.map(
        (row) => el(
          "li", { class: row.number === chosen ? "chosen" : null, "data-call": row.number, "data-depth": depth },
          this.call(it, row), this.warnings(warned.get(row.number + 1)),
          this.branch(it, below, warned, row.number, chosen, depth + 1),
        )
      ),
    );
  }

  call(it, row) {
    const path = row.path.flatMap(
      ([number, signal, connection]) => [
        this.object(it.session, number), el("span", { class: "signal code", text: ` ${signal}` }),
        connection ? el("span", { class: "faint", text: ` (${connection})` }) : null, " → ",
      ]
    );
    const why = link("why", () => this.show(it.entry, row.number));
    const posted = row.posted ? el(
      "span", {}, " posted by ",
      link(`line ${row.posted[0]}`, () => this.page.openEntry(row.posted[0], row.posted[1] >= 0 ? row.posted[1] : null)),
      row.posted[2] === it.session ? null : ` of ${row.posted[2]}`,
    ) : null;
    const by = row.connection ? el("span", { class: "faint", text: ` by connection ${row.connection}` }) : null;
    const doubt = row.traced ? null : el("span", { class: "mark amber", text: "why is not known" });
    return el(
      "span", { class: "call" }, path, this.object(it.session, row.object),
      el("span", { class: "class", text: ` ${row.class ?? ""} ` }), el("b", { class: "code", text: row.call }),
      el("span", { class: "code text", text: ` ${short(shown(row.args), 300)}` }),
      row.sender ? el("span", { class: "faint", text: ` from #${row.sender}` }) : null, by, posted, " ", doubt, " ", why,
    );
  }

  warnings(rows) {
    return (rows ?? []).map(
      ([code, number, property]) => el(
        "div", {},
        el("span", { class: "mark red", text: `${code}${number ? ` #${number}` : ""}${property ? `.${property}` : ""}` }),
      )
    );
  }
}
