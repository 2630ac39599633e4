// A timeline: a lane for each signal of an object, a tick for each time that it was sent, how often signals were sent, and the
// values of a property.

import { clear, drawn, el, say, short, shown, span } from "./elements.js";
import { write } from "./texts.js";
import { get, oneAtATime } from "./asking.js";
import { ChainView } from "./chain.js";
import { LEAST, MOST, SPANS, marksOf, stepOf, textOf } from "./scale.js";

const LEFT = 230, LANE = 20, LANES = 40, EDGE = 26, PLOT = 64, BINS = 120, FACTOR = 2;

export class TimelineView {
  constructor(page) {
    this.page = page;
    this.span = null; // how long the window is, or null for all that is kept
    this.until = null; // where it ends, or null for the newest
    const changed = () => { this.key = null; this.load(); };
    this.all = el("input", { type: "checkbox", onchange: changed });
    this.object = el("input", { size: 6, placeholder: "object", "aria-label": "Object", oninput: changed });
    this.signal = el("input", { placeholder: "signal", class: "grow", "aria-label": "Signal", oninput: changed });
    const plots = "plots the values of this property of the object";
    this.property = el(
      "input", { size: 10, placeholder: "property", "aria-label": "Property to plot", title: plots, oninput: changed },
    );
    this.held = el("input", { type: "checkbox", onchange: () => this.refresh() });
    this.said = el("span", { class: "faint", id: "timeline_said" });
    this.spans = el(
      "select", { "aria-label": "Span of time", id: "span", onchange: () => this.zoomTo(Number(this.spans.value) || null) },
      el("option", { value: "", text: "all that is kept" }), SPANS.map(([value, text]) => el("option", { value, text })),
      el("option", { value: "0", text: "other", hidden: true }),
    );
    this.drawing = el("div", { class: "scroll", id: "timeline", tabindex: 0, role: "group", "aria-label": "Timeline" });
    this.drawing.addEventListener("wheel", (event) => this.wheel(event), { passive: false });
    this.drawing.addEventListener("keydown", (event) => this.pressed(event));
    this.chain = new ChainView(page);
    this.place = el("div", { class: "split even" }, el("div", {}, this.bar(), this.drawing), el("div", {}, this.chain.place));
    this.load = oneAtATime(() => this.draw());
  }

  bar() {
    const button = (text, title, does) => el("button", { type: "button", text, title, "aria-label": title, onclick: does });
    return el(
      "div", { class: "bar" }, el("label", {}, this.all, "all sessions"), this.object, this.signal, this.property, this.spans,
      el(
        "span", { class: "zoom", role: "group", "aria-label": "Time" }, button("◀", "earlier", () => this.move(-0.5)),
        button("▶", "later", () => this.move(0.5)), button("−", "longer", () => this.zoom(FACTOR)),
        button("+", "shorter", () => this.zoom(1 / FACTOR)), button("▶|", "the newest", () => this.toNewest()),
      ),
      el("label", {}, this.held, "hold"), this.said,
    );
  }

  show() {
    this.key = null;
    this.load();
  }

  refresh() {
    if (!this.held.checked) this.load();
  }

  // ---- the window ----

  zoomTo(length, middle = null) {
    if (this.found && middle !== null && length) this.until = Math.round(middle + length / 2);
    this.span = length;
    if (!length) this.until = null;
    const known = SPANS.some(([value]) => value === length);
    this.spans.value = length ? (known ? String(length) : "0") : "";
    this.load();
  }

  zoom(factor, middle = null) {
    if (!this.found) return;
    const length = Math.round(Math.min(MOST, Math.max(LEAST, (this.span ?? this.found.to - this.found.from) * factor)));
    this.zoomTo(length, middle ?? (this.until === null ? null : this.until - this.span / 2));
  }

  move(share) {
    if (!this.found) return;
    const length = this.span ?? this.found.to - this.found.from;
    this.until = Math.max(0, Math.round((this.until ?? this.found.to) + share * length));
    this.zoomTo(length);
  }

  toNewest() {
    this.until = null;
    this.load();
  }

  wheel(event) {
    if (!event.ctrlKey || !this.found) return;
    event.preventDefault();
    const share = (event.clientX - this.drawing.getBoundingClientRect().left - LEFT) / Math.max(1, this.across);
    const { from, to } = this.found, at = from + Math.min(1, Math.max(0, share)) * (to - from), factor = event.deltaY < 0 ? 1 / FACTOR : FACTOR;
    this.zoom(factor, at + (from + (to - from) / 2 - at) * factor);
  }

  pressed(event) {
    if (event.ctrlKey || event.altKey || event.metaKey) return;
    const does = {
      "+": () => this.zoom(1 / FACTOR), "-": () => this.zoom(FACTOR), 0: () => this.zoomTo(null), ArrowLeft: () => this.move(-0.25),
      ArrowRight: () => this.move(0.25), End: () => this.toNewest(),
    }[event.key];
    if (event.key === "Enter" && event.target.matches(".tick")) event.target.dispatchEvent(new MouseEvent("click", { bubbles: true }));
    else if (does) does();
    else return;
    event.preventDefault();
  }

  // ---- the picture ----

  asked(now) {
    const session = this.all.checked ? "" : this.page.state.session ?? "", end = this.until ?? now;
    const times = this.span ? { from: Math.max(0, end - this.span), to: end } : {};
    return { session, object: this.object.value.replace("#", ""), ...times };
  }

  async draw() {
    const now = this.span && this.until === null ? (await get("emissions", { count: 0, from: 0, to: 0 })).now : null;
    const asked = this.asked(now);
    const found = this.found = await get("emissions", { ...asked, signal: this.signal.value, count: 1500, bins: BINS });
    const plotted = this.property.value && asked.session && asked.object
      ? (await get("values", { ...asked, from: found.from, to: found.to, property: this.property.value })).points : null;
    const key = JSON.stringify([found, plotted, this.drawing.clientWidth]);
    if (key === this.key) return;
    this.key = key;
    const lanes = new Map();
    for (const row of found.rows) {
      const name = `${row[2]} #${row[3]} ${row[4]}`;
      lanes.set(name, [...(lanes.get(name) ?? []), row]);
    }
    const busiest = [...lanes].sort((a, b) => b[1].length - a[1].length);
    const left = busiest.length > LANES ? `, the ${LANES} busiest shown` : "";
    const newest = found.total > found.rows.length ? `, the newest ${found.rows.length} shown` : "";
    const length = this.page.about.record ? "" : ` in ${span(found.to - found.from)}`;
    write(this.said, `${found.total} emissions of ${lanes.size} signals${length}${newest}${left}`);
    const isEmpty = !found.rows.length && !plotted?.length && !this.span;
    const picture = isEmpty ? el("p", { class: "faint detail", text: "No known signal was sent." })
      : this.picture(busiest.slice(0, LANES), found, plotted);
    const focused = this.drawing.contains(document.activeElement) ? document.activeElement.dataset.emission : null;
    clear(this.drawing, picture);
    if (focused) (this.drawing.querySelector(`[data-emission="${focused}"]`) ?? this.drawing).focus({ preventScroll: true });
  }

  picture(lanes, found, plotted) {
    const width = Math.max(420, this.drawing.clientWidth - 20);
    this.across = width - LEFT - 30;
    const x = (time) => LEFT + ((time - found.from) / (found.to - found.from)) * this.across;
    const low = EDGE + lanes.length * LANE + 8, height = low + PLOT + (plotted ? PLOT + 16 : 0) + 24;
    const svg = drawn("svg", { width, height, viewBox: `0 0 ${width} ${height}`, role: "group", "aria-label": "Signals over time" });
    svg.append(...this.axis(found, x, height));
    lanes.forEach(([key, rows], at) => {
      const y = EDGE + at * LANE + LANE / 2;
      svg.append(
        drawn("line", { x1: LEFT, x2: width - 20, y1: y, y2: y, class: "lane" }),
        drawn("text", { x: 6, y: y + 4, text: short(key, 32) }, drawn("title", { text: key })),
      );
      rows.forEach((row, number) => svg.append(this.tick(row, x(row[6]), y, number === 0)));
    });
    svg.append(...this.rates(found, x, low));
    if (plotted) svg.append(...this.plot(plotted, found, x, low + PLOT + 16));
    return svg;
  }

  axis({ from, to, epoch }, x, height) {
    const count = Math.max(2, Math.floor(this.across / 110)), step = stepOf(to - from, count), isRecord = this.page.about.record;
    const text = (time) => (isRecord ? `line ${Math.floor(time / 1000) + 1}` : textOf(time, step, epoch));
    const begun = isRecord ? 0 : epoch ?? 0; // so that marks are at round times of the day
    return marksOf(from + begun, to + begun, count).map((at) => at - begun).map((time) => drawn(
      "g", { class: "mark_of_time", "data-time": time },
      drawn("line", { x1: x(time), x2: x(time), y1: 18, y2: height - 4, class: "lane" }),
      drawn("text", { x: x(time), y: 13, class: "under", "text-anchor": "middle", text: text(time) }),
    ));
  }

  /** How often signals were sent, as bars. */
  rates({ rates, from, to }, x, top) {
    const most = Math.max(1, ...rates), each = (to - from) / rates.length, wide = this.across / rates.length;
    const high = (count) => ((PLOT - 14) * count) / most, perSecond = (count) => (count / each) * 1e6;
    const lines = Math.max(1, Math.round(each / 1000)), many = lines > 1 ? `${lines} lines` : "a line";
    const label = this.page.about.record ? `at most ${most} in ${many}` : `at most ${round(perSecond(most))} signals/s`;
    const bars = rates.map((count, at) => count && drawn(
      "rect",
      {
        x: x(from + at * each), y: top + PLOT - 14 - high(count), width: Math.max(1, wide - 1), height: high(count),
        class: "bar_of_rate", "data-count": count,
      },
      drawn("title", { text: `${count} signals` }),
    )).filter(Boolean);
    return [drawn("text", { x: 6, y: top + 14, text: "signals sent" }), drawn("text", { x: 6, y: top + 28, class: "under", text: label }), ...bars];
  }

  /** The values of a property: a line in steps if they are numbers, otherwise marks. */
  plot(points, { from, to }, x, top) {
    const numbers = points.map((it) => numberOf(it.value)), areNumbers = numbers.every((it) => it !== null);
    const least = Math.min(...numbers), most = Math.max(...numbers), low = top + PLOT - 14;
    const y = (number) => (areNumbers && most > least ? low - ((number - least) / (most - least)) * (PLOT - 20) : low - 10);
    const place = (it) => [x(Math.max(from, it.time)), y(numberOf(it.value))];
    const steps = points.map((it, at) => `${at ? "H" : "M"}${place(it)[0]}${at ? "V" : " "}${place(it)[1]}`).join("");
    const of = (number) => shown(points[numbers.indexOf(number)].value);
    const label = !points.length ? "no value is known" : areNumbers ? `${of(least)} to ${of(most)}` : `${points.length} values`;
    return [
      drawn("text", { x: 6, y: top + 14, text: short(`#${this.object.value.replace("#", "")}.${this.property.value}`, 30) }),
      drawn("text", { x: 6, y: top + 28, class: "under", text: short(label, 34) }),
      points.length ? drawn("path", { d: `${steps}H${x(to)}`, class: "value_line" }) : null,
      ...points.map((it) => drawn(
        "circle",
        { cx: place(it)[0], cy: place(it)[1], r: 2.5, class: "value_point", "data-value": shown(it.value), "data-entry": it.entry },
        drawn("title", { text: `${short(shown(it.value), 100)}, line ${it.entry}` }),
      )),
    ].filter(Boolean);
  }

  tick(row, x, y, isFirst) {
    const [entry, at, session, object, signal, calls] = row;
    const label = `#${object} ${signal}, line ${entry} of ${session}: ${calls} calls`;
    const made = drawn(
      "circle",
      {
        cx: x, cy: y, r: Math.min(9, 3 + Math.sqrt(calls)), class: "tick", "data-emission": `${entry} ${at}`, role: "button",
        tabindex: isFirst ? 0 : -1, "aria-label": label,
      },
      drawn("title", { text: label }),
    );
    made.classList.toggle("chosen", this.chosen === made.dataset.emission);
    made.addEventListener("click", () => this.choose(entry, at, made));
    return made;
  }

  async choose(entry, at, made) {
    this.held.checked = true;
    for (const it of this.drawing.querySelectorAll(".chosen")) it.classList.remove("chosen");
    made.classList.add("chosen");
    this.chosen = made.dataset.emission;
    try {
      const whole = await get("entry", { number: entry });
      if (this.chosen !== `${entry} ${at}`) return; // another one was chosen meanwhile
      const emission = whole?.emissions[at];
      const event = emission && !emission[3].length ? emission[4].at(-1) : null;
      await (event ? this.chain.show(...event) : this.chain.show(entry, emission ? lastOf(whole, emission) : null));
    } catch (error) { say(String(error)); }
  }
}

function round(number) {
  return number >= 10 ? Math.round(number) : Number(number.toPrecision(2));
}

/** A value as a number, or null. */
function numberOf(value) {
  if (value !== null && typeof value === "object" && "large" in value) return Number(value.large);
  return typeof value === "number" || typeof value === "boolean" ? Number(value) : null;
}

/** The last call that an emission has led to, within those that it has made itself: the end of its chain. */
function lastOf(whole, [, , from, calls]) {
  if (!calls.length) return from >= 0 ? from : null;
  let last = calls.at(-1);
  for (const row of whole.call_rows) if (row.parent === last) last = row.number;
  return last;
}
