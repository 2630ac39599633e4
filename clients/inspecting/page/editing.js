// Fields for values, one kind for each type of the protocol.

import { el } from "./elements.js";

const WHOLE = {
  int: [-(2n ** 31n), 2n ** 31n - 1n], uint: [0n, 2n ** 32n - 1n], qlonglong: [-(2n ** 63n), 2n ** 63n - 1n],
  qulonglong: [0n, 2n ** 64n - 1n],
};
const ANY = [-(2n ** 63n), 2n ** 64n - 1n]; // a number without a declared type
const KINDS = { text: "QString", number: "any", "true or false": "bool" };

/** The JSON of what somebody has written for a type. Throws what is wrong with it, in words. */
export function jsonOf(type, text) {
  if (type === "QString") return JSON.stringify(text);
  if (type === "bool") {
    if (text === "true" || text === "false") return text;
    throw new Error("true or false");
  }
  const [least, most] = WHOLE[type] ?? ANY, trimmed = text.trim();
  if (!/^-?\d{1,20}$/.test(trimmed)) throw new Error(`a whole number from ${least} to ${most}`);
  const number = BigInt(trimmed);
  if (number < least || number > most) throw new Error(`a whole number from ${least} to ${most}`);
  return String(number);
}

/** What a field shows for a value of the protocol. */
export function textOf(value) {
  if (value === null || value === undefined) return "";
  if (typeof value === "object" && "large" in value) return value.large;
  return String(value);
}

/** The types of the parameters in a signature. */
export function parametersOf(signature) {
  const within = signature.slice(signature.indexOf("(") + 1, signature.lastIndexOf(")"));
  return within ? within.split(",") : [];
}

/** A field for a value. `json()` answers what is written there as JSON, or null after it has said what is wrong with it. */
export class Field {
  constructor(type, label, key, value) {
    this.type = type in WHOLE || type === "bool" || type === "QString" ? type : null;
    this.fault = el("span", { class: "fault", role: "alert", id: `fault_${++Field.made}` });
    if (!this.type) this.kind = this.kindOf(value, label, key);
    this.input = this.fieldOf(label, key, value);
    this.place = el("span", { class: "field" }, this.kind, this.input, this.fault);
  }

  static made = 0;

  kindOf(value, label, key) {
    const kind = typeof value === "boolean" ? "true or false" : typeof value === "string" ? "text" : "number";
    return el(
      "select", { "aria-label": `kind of ${label}`, "data-key": `${key} kind` },
      Object.keys(KINDS).map((it) => el("option", { value: it, text: it, selected: it === kind })),
    );
  }

  fieldOf(label, key, value) {
    const how = { "aria-label": label, "data-key": key, title: this.type ?? "a value of any type" };
    if (this.type === "bool") return el(
      "select", how, ["false", "true"].map((it) => el("option", { value: it, text: it, selected: it === textOf(value || false) })),
    );
    const more = this.type === "QString" ? { size: 14, dir: "auto" } : { size: 11, inputmode: this.type ? "numeric" : null };
    return el("input", { ...how, ...more, type: "text", value: textOf(value), autocomplete: "off", spellcheck: "false" });
  }

  json() {
    const type = this.type ?? KINDS[this.kind.value];
    try {
      const found = jsonOf(type, this.input.value);
      this.tell("");
      return found;
    } catch (error) {
      this.tell(error.message);
      this.input.focus();
      return null;
    }
  }

  tell(text) {
    this.fault.replaceChildren(text);
    this.input.setAttribute("aria-invalid", String(Boolean(text)));
    if (text) this.input.setAttribute("aria-describedby", this.fault.id);
    else this.input.removeAttribute("aria-describedby");
  }

  /** Forgets what was typed, in the field of the same key that is within a place now: it may have been drawn again. */
  settle(place) {
    for (const it of place.querySelectorAll("[data-key]")) if (it.dataset.key === this.input.dataset.key) forget(it);
  }
}

function forget(input) {
  if (input.tagName === "INPUT") input.value = input.defaultValue;
  else for (const it of input.options) it.selected = it.defaultSelected;
}
