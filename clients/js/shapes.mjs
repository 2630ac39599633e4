/**
 * What there is in a class, and which of its members is meant.
 * @module
 */

import { Ambiguous, NoMember, StrangeLine, shown } from "./errors.mjs";

/** The types of the parameters of a signature, which is given in its normal text. */
export function typesOf(signature) {
  const inside = signature.slice(signature.indexOf("(") + 1, -1);
  return inside ? inside.split(",") : [];
}

/** The name in a signature. */
export function nameOf(signature) {
  return signature.split("(", 1)[0];
}

/** Whether a reply describes a class. */
function isInfo(info) {
  const { properties, signals, slots } = info ?? {};
  if (![properties, signals, slots].every(Array.isArray)) return false;
  const names = [info.class, ...properties.map((it) => it?.name), ...[...signals, ...slots].map((it) => it?.signature)];
  return names.every((it) => typeof it === "string");
}

/** The members of a class, as `describe` replies them. */
export class Shape {
  constructor(info) {
    if (!isInfo(info)) throw new StrangeLine(shown(info));
    /** The name of the class. */
    this.name = info.class;
    /** What `describe` says of the class. */
    this.info = info;
    /** What is known of each property, by its name. */
    this.properties = new Map(info.properties.map((it) => [it.name, it]));
    /** The signatures of the methods, by their names. */
    this.methods = new Map();
    /** The signatures of the signals. */
    this.signals = new Set(info.signals.map((it) => it.signature));
    for (const { signature } of [...info.signals, ...info.slots]) {
      const name = nameOf(signature);
      this.methods.set(name, [...(this.methods.get(name) ?? []), signature]);
    }
  }

  /** The signatures of the methods of a name, or of a signature. */
  fitting(which) {
    const found = (this.methods.get(nameOf(which)) ?? []).filter((it) => which === it || which === nameOf(it));
    if (!found.length) throw new NoMember(`${this.name} has no method ${which}${meant(nameOf(which), this.methods.keys())}`);
    return found;
  }

  /** Throws where no property of this name is declared. */
  checkProperty(name) {
    if (!this.properties.has(name)) {
      throw new NoMember(`${this.name} declares no property ${name}${meant(name, this.properties.keys())}`);
    }
  }
}

/**
 * That one of some signatures which is meant.
 * @param {string[]} fitting those that fit
 * @param {string[]} all those of the name
 * @param {string} what ends the sentence that says why none, or more than one, is found
 */
export function only(fitting, all, what) {
  if (fitting.length === 1) return fitting[0];
  const fault = `${fitting.length || "none"} of ${all.join(", ")} ${what}`;
  throw new Ambiguous(fitting.length ? `${fault}; name one by its signature` : fault);
}

/**
 * Which of some names may be meant by one that is not there, as the end of a sentence; empty where none is like it.
 * @param {string} name
 * @param {Iterable<string>} names
 */
export function meant(name, names) {
  const most = Math.max(1, Math.floor(name.length / 3));
  const near = [...names]
    .map((it) => ({ it, far: distance(name.toLowerCase(), it.toLowerCase()) }))
    .filter(({ far }) => far <= most)
    .sort((one, other) => one.far - other.far)
    .slice(0, 3)
    .map(({ it }) => `\`${it}\``);
  return near.length ? `; did you mean ${near.join(" or ")}?` : "";
}

/** How many letters have to be put in, taken out, changed or exchanged with the next one to make a text of another one. */
function distance(one, other) {
  let [before, last] = [[], Array.from({ length: other.length + 1 }, (_, at) => at)];
  for (let at = 1; at <= one.length; at += 1) {
    const row = [at];
    for (let to = 1; to <= other.length; to += 1) {
      const same = one[at - 1] === other[to - 1] ? 0 : 1;
      row[to] = Math.min(last[to] + 1, row[to - 1] + 1, last[to - 1] + same);
      const isExchanged = at > 1 && to > 1 && one[at - 1] === other[to - 2] && one[at - 2] === other[to - 1];
      if (isExchanged) row[to] = Math.min(row[to], before[to - 2] + 1);
    }
    [before, last] = [last, row];
  }
  return last[other.length];
}
