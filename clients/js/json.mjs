/**
 * JSON with exact whole numbers: those that a `number` cannot hold exactly are read as a `bigint`, and a `bigint` is
 * written as a whole number.
 * @module
 */

import { NoValue, shown } from "./errors.mjs";

/** The key of the number that an object is written as. */
export const NUMBER = Symbol("metad.number");

const LEAST = -(2n ** 63n);
const MOST = 2n ** 64n - 1n;
const LEVELS = 126; // of arrays and objects in one another that are written: metad reads no more
const READ_LEVELS = 1000; // that are read; the longest replies of metad have some 130
const LONG_NUMBER = /\d{16}/;
const NUMBER_TOKEN = /-?(?:0|[1-9]\d*)(\.\d+)?([eE][+-]?\d+)?/y;
const SPACE = /[ \t\n\r]*/y;
const HALF = /\p{Surrogate}/u;

/**
 * Reads a JSON text. Whole numbers beyond those that a `number` holds exactly are a `bigint`.
 * @param {string} text
 * @returns {any}
 * @throws {SyntaxError} where the text is no JSON
 */
export function readJson(text) {
  // fewer than 16 digits in a row are exact as a number, so the quicker reader does
  return LONG_NUMBER.test(text) ? new Reader(text).whole() : JSON.parse(text);
}

/** Reads one text, token by token. */
class Reader {
  #text;
  #at = 0;
  #levels = 0;

  constructor(text) {
    this.#text = text;
  }

  /** The value that is the whole text. */
  whole() {
    const value = this.#value();
    if (this.#next() !== undefined) this.#fail();
    return value;
  }

  /** The next character after white space. It is not taken yet. */
  #next() {
    SPACE.lastIndex = this.#at;
    this.#at += SPACE.exec(this.#text)[0].length;
    return this.#text[this.#at];
  }

  #fail() {
    throw new SyntaxError(`no JSON at character ${this.#at}`);
  }

  #take(word, value) {
    if (!this.#text.startsWith(word, this.#at)) this.#fail();
    this.#at += word.length;
    return value;
  }

  #value() {
    switch (this.#next()) {
      case "{":
        return this.#nested(() => this.#object());
      case "[":
        return this.#nested(() => this.#array());
      case '"':
        return this.#string();
      case "t":
        return this.#take("true", true);
      case "f":
        return this.#take("false", false);
      case "n":
        return this.#take("null", null);
      default:
        return this.#number();
    }
  }

  #nested(read) {
    if (this.#levels === READ_LEVELS) this.#fail();
    this.#at += 1;
    this.#levels += 1;
    const value = read();
    this.#levels -= 1;
    return value;
  }

  #object() {
    const object = {};
    if (this.#next() === "}") return this.#take("}", object);
    for (;;) {
      if (this.#next() !== '"') this.#fail();
      const key = this.#string();
      this.#next();
      this.#take(":");
      const value = this.#value();
      Object.defineProperty(object, key, { value, writable: true, enumerable: true, configurable: true });
      if (this.#next() === "}") return this.#take("}", object);
      this.#take(",");
    }
  }

  #array() {
    const array = [];
    if (this.#next() === "]") return this.#take("]", array);
    for (;;) {
      array.push(this.#value());
      if (this.#next() === "]") return this.#take("]", array);
      this.#take(",");
    }
  }

  #string() {
    const start = this.#at;
    let end = start;
    let slashes;
    do {
      end = this.#text.indexOf('"', end + 1);
      if (end < 0) this.#fail();
      slashes = 0;
      while (this.#text[end - 1 - slashes] === "\\") slashes += 1;
    } while (slashes % 2);
    this.#at = end + 1;
    return JSON.parse(this.#text.slice(start, end + 1));
  }

  #number() {
    NUMBER_TOKEN.lastIndex = this.#at;
    const found = NUMBER_TOKEN.exec(this.#text);
    if (found === null) this.#fail();
    this.#at += found[0].length;
    const number = Number(found[0]);
    const isExact = found[1] !== undefined || found[2] !== undefined || Number.isSafeInteger(number);
    return isExact ? number : BigInt(found[0]);
  }
}

/**
 * Writes a value as JSON, in one line. An object of a session is written as its number.
 * @param {any} value
 * @param {(held: object) => void} [check] looks at each object that is written as a number
 * @returns {string}
 * @throws {NoValue} where no command can take the value
 */
export function writeJson(value, check = () => {}) {
  return written(value, LEVELS, check);
}

function written(value, levels, check) {
  switch (typeof value) {
    case "string":
      return writtenText(value);
    case "boolean":
      return String(value);
    case "number":
      return writtenNumber(value);
    case "bigint":
      if (value < LEAST || value > MOST) throw new NoValue(`${shown(value)} is too large or too small: ${ALLOWED}`);
      return String(value);
    case "object":
    case "function":
      return value === null ? "null" : writtenObject(value, levels, check);
    default:
      throw new NoValue(`${shown(value)} is no value of JSON: ${ALLOWED}`);
  }
}

const ALLOWED =
  "allowed are true and false, whole numbers from -2^63 to 2^64 - 1, texts, null, objects of the session, and where the" +
  " command takes them arrays and plain objects of these";

function writtenText(text) {
  if (HALF.test(text)) throw new NoValue(`${JSON.stringify(text)} has half a character, which no line can have`);
  return JSON.stringify(text);
}

function writtenNumber(number) {
  if (Number.isSafeInteger(number)) return String(number);
  if (Number.isInteger(number)) {
    const advice = "a number holds whole numbers up to 2^53 - 1 exactly; write larger ones as a bigint, as 9007199254740993n";
    throw new NoValue(`${number} may not be the number that was meant: ${advice}`);
  }
  throw new NoValue(`${number} is no whole number, and metad has no others: round it, or give a text`);
}

function writtenObject(value, levels, check) {
  if (value[NUMBER] !== undefined) {
    check(value);
    return String(value[NUMBER]);
  }
  if (typeof value === "function") throw new NoValue(`${shown(value)} is no value of JSON: ${ALLOWED}`);
  if (levels === 0) throw new NoValue(`it has more than ${LEVELS} levels of arrays and objects in one another`);
  if (Array.isArray(value)) return `[${Array.from(value, (it) => written(it, levels - 1, check)).join(",")}]`;
  if (!isPlain(value)) {
    throw new NoValue(`an object of ${value.constructor?.name} is neither an array nor a plain object: ${ALLOWED}`);
  }
  const held = Object.entries(value).map(([key, it]) => `${writtenText(key)}:${written(it, levels - 1, check)}`);
  return `{${held.join(",")}}`;
}

/**
 * Whether a value is an object that only holds keys, and is not written as a number.
 * @param {any} value
 * @returns {boolean}
 */
export function isPlain(value) {
  if (typeof value !== "object" || value === null || value[NUMBER] !== undefined) return false;
  const above = Object.getPrototypeOf(value);
  return above === null || Object.getPrototypeOf(above) === null;
}
