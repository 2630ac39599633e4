/**
 * The lines between a client and a server: what is written, and what is read.
 * @module
 */

import { LINE_BYTES } from "./commands.mjs";
import { LineTooLong, MetadError, NoValue, OtherSession, StrangeLine, meaningOf } from "./errors.mjs";
import { readJson, writeJson } from "./json.mjs";

/** The session of an answer to a line whose session is not known. */
export const NOBODY = "-";

/** A line that is no command: it is answered by `E02` for nobody, and enters no session. */
export const NO_COMMAND = "{}\n";

const LONGEST = 64 * 1024 * 1024; // bytes of a line that is read; metad writes none of a tenth of that
const LF = 10;
const ENCODER = new TextEncoder();

/**
 * The line of a command, or of a request to a front.
 * @param {object} keys the keys of the line
 * @param {object} [session] the session of the objects that it may name
 * @returns {string}
 */
export function lineOf(keys, session) {
  const check = (held) => {
    if (session && held.session !== session) throw new OtherSession(`${held} is of another session`);
  };
  const parts = Object.entries(keys).map(([key, value]) => {
    try {
      return `${JSON.stringify(key)}:${writeJson(value, check)}`;
    } catch (error) {
      if (error instanceof OtherSession || !(error instanceof MetadError)) throw error;
      throw new NoValue(`${keys.do ?? "the line"} was not sent, because of the value of \`${key}\`: ${error.message}`);
    }
  });
  const line = `{${parts.join(",")}}`;
  if (line.length > LINE_BYTES / 3 && ENCODER.encode(line).length > LINE_BYTES) {
    throw new LineTooLong(`${keys.do} was not sent: its line would have more than ${LINE_BYTES} bytes, the most that metad reads`);
  }
  return `${line}\n`;
}

/**
 * What a line of a server holds.
 * @param {Uint8Array} bytes the line without its end
 * @returns {Record<string, any>}
 * @throws {StrangeLine} where no server of this protocol writes such a line
 */
export function lineIn(bytes) {
  let line;
  try {
    line = readJson(new TextDecoder("utf-8", { fatal: true, ignoreBOM: true }).decode(bytes));
  } catch {
    throw new StrangeLine(textOf(bytes));
  }
  const isLine = typeof line === "object" && line !== null && typeof line.session === "string" && !("do" in line);
  if (!isLine) throw new StrangeLine(textOf(bytes));
  return line;
}

/** A line as text, whatever its bytes are; cut where it is long. */
export function textOf(bytes) {
  return new TextDecoder().decode(bytes.subarray(0, 1000));
}

/**
 * The call or the warning that a line reports; null for lines of other kinds.
 * @param {Record<string, any>} line
 * @param {Uint8Array} bytes
 */
export function toldBy(line, bytes) {
  if ("call" in line) {
    if (!("object" in line) || !Array.isArray(line.args) || !("sender" in line)) throw new StrangeLine(textOf(bytes));
    return { kind: "call", what: { object: line.object, method: line.call, args: line.args, sender: line.sender } };
  }
  if (!("warning" in line)) return null;
  const { warning: code, object = null, property = null } = line;
  return { kind: "warning", what: { code, meaning: meaningOf(code), object, property } };
}

/** Cuts what comes, texts or bytes, into lines. */
export class LineCutter {
  #begun = []; // pieces of the line that has not ended
  #size = 0;
  #take;

  /** @param {(bytes: Uint8Array) => void} take is called with each line, without its end */
  constructor(take) {
    this.#take = take;
  }

  /** @param {string | Uint8Array | ArrayBuffer} data */
  push(data) {
    let bytes = typeof data === "string" ? ENCODER.encode(data) : data instanceof Uint8Array ? data : new Uint8Array(data);
    for (let end = bytes.indexOf(LF); end >= 0; end = bytes.indexOf(LF)) {
      this.#keep(bytes.subarray(0, end));
      bytes = bytes.subarray(end + 1);
      this.#take(this.#whole());
    }
    this.#keep(bytes);
  }

  /** Whether a line has begun that has not ended. */
  hasBegun() {
    return this.#size > 0;
  }

  #keep(piece) {
    if (!piece.length) return;
    this.#begun.push(piece);
    this.#size += piece.length;
    if (this.#size > LONGEST) throw new StrangeLine(textOf(this.#begun[0]));
  }

  #whole() {
    const [first = new Uint8Array(0)] = this.#begun;
    let whole = first;
    if (this.#begun.length > 1) {
      whole = new Uint8Array(this.#size);
      let at = 0;
      for (const piece of this.#begun) {
        whole.set(piece, at);
        at += piece.length;
      }
    }
    this.#begun = [];
    this.#size = 0;
    return whole;
  }
}
