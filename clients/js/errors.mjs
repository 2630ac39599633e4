/**
 * What goes wrong between a client and a server.
 * @module
 */

import { CODES } from "./commands.mjs";
import { writeJson } from "./json.mjs";

const SHOWN_MOST = 200; // characters of a value that a text shows

const OF_FRONT = {
  F01: "the first line asks for nothing that there is",
  F02: "no session of this name is shared",
  F03: "what is asked for is no group",
};

const OF_BINDINGS = {
  BindingLoop: "the value of the property depends on itself",
  EvaluationError: "the binding of the property has no value",
};

/**
 * What a code, or the error of a property, means; `unknown` where it is not known here.
 * @param {string} code
 * @returns {string}
 */
export function meaningOf(code) {
  const found = [CODES, OF_FRONT, OF_BINDINGS].find((it) => Object.hasOwn(it, code));
  return found ? found[code] : "unknown";
}

/**
 * How a value looks in a text, cut where it is long.
 * @param {any} value
 * @returns {string}
 */
export function shown(value) {
  let text;
  try {
    text = typeof value === "bigint" ? `${value}n` : typeof value === "object" ? writeJson(value) : String(value);
  } catch {
    text = `an object of ${value?.constructor?.name ?? "no class"}`;
  }
  return text.length <= SHOWN_MOST ? text : `${text.slice(0, SHOWN_MOST)}..`;
}

/** What goes wrong between a client and a server. */
export class MetadError extends Error {
  /**
   * @param {string} message
   * @param {{code?: string | null, text?: string, command?: object | null, cause?: unknown}} [more]
   */
  constructor(message, { code = null, text = message, command = null, cause } = {}) {
    super(message, cause === undefined ? undefined : { cause });
    this.name = new.target.name;
    /** The code of a refusal, as `E04`; null for other errors. */
    this.code = code;
    /** What is wrong, in words. */
    this.text = text;
    /** The command that was given, with its word `do` and its keys; null where it concerns no command. */
    this.command = command;
  }
}

/** A command was refused, and has changed nothing (`E21` excepted, see the protocol). */
export class Refused extends MetadError {
  constructor(code, command) {
    const { do: word, ...keys } = command;
    super(`${word} ${shown(keys)}: ${code}, ${meaningOf(code)}`, { code, text: meaningOf(code), command });
  }
}

/** What was waited for did not come in time. A command is still under way then. */
export class NotAnswered extends MetadError {}

/** The server has ended, or cannot be reached any more. Commands that were under way end with it. */
export class ServerGone extends MetadError {
  /**
   * @param {string} [message]
   * @param {{status?: number | null, signal?: string | null, stderr?: string, cause?: unknown}} [end]
   */
  constructor(message, { status = null, signal = null, stderr = "", cause } = {}) {
    const how = message ?? (signal ? `the server was ended by ${signal}` : `the server has ended with status ${status}`);
    super(stderr.trim() ? `${how}: ${stderr.trim()}` : how, { cause });
    /** Its exit status; null where it was not started here, or was ended by a signal. */
    this.status = status;
    /** The signal that ended it, as `SIGKILL`; null otherwise. */
    this.signal = signal;
    /** What it wrote on standard error; empty where it was not started here. */
    this.stderr = stderr;
  }
}

/** The connection was closed, by this side or the other one. A new connection through a front is a new session. */
export class ConnectionClosed extends ServerGone {
  constructor(message = "the connection was closed", more = {}) {
    super(message, more);
  }
}

/** A front has closed the connection by `F04`: what the session held went with the process that it was in. */
export class SessionLost extends ConnectionClosed {
  constructor() {
    super("what the session held is lost, and the connection was closed");
  }
}

/** A front has closed a monitor that left too much unread, or has ended in the middle of a line. */
export class LinesLost extends ConnectionClosed {
  constructor() {
    super("the front has closed this monitor before it had read all: lines were lost");
  }
}

/** Nobody serves at the place that was given, or it cannot be reached. */
export class NotReached extends MetadError {}

/** The server has ended before it answered anything: the words of its command line mean nothing, for one. */
export class NotStarted extends ServerGone {}

/** The server has refused its class file; `stderr` has the code of the first fault, and the number of its class. */
export class ClassFileRefused extends NotStarted {}

/** A line came that no server of this protocol writes. Commands that are under way, and later ones, end with it. */
export class StrangeLine extends MetadError {
  constructor(line) {
    super(`no line of the protocol: ${shown(JSON.stringify(line))}`);
    /** The line as it came, as far as it is text. */
    this.line = line;
  }
}

/** A value that no command can take was given to one. Nothing was sent. */
export class NoValue extends MetadError {}

/** A line would be longer than the server reads. Nothing was sent. */
export class LineTooLong extends NoValue {}

/** A class has no member of this name, or an object of it is used in a way that it cannot be used. */
export class NoMember extends MetadError {}

/** A class has no method that these arguments or parameters fit, or more than one. */
export class Ambiguous extends MetadError {}

/** A front that has no live sessions was asked for one by `live: true`. */
export class NotLive extends MetadError {}

/** Objects of two sessions were to be connected; each session has its own numbers. */
export class OtherSession extends MetadError {}

/** A function cannot be called for a signal: the server has no slot that would report it, see `withRelay`. */
export class NoRelay extends MetadError {}

/** Commands of a dump were given to a session that has had objects or connections before. */
export class NotFresh extends MetadError {}

/** A front that was started without monitors was asked for one. */
export class NoMonitors extends MetadError {}
