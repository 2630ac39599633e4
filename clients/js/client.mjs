/**
 * Clients, and how they are connected with a server.
 * @module
 */

import { Connection } from "./connection.mjs";
import { ClassFileRefused, ConnectionClosed, MetadError, NotLive, Refused, ServerGone, StrangeLine } from "./errors.mjs";
import { Listener } from "./hearing.mjs";
import { NO_COMMAND, lineOf } from "./lines.mjs";
import { Session } from "./session.mjs";
import { connectorOf, within } from "./transports.mjs";

const START_MS = 30_000; // in which a server has to be reached, to answer its first line, and to end

/** A client of a server. It is made by `connect`. */
export class Client {
  #sessions = new Map();
  #timeout;
  #closed = null;

  constructor(connection, { timeout = null, closeTimeout = START_MS } = {}) {
    /** The connection with the server. */
    this.connection = connection;
    /** Milliseconds in which each command of a new session has to be answered; null waits without a limit. */
    this.timeout = timeout;
    /** The members of the classes that were asked for. */
    this.shapes = new Map();
    this.#timeout = closeTimeout;
  }

  /** Whether events come unasked, without `spin`. */
  get isLive() {
    return this.connection.isLive;
  }

  /** Comes when the connection has ended. */
  get ended() {
    return this.connection.ended.then(() => undefined);
  }

  /**
   * The session of this name: the same object however often it is asked for.
   * @param {string} name
   */
  session(name) {
    if (!this.#sessions.has(name)) {
      this.#sessions.set(name, new Session(this, name));
      this.connection.add(this.#sessions.get(name));
    }
    return this.#sessions.get(name);
  }

  /**
   * Has a function called with errors that no caller waits for: the exception of a callback, or the refusal by which a
   * session stops being live. Without it, an exception of a callback is an uncaught one.
   * @param {"error"} what
   * @param {(error: unknown) => void} told
   */
  on(what, told) {
    if (what !== "error") throw new MetadError(`a client has error to hear, and no ${what}; sessions have call and warning`);
    return new Listener(this.connection.onError(told));
  }

  /**
   * Ends the server's input after everything that was given, and waits for the end; the promise has the exit status of a
   * program that was started here. Where that takes too long, it is ended at once. Closing again does nothing more.
   */
  close() {
    this.#closed ??= this.#close();
    return this.#closed;
  }

  async #close() {
    this.connection.hangUp();
    try {
      const end = await within(this.#timeout, "the server has not ended", (resolve) => this.connection.ended.then(resolve));
      return end.status ?? null;
    } catch {
      this.connection.destroy();
      return null;
    }
  }
}

if (Symbol.asyncDispose) Client.prototype[Symbol.asyncDispose] = Client.prototype.close;

/**
 * Connects with a server.
 *
 * @param {any} target the path of a front's socket; `tls://HOST:PORT`, `tcp://HOST:PORT`; `{program, args, classes, env, cwd}`, which is
 *   started; or, in a browser too, a WebSocket's URL, a transport (see `transports.mjs`) or a function that makes one
 * @param {{share?: string, group?: string, live?: boolean, timeout?: number | null, startTimeout?: number | null,
 *   closeTimeout?: number | null, tls?: object}} [options] a session that is shared, or a group, of a front; whether events are to
 *   come unasked (asked for where the front has that, `true` insists on it, `false` does not ask); milliseconds in which
 *   each command, the beginning, and the end have to be done; for `tls://` what Node's `tls.connect` takes, as `ca`, `cert`
 *   and `key`
 * @returns {Promise<Client>}
 */
export async function connect(target, options = {}) {
  const { startTimeout = START_MS } = options;
  const connector = connectorOf(target, options.tls);
  const reached = connector.program ? await started(connector, startTimeout) : await reach(connector, options, startTimeout);
  return new Client(reached, options);
}

/** A connection with a program that has answered its first line. */
async function started(connector, timeout) {
  const transport = await connector.open(timeout);
  const connection = new Connection(transport);
  try {
    await first(connection, NO_COMMAND, timeout);
    await transport.started();
    return connection;
  } catch (error) {
    if (!(error instanceof ServerGone)) {
      connection.destroy();
      throw error;
    }
    const isClasses = error.status === 1 && error.stderr.includes("class file refused");
    throw isClasses ? connection.notStarted(ClassFileRefused) : connection.notStarted();
  }
}

/** A connection with a front that has answered what it was asked for. */
async function reach(connector, { share, group, live }, timeout) {
  const asked = firstLine(share, group);
  if (live ?? connector.isAgain) {
    try {
      const reached = await asking(connector, { ...(asked ?? { front: "hello" }), live: true }, timeout);
      if (reached.isLive || !live) return reached;
      reached.hangUp();
    } catch (error) {
      if (!goesOn(error, live)) throw error;
      // there are no live sessions, or what is named is refused: the front says which when it is asked for no events
    }
    if (live && !connector.isAgain) throw notLive();
  }
  const reached = await asking(connector, asked, timeout);
  if (!live) return reached;
  reached.hangUp();
  throw notLive();
}

/** Whether a front that has answered so may still be one without live sessions. */
function goesOn(error, live) {
  if (error instanceof Refused) return true;
  if (error.cause) return false; // TLS has said what is wrong
  return !live && (error instanceof ConnectionClosed || error instanceof StrangeLine);
}

function notLive() {
  return new NotLive("this front has no live sessions: it is an older one, or its clients name sessions (--group-from name)");
}

function firstLine(share, group) {
  if (share !== undefined && group !== undefined) throw new MetadError("a shared session has a group by its name");
  if (share !== undefined) return { front: "share", session: share };
  return group === undefined ? null : { front: "hello", group };
}

/** Connects, and sends a request as the first line, if there is one. */
async function asking(connector, asked, timeout) {
  const connection = new Connection(await connector.open(timeout));
  if (asked === null) return connection;
  try {
    await first(connection, lineOf(asked), timeout, (line) => (connection.isLive = line.live === true));
    return connection;
  } catch (error) {
    connection.destroy();
    if (error instanceof Refused) throw new Refused(error.code, { do: "front", ...asked });
    throw error;
  }
}

/** Gives a first line and waits for its answer. The server's refusal of one that is no command is an answer too. */
function first(connection, line, timeout, answered = () => {}) {
  return within(timeout, "the server has not answered its first line", (resolve, reject) => {
    const take = (answer) => {
      if ("error" in answer && line !== NO_COMMAND) reject(new Refused(answer.error, { do: "front" }));
      else resolve(answered(answer));
    };
    connection.give(line, { take, fail: reject });
  });
}

