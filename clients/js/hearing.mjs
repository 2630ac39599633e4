/**
 * What a session receives besides answers, and who is called with it.
 * @module
 */

import { NoValue, NotAnswered, shown } from "./errors.mjs";
import { NUMBER } from "./json.mjs";
import { after } from "./transports.mjs";

const KINDS = ["call", "warning", "spun"];
const SPIN_MS = [1, 50]; // between two spins of a wait: at first, and at most

/** A function that is called with what a session receives. It is made by `on` of a session. */
export class Listener {
  #stop;

  constructor(stop) {
    this.#stop = stop;
  }

  /** It is called no more. Stopping again does nothing. */
  stop() {
    this.#stop();
  }
}

/** Functions by keys, in the order in which they were added. */
class Table {
  #told = new Map();

  add(key, told) {
    const entry = { told };
    this.#told.set(key, [...this.of(key), entry]);
    return new Listener(() => {
      const left = this.of(key).filter((it) => it !== entry);
      if (left.length) this.#told.set(key, left);
      else this.#told.delete(key);
    });
  }

  of(key) {
    return this.#told.get(key) ?? [];
  }

  clear() {
    this.#told.clear();
  }
}

/** Who is called with what one session receives. */
export class Hearing {
  #kinds = new Table();
  #slots = new Table();
  #followers = new Set();

  /**
   * Adds a function: for a kind of things, or for the calls of an object or of one of its slots.
   * @param {string | number | bigint | object} what
   * @param {any[]} rest the method, where one is given, and the function
   */
  on(what, rest) {
    const told = rest[rest.length - 1];
    if (typeof told !== "function") throw new NoValue("on was not given a function");
    if (typeof what === "string") {
      if (!KINDS.includes(what)) throw new NoValue(`there is no ${what} to hear: there are ${KINDS.join(", ")}`);
      return this.#kinds.add(what, told);
    }
    const number = what?.[NUMBER] ?? what;
    if (!["number", "bigint"].includes(typeof number)) {
      throw new NoValue(`${shown(what)} is neither an object nor one of ${KINDS.join(", ")}`);
    }
    return this.#slots.add(rest.length > 1 ? `${number} ${rest[0]}` : `${number}`, told);
  }

  /** Adds a receiver of all calls, for as long as somebody holds it. */
  follow(follower) {
    this.#followers.add(new WeakRef(follower));
  }

  /** Nobody listens to single objects any more. */
  forget() {
    this.#slots.clear();
  }

  /**
   * Calls all that listen, in order. An exception of one is handed over, and takes nothing from the others.
   * @param {{kind: string, what: any}} told
   * @param {(error: unknown) => void} report
   */
  hear({ kind, what }, report) {
    const listening = [...this.#kinds.of(kind)];
    if (kind === "call") {
      for (const it of this.#followers) {
        const follower = it.deref();
        if (follower) follower.take(what);
        else this.#followers.delete(it);
      }
      listening.push(...this.#slots.of(`${what.object}`), ...this.#slots.of(`${what.object} ${what.method}`));
    }
    for (const { told } of listening) {
      try {
        Promise.resolve(told(what)).catch(report);
      } catch (error) {
        report(error);
      }
    }
  }
}

/** The calls of a session as they come. `calls` of a session makes it, for `for await`. */
export class Calls {
  #came = [];
  #session;
  #timeout;
  #isOver = false;

  constructor(session, hearing, timeout) {
    this.#session = session;
    this.#timeout = timeout;
    hearing.follow(this);
  }

  /** Keeps a call. */
  take(call) {
    if (!this.#isOver) this.#came.push(call);
  }

  async next() {
    while (!this.#isOver) {
      const hasCome = await waitUntil(this.#session, () => this.#came.length > 0 || this.#isOver, this.#timeout);
      if (this.#came.length) return { done: false, value: this.#came.shift() };
      if (!hasCome) break;
    }
    return this.return();
  }

  async return() {
    this.#isOver = true;
    this.#came = [];
    this.#session.client.connection.wake();
    return { done: true, value: undefined };
  }

  [Symbol.asyncIterator]() {
    return this;
  }
}

/**
 * Waits until a function returns something true, and returns that; its last result where the time is over. In a live
 * session it waits for what comes unasked; in any other one it spins, again and again, with pauses that grow.
 * @template T
 * @param {any} session
 * @param {() => T} isDone
 * @param {number | null} timeout in milliseconds; null waits without a limit
 * @returns {Promise<T>}
 */
export async function waitUntil(session, isDone, timeout) {
  const { connection } = session.client;
  const until = timeout === null ? Infinity : Date.now() + timeout;
  let pause = SPIN_MS[0];
  for (;;) {
    if (!connection.isLive) await session.command("spin", {}, limited(until, session));
    const done = isDone();
    if (done || Date.now() >= until) return done;
    connection.check();
    await news(connection, Math.min(until - Date.now(), connection.isLive ? Infinity : pause));
    pause = Math.min(2 * pause, SPIN_MS[1]);
  }
}

/** The options of a `spin` that has to be answered in time. */
function limited(until, session) {
  if (until === Infinity) return {};
  const left = Math.max(until - Date.now(), 1000); // a server that is asked has some time to answer
  return { timeout: session.timeout === null ? left : Math.min(left, session.timeout) };
}

/** Comes when something has come, or after so many milliseconds. */
function news(connection, most) {
  return new Promise((resolve) => {
    const wake = () => {
      stop();
      late();
      resolve();
    };
    const stop = connection.onNews(wake);
    const late = after(most, wake);
  });
}

/** The error for what did not come true in time. */
export function notInTime(timeout) {
  return new NotAnswered(`what was waited for did not come true in ${timeout} ms`);
}
