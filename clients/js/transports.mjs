/**
 * What a client writes to and reads from. A transport is an object with the words of a WebSocket:
 *
 * - `send(text)` writes at least one line, each with its LF; `close()` says that nothing more will be sent.
 * - The client sets `onmessage`, which is called with `{data}`: texts or bytes, cut anywhere; `onclose`, which is called
 *   once, when nothing more will come; and `onerror`. Where there is a `readyState` of 0, it waits for `onopen`.
 *
 * Optional are `halfCloses`, true where lines still come after `close`, and `destroy()`, which ends everything at once.
 * If `protocol` is `metad`, as for a WebSocket of `metad-web`, each message is one line without its LF, both ways.
 * @module
 */

import { NoValue, NotAnswered, NotReached, shown } from "./errors.mjs";

const CONNECTING = 0;
const BY_LINES = "metad"; // the subprotocol of metad-web, by which each message is a line without its end
const LONGEST = 2 ** 31 - 1; // milliseconds of a timer

/**
 * What makes the transports of a target, and whether it can make more than one.
 * @param {any} target as `connect` takes it
 * @param {object} [tls] what Node's `tls.connect` takes: `ca`, `cert`, `key`, `servername` and so on
 * @returns {{open: (timeout: number | null) => Promise<any>, isAgain: boolean, program?: object}}
 */
export function connectorOf(target, tls) {
  if (tls !== undefined && !(typeof target === "string" && target.startsWith("tls://"))) {
    throw new NoValue("the option tls is for tls://HOST:PORT");
  }
  if (typeof target === "string") return { open: openerOf(target, tls), isAgain: true };
  if (typeof target === "function") return { open: openerBy(target), isAgain: true };
  if (typeof target?.program === "string") {
    return { open: async () => (await node()).startProgram(target), isAgain: false, program: target };
  }
  if (typeof target?.send === "function" && typeof target?.close === "function") {
    return { open: (timeout) => opened(target, timeout, "the transport"), isAgain: false };
  }
  const targets = "a path, tls://HOST:PORT, tcp://HOST:PORT, ws://.., {program} or an object with send and close";
  throw new NoValue(`${shown(target)} is nothing to connect with: give ${targets}`);
}

function openerBy(make) {
  return async (timeout) => {
    const begin = (resolve, reject) => Promise.resolve(make()).then(resolve, reject);
    return opened(await within(timeout, "the transport is not made", begin), timeout, "the transport");
  };
}

function node() {
  return import("./node_transports.mjs"); // which a browser never asks for
}

function openerOf(target, tls) {
  if (/^wss?:/.test(target)) return (timeout) => opened(webSocket(target), timeout, target);
  const found = /^(tcp|tls):\/\/(?:\[([^\]]+)\]|([^:/]+)):(\d+)\/?$/.exec(target);
  if (found) {
    const place = { host: found[2] ?? found[3], port: Number(found[4]) };
    if (found[1] === "tls") return async (timeout) => (await node()).connectTls(place, tls, target, timeout);
    return async (timeout) => (await node()).connectSocket(place, target, timeout);
  }
  if (/^[a-z]+:\/\//.test(target)) throw new NoValue(`${target} is nothing to connect with: tls://HOST:PORT, tcp://HOST:PORT and ws://.. are`);
  return async (timeout) => (await node()).connectSocket({ path: target }, target, timeout);
}

function webSocket(url) {
  if (typeof globalThis.WebSocket !== "function") {
    throw new NotReached("there is no WebSocket here: use a browser or a later Node, or give an object that is one");
  }
  return new globalThis.WebSocket(url, BY_LINES);
}

/** The transport over a WebSocket of metad-web. */
class LineSocket {
  onmessage = null;
  onclose = null;
  onerror = null;
  #socket;

  constructor(socket) {
    this.#socket = socket;
    socket.onmessage = ({ data }) => this.onmessage?.({ data: `${data}\n` });
    socket.onclose = (event) => this.onclose?.(event);
    socket.onerror = (event) => this.onerror?.(event);
  }

  send(text) {
    for (const line of text.split("\n")) if (line) this.#socket.send(line);
  }

  close() {
    this.#socket.close();
  }
}

/** What carries lines over a transport that is open: a WebSocket whose messages are lines, or the transport itself. */
function carrierOf(transport) {
  return transport.protocol === BY_LINES ? new LineSocket(transport) : transport;
}

/** A transport once it is open. */
function opened(transport, timeout, where) {
  if ("binaryType" in transport) transport.binaryType = "arraybuffer";
  if (transport.readyState !== CONNECTING) return Promise.resolve(carrierOf(transport));
  return within(timeout, `${where} is not open`, (resolve, reject) => {
    transport.onopen = () => resolve(carrierOf(transport));
    transport.onerror = transport.onclose = () => reject(new NotReached(`${where} cannot be reached`));
  }).catch((error) => {
    transport.onopen = transport.onerror = transport.onclose = null;
    transport.close();
    throw error;
  });
}

/**
 * A promise that fails by `NotAnswered` where it is not settled in so many milliseconds; null waits without a limit.
 * @param {number | null} timeout
 * @param {string} what begins the text of the error
 * @param {(resolve: (value: any) => void, reject: (error: Error) => void) => void} begin
 */
export function within(timeout, what, begin) {
  return new Promise((resolve, reject) => {
    const stop = after(timeout, () => reject(new NotAnswered(`${what} in ${timeout} ms`)));
    const settle = (how) => (value) => {
      stop();
      how(value);
    };
    try {
      begin(settle(resolve), settle(reject));
    } catch (error) {
      settle(reject)(error);
    }
  });
}

/**
 * Calls a function after so many milliseconds, unless what it returns is called before. Null, and more than a timer can
 * count, is never.
 * @param {number | null} timeout
 * @param {() => void} told
 * @returns {() => void}
 */
export function after(timeout, told) {
  if (timeout === null || timeout > LONGEST) return () => {};
  const timer = setTimeout(told, Math.max(timeout, 0));
  return () => clearTimeout(timer);
}
