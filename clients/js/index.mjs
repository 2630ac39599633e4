/**
 * A client of metad, a server for live objects. It needs Node 18 or later, or a browser, and nothing else.
 * @module
 */

export { Client, connect } from "./client.mjs";
export { CODES, COMMANDS, LINE_BYTES } from "./commands.mjs";
export * from "./errors.mjs";
export * from "./expressions.mjs";
export { readJson, writeJson } from "./json.mjs";
export { Property, RemoteObject } from "./objects.mjs";
export { SignalSpy, withRelay } from "./relays.mjs";
export { Session } from "./session.mjs";

/**
 * Starts a front with its server, see `fronts.mjs`; only in Node.
 * @param {object} what
 */
export async function startFront(what) {
  return (await import("./fronts.mjs")).startFront(what);
}

/**
 * The lines of a front's server, of all sessions or of one, for `for await`; only in Node.
 * @param {string} path
 * @param {string} [session]
 */
export async function monitor(path, session) {
  return (await import("./fronts.mjs")).monitor(path, session);
}
