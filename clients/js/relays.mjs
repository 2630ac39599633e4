/**
 * Functions that are called for signals.
 *
 * The server calls slots, functors and signals, and reports calls of slots and functors only. So a function is called through a
 * slot that does nothing: one of the class `Relay`, which `withRelay` adds to a class file, or another one.
 * @module
 */

import { NoRelay, NotAnswered, Refused } from "./errors.mjs";
import { waitUntil } from "./hearing.mjs";
import { nameOf, typesOf } from "./shapes.mjs";

const RELAY = "Relay";
const HEAR = "hear"; // the name of its slots; there is one for each list of parameters
const OF_QOBJECT = ["destroyed()", "objectNameChanged(QString)"];

/**
 * What a class file holds, and then the class `Relay`, by which functions are called for all its signals.
 * @param {{classes: any[]}} classes
 */
export function withRelay(classes) {
  const signals = classes.classes.flatMap((it) => it.signals ?? []);
  const lists = new Set([...OF_QOBJECT, ...signals].map(normalTypes));
  const slots = [...lists].map((types) => ({ sig: `${HEAR}(${types})`, body: [] }));
  return { ...classes, classes: [...classes.classes, { name: RELAY, super: "QObject", slots }] };
}

/** The types of a signature in their normal text, without white space, constants and references. */
function normalTypes(signature) {
  const inside = signature.slice(signature.indexOf("(") + 1, signature.lastIndexOf(")")).replaceAll("&", " ");
  const words = (part) => part.split(/\s+/).filter((word) => word && word !== "const");
  const types = inside.split(",").map((part) => words(part).join(" "));
  return types.length === 1 && types[0] === "void" ? "" : types.join(",");
}

/** A connection of a signal. */
export class Connected {
  constructor(session, number) {
    this.session = session;
    /** The connection's number. */
    this.number = number;
  }

  /** Breaks it; the promise has whether it was still there. */
  async disconnect() {
    return this.session.disconnect(this.number);
  }
}

/** A function that is called for a signal, or for what another session publishes. */
export class Heard extends Connected {
  #listener;
  #relay;

  constructor(session, number, listener, relay) {
    super(session, number);
    this.#listener = listener;
    this.#relay = relay;
  }

  /** Has the function called no more, and deletes its relay; the promise has whether the connection was still there. */
  async disconnect() {
    this.#listener.stop();
    const stood = this.number === null || (await super.disconnect());
    return (await deleted(this.#relay)) && stood;
  }
}

/**
 * Has a function called for a signal: through a slot that is given, or through a relay.
 * @param {any} signal
 * @param {(...args: any[]) => any} told
 * @param {any} via the slot, or undefined
 * @param {(slot: any) => Promise<number>} connect
 */
export async function heardBy(signal, told, via, connect) {
  const { session, number } = signal.owner;
  if (via) return heard(session, via, told, number, null, () => connect(via));
  const relay = await newRelay(session, number);
  const hear = await relayed(relay, () => relay.method(HEAR).taking(typesOf(signal.signature()), nameOf(signal.signature())));
  return heard(session, hear, told, number, relay, () => connect(hear));
}

/** Has a function called with what another session publishes. */
export async function hearPost(session, from, name, types, told) {
  const relay = await newRelay(session);
  const hear = await relayed(relay, () => relay.method(HEAR).taking(types, name));
  return heard(session, hear, told, 0, relay, async () => {
    await session.join(from, name, types, relay.number, hear.signature());
    return null;
  });
}

/** Has a function called through a slot, which is then connected; where that is refused, nothing is left of it. */
async function heard(session, slot, told, sender, relay, connect) {
  const tell = (call) => (call.sender === sender ? told(...call.args) : undefined);
  const listener = session.on(slot.owner.number, slot.signature(), tell);
  try {
    return new Heard(session, await connect(), listener, relay);
  } catch (error) {
    listener.stop();
    await deleted(relay).catch(() => {}); // the first error counts
    throw error;
  }
}

/** What a function makes of a relay; where it fails, the relay is deleted. */
async function relayed(relay, make) {
  try {
    return make();
  } catch (error) {
    await deleted(relay).catch(() => {});
    throw error;
  }
}

async function newRelay(session, parent) {
  try {
    return await session.new(RELAY, { parent });
  } catch (error) {
    if (!(error instanceof Refused) || error.code !== "E03") throw error;
    throw new NoRelay(`the server has no class ${RELAY}, which \`withRelay\` adds; or name a slot by \`via\``);
  }
}

/** Deletes a relay; false where it had gone already, with what it was connected to. */
async function deleted(relay) {
  try {
    if (relay) await relay.delete();
    return true;
  } catch (error) {
    if (!(error instanceof Refused) || error.code !== "E04") throw error;
    return false;
  }
}

/** The lists of arguments that a signal was sent with since, the newest last, as `QSignalSpy` of Qt. */
export class SignalSpy extends Array {
  static get [Symbol.species]() {
    return Array;
  }

  /**
   * A spy that listens.
   * @param {any} signal
   * @param {{via?: any}} [options]
   */
  static async on(signal, options) {
    const spy = new SignalSpy();
    const told = await signal.connect((...args) => void spy.push(args), options);
    Object.defineProperties(spy, { session: { value: signal.owner.session }, heard: { value: told } });
    return spy;
  }

  /** Waits until the signal is sent once more; the promise has whether it was. */
  async wait({ timeout = 5_000 } = {}) {
    const before = this.length;
    return waitUntil(this.session, () => this.length > before, timeout);
  }

  /** Hears no more of the signal. */
  async stop() {
    await this.heard.disconnect();
  }
}

/** Waits until a signal is sent, and returns its arguments. */
export async function waitForSignal(signal, { timeout, via }) {
  const spy = await SignalSpy.on(signal, { via });
  try {
    if (!(await waitUntil(spy.session, () => spy.length > 0, timeout))) {
      throw new NotAnswered(`${signal.signature()} was not sent in ${timeout} ms`);
    }
    return spy[0];
  } finally {
    await spy.stop().catch(() => {}); // the connection may have ended
  }
}
