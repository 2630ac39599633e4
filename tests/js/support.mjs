/** What the tests of the client in JavaScript start, and stand-ins for servers. */

import net from "node:net";
import path from "node:path";
import { fileURLToPath } from "node:url";

import { connect, startFront } from "../../clients/js/index.mjs";

export const ROOT = path.resolve(path.dirname(fileURLToPath(import.meta.url)), "../..");
export const PROGRAM = process.env.METAD ?? path.join(ROOT, "bin", "metad");
export const FRONT = process.env.METAD_FRONT ?? path.join(ROOT, "bin", "metad-front");
export const PATIENCE = 60_000; // milliseconds

/** A client of a program that is started, and ended with the test. */
export async function served(test, what = {}, options = {}) {
  const client = await connect({ program: PROGRAM, ...what }, { timeout: PATIENCE, ...options });
  test.after(() => client.close());
  return client;
}

/** A front that is started, and ended with the test. */
export async function fronted(test, what = {}) {
  const front = await startFront({ program: PROGRAM, front: FRONT, ...what });
  test.after(() => front.close());
  return front;
}

/** A client of a front, which is closed with the test. */
export async function joined(test, front, options = {}) {
  const client = await connect(front.path ?? front, { timeout: PATIENCE, ...options });
  test.after(() => client.close());
  return client;
}

/** A transport to nobody: the test sees the lines that are sent, and writes what comes. */
export class StandIn {
  sent = [];
  isClosed = false;
  onmessage = null;
  onclose = null;
  onerror = null;
  #answer;

  /** @param {(line: any, standIn: StandIn) => void} answer is called with each line that is sent */
  constructor(answer = () => {}) {
    this.#answer = answer;
  }

  send(text) {
    for (const line of text.split("\n").slice(0, -1)) {
      this.sent.push(line);
      setImmediate(() => this.#answer(JSON.parse(line), this));
    }
  }

  close() {
    if (this.isClosed) return;
    this.isClosed = true;
    setImmediate(() => this.onclose?.({}));
  }

  /** Has something come, as text or as bytes. */
  come(...lines) {
    for (const line of lines) this.onmessage({ data: line });
  }
}

/** Listens at a free port of this machine, and ends with the test. */
export async function listening(test, taken) {
  const server = net.createServer({ allowHalfOpen: true }, taken);
  const links = new Set();
  server.on("connection", (link) => links.add(link.on("error", () => {})));
  await new Promise((resolve) => server.listen(0, "127.0.0.1", resolve));
  test.after(() => {
    for (const link of links) link.destroy();
    server.close();
  });
  return server.address().port;
}

/** Random numbers, which are the same in each run. */
export function randoms(seed) {
  let state = seed;
  return (below) => {
    state = (Math.imul(state, 1103515245) + 12345) >>> 0;
    return Math.floor((state / 2 ** 32) * below);
  };
}

/** The error by which a promise fails. */
export async function failed(promise) {
  try {
    await promise;
  } catch (error) {
    return error;
  }
  throw new Error("it has not failed");
}
