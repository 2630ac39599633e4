/**
 * Fronts that are started here, and monitors of a front; for Node.
 * @module
 */

import { spawn } from "node:child_process";
import { rmSync } from "node:fs";
import { access, mkdtemp } from "node:fs/promises";
import { tmpdir } from "node:os";
import path from "node:path";
import { fileURLToPath } from "node:url";

import { connect } from "./client.mjs";
import { ClassFileRefused, ConnectionClosed, LinesLost, NoMonitors, NotStarted, Refused } from "./errors.mjs";
import { LineCutter, lineIn, lineOf } from "./lines.mjs";
import { classWords, connectSocket, removed } from "./node_transports.mjs";
import { within } from "./transports.mjs";

const START_MS = 30_000;
const LISTENS = ": listening at ";
const LEFT_OUT = "F10"; // the last line of a front to a monitor that has left too much unread

/**
 * Starts a front, at a socket of its own, with a server. The promise has it when clients can connect.
 * @param {{program: string, args?: string[], classes?: object, options?: string[], monitor?: boolean,
 *   startTimeout?: number | null, front?: string}} what the server; further options of the front; whether monitors can
 *   connect; the program of the front, where it is neither next to this package nor on the path
 * @returns {Promise<Front>}
 */
export async function startFront(what) {
  const { program, args = [], classes, options = [], monitor: isSeen = false, startTimeout = START_MS, front } = what;
  const { words, folder } = await classWords(classes);
  const room = folder ?? (await mkdtemp(path.join(tmpdir(), "metad-")));
  try {
    const server = [program, ...args, ...words];
    await tried(server, startTimeout);
    const place = path.join(room, "metad.sock");
    const seen = isSeen ? path.join(room, "metad.monitor") : null;
    const given = ["--tied", "--quiet", ...options, ...(seen ? ["--monitor", seen] : []), place, ...server];
    const child = spawn(front ?? (await frontProgram()), given, { stdio: ["pipe", "ignore", "pipe"], detached: true });
    await listening(child, startTimeout);
    return new Front(child, room, place, seen);
  } catch (error) {
    await removed(room);
    throw error;
  }
}

/** The front that is built or installed next to this package, or the one on the path. */
async function frontProgram() {
  const here = path.dirname(fileURLToPath(import.meta.url));
  for (const above of ["../..", "../../.."]) {
    const program = path.join(here, above, "bin", "metad-front");
    if (await access(program).then(() => true, () => false)) return program;
  }
  return "metad-front";
}

/** Starts a server that is given nothing, so that it ends; throws what it means where it does not end well. */
async function tried([program, ...words], timeout) {
  const child = spawn(program, words, { stdio: ["ignore", "ignore", "pipe"] });
  const { status, signal, stderr } = await end(child, timeout, `${program} has not ended without input`);
  if (status === 0) return;
  const isClasses = status === 1 && stderr.includes("class file refused");
  throw new (isClasses ? ClassFileRefused : NotStarted)(undefined, { status, signal, stderr });
}

function end(child, timeout, what) {
  let stderr = "";
  child.stderr.on("data", (data) => (stderr += data));
  const ended = within(timeout, what, (resolve, reject) => {
    child.on("error", (cause) => reject(new NotStarted(`${child.spawnfile} cannot be started: ${cause.message}`, { cause })));
    child.on("close", (status, signal) => resolve({ status, signal, stderr }));
  });
  ended.catch(() => child.kill("SIGKILL"));
  return ended;
}

/** Waits until clients can connect. */
function listening(child, timeout) {
  let stderr = "";
  child.stdin.on("error", () => {});
  const listens = within(timeout, "the front does not listen", (resolve, reject) => {
    child.on("error", (cause) => reject(new NotStarted(`the front cannot be started: ${cause.message}`, { cause })));
    child.on("close", (status, signal) => reject(new NotStarted(undefined, { status, signal, stderr })));
    child.stderr.on("data", (data) => {
      if (stderr.length < 65_536) stderr += data;
      if (stderr.includes(LISTENS)) resolve();
    });
  });
  listens.catch(() => child.kill("SIGKILL"));
  return listens;
}

/** A front and its server, which were started here. Both end with this process, however that ends. */
export class Front {
  #child;
  #room;
  #monitorPath;
  #ended;
  #leave = () => rmSync(this.#room, { recursive: true, force: true });

  constructor(child, room, place, monitorPath) {
    this.#child = child;
    this.#room = room;
    this.#monitorPath = monitorPath;
    this.#ended = new Promise((resolve) => child.on("close", (status) => resolve(status)));
    process.once("exit", this.#leave);
    /** Where its clients connect. */
    this.path = place;
  }

  /** Where its monitors connect; `NoMonitors` where it was started without them. */
  get monitorPath() {
    if (this.#monitorPath === null) throw new NoMonitors("this front was started without monitors: give `monitor: true`");
    return this.#monitorPath;
  }

  /** A new client, see `connect`. */
  connect(options) {
    return connect(this.path, options);
  }

  /** A new monitor, of all sessions or of one. */
  async monitor(session) {
    return monitor(this.monitorPath, session);
  }

  /** Ends the front and its server, and waits for that; the promise has the front's exit status. */
  async close() {
    this.#child.kill("SIGTERM");
    const status = await this.#ended;
    process.off("exit", this.#leave);
    await removed(this.#room);
    return status;
  }
}

if (Symbol.asyncDispose) Front.prototype[Symbol.asyncDispose] = Front.prototype.close;

/**
 * Reads the lines of a front's server, of all sessions or of one, for `for await`: each as what its JSON holds.
 * @param {string} place the path of `--monitor`
 * @param {string} [session]
 */
export async function monitor(place, session) {
  const made = new Monitor(await connectSocket({ path: place }, place, START_MS));
  if (session !== undefined) await made.choose(session);
  return made;
}

/** The lines of a front's server. It is made by `monitor`. */
export class Monitor {
  #transport;
  #came = [];
  #end = null; // "closed", "over" or an error
  #wake = () => {};
  #cutter = new LineCutter((bytes) => this.#take(lineIn(bytes)));

  constructor(transport) {
    this.#transport = transport;
    transport.onmessage = ({ data }) => this.#push(data);
    transport.onclose = () => this.#finish(this.#cutter.hasBegun() ? new LinesLost() : "over");
  }

  /** Asks for the lines of one session, and waits until they will come; lines that came before are dropped. */
  async choose(session) {
    this.#transport.send(lineOf({ front: "monitor", session }));
    for await (const line of this) {
      if ("front" in line) return;
      if (String(line.error).startsWith("F")) {
        this.close();
        throw new Refused(line.error, { do: "monitor", session });
      }
    }
    throw new ConnectionClosed();
  }

  async next() {
    while (!this.#came.length && this.#end === null) await new Promise((resolve) => (this.#wake = resolve));
    if (this.#came.length) return { done: false, value: this.#came.shift() };
    if (this.#end instanceof Error) throw this.#end;
    return { done: true, value: undefined };
  }

  [Symbol.asyncIterator]() {
    return { next: () => this.next(), return: async () => ({ done: true, value: undefined }) };
  }

  /** Reads no more, and ends the iteration. */
  close() {
    this.#finish("closed");
    this.#came = [];
    this.#transport.destroy();
  }

  #push(data) {
    try {
      this.#cutter.push(data);
    } catch (error) {
      this.#finish(error);
      this.#transport.destroy();
    }
  }

  #take(line) {
    if (this.#end !== null) return;
    if (line.error === LEFT_OUT) this.#finish(new LinesLost());
    else {
      this.#came.push(line);
      this.#wake();
    }
  }

  #finish(end) {
    this.#end ??= end;
    this.#wake();
  }
}
