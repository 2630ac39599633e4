/**
 * The transports of Node: sockets, and programs that are started here.
 * @module
 */

import { spawn } from "node:child_process";
import { mkdtemp, rm, writeFile } from "node:fs/promises";
import net from "node:net";
import { tmpdir } from "node:os";
import path from "node:path";
import tls from "node:tls";

import { ConnectionClosed, NotReached, NotStarted, ServerGone } from "./errors.mjs";
import { writeJson } from "./json.mjs";
import { within } from "./transports.mjs";

const STDERR_MOST = 65_536; // bytes of a program's standard error that are kept
const LINGER = 2_000; // milliseconds in which a program has to end that reads or writes no more, with all it has started

/**
 * Connects with a socket.
 * @param {{path: string} | {host: string, port: number}} place
 * @param {string} where the place in words
 * @param {number | null} timeout
 */
export async function connectSocket(place, where, timeout) {
  const socket = net.connect({ ...place, allowHalfOpen: true });
  try {
    await within(timeout, `${where} is not connected`, (resolve, reject) => {
      socket.once("connect", resolve);
      socket.once("error", (cause) => reject(new NotReached(notReached(where, cause), { cause })));
    });
  } catch (error) {
    socket.on("error", () => {});
    socket.destroy();
    throw error;
  }
  return new SocketTransport(socket);
}

/**
 * Connects over TLS.
 * @param {{host: string, port: number}} place
 * @param {object} [given] what `tls.connect` takes
 * @param {string} where the place in words
 * @param {number | null} timeout
 */
export async function connectTls(place, given, where, timeout) {
  let socket;
  try {
    await within(timeout, `${where} is not connected`, (resolve, reject) => {
      const fail = (cause) => reject(new NotReached(notReached(where, cause), { cause }));
      try {
        socket = tls.connect({ ...given, ...place, allowHalfOpen: true }, resolve);
      } catch (cause) {
        return fail(cause); // a certificate that cannot be read
      }
      socket.once("error", fail);
    });
  } catch (error) {
    socket?.on("error", () => {});
    socket?.destroy();
    throw error;
  }
  return new SocketTransport(socket);
}

function notReached(where, cause) {
  const why = { ENOENT: "there is no such socket", ECONNREFUSED: "nobody listens there" }[cause.code] ?? cause.message;
  return `${where} cannot be reached: ${why}; is a front running?`;
}

/** A connection with a socket. Lines still come after `close`, until the other side closes too. */
export class SocketTransport {
  halfCloses = true;
  onmessage = null;
  onclose = null;
  onerror = null;
  #socket;
  #error = null;

  constructor(socket) {
    this.#socket = socket;
    socket.setNoDelay?.(true);
    socket.on("data", (data) => this.onmessage?.({ data }));
    socket.on("end", () => socket.end());
    socket.on("error", (error) => {
      this.#error = error;
      this.onerror?.({ error });
    });
    socket.on("close", () => this.onclose?.({ fault: () => this.#closed() }));
  }

  /** Why nothing more comes. By TLS the other side says what is wrong, as where it wants a certificate. */
  #closed() {
    if (!/^ERR_SSL_/.test(this.#error?.code)) return new ConnectionClosed();
    return new ConnectionClosed(`the connection was closed: ${this.#error.message}`, { cause: this.#error });
  }

  send(text) {
    this.#socket.write(text);
  }

  close() {
    this.#socket.end();
  }

  destroy() {
    this.#socket.destroy();
  }
}

/**
 * Starts a program, in a session of the system of its own, so that an interrupt from the terminal does not end it.
 * @param {{program: string, args?: string[], classes?: object, env?: object, cwd?: string}} what
 */
export async function startProgram({ program, args = [], classes, env, cwd }) {
  const { words, folder } = await classWords(classes);
  const child = spawn(program, [...args, ...words], { stdio: "pipe", detached: true, env, cwd });
  const transport = new ProgramTransport(child, folder);
  await within(null, program, (resolve, reject) => {
    child.once("spawn", resolve);
    child.once("error", (cause) => reject(new NotStarted(`${program} cannot be started: ${cause.message}`, { cause })));
  }).catch(async (error) => {
    await removed(folder);
    throw error;
  });
  return transport;
}

/**
 * The words that name a class file with these classes, and the folder that it is in; none without classes.
 * @param {object} [classes]
 */
export async function classWords(classes) {
  if (classes === undefined) return { words: [], folder: null };
  const text = writeJson(classes);
  const folder = await mkdtemp(path.join(tmpdir(), "metad-"));
  const file = path.join(folder, "classes.json");
  await writeFile(file, text);
  return { words: [file], folder };
}

/** Takes a folder away, where there is one. */
export async function removed(folder) {
  if (folder !== null) await rm(folder, { recursive: true, force: true });
}

/** A program that was started here. Its input ends by `close`, and then the program. */
export class ProgramTransport {
  halfCloses = true;
  onmessage = null;
  onclose = null;
  onerror = null;
  #child;
  #folder;
  #stderr = [];
  #kept = 0;
  #isLingering = false;

  constructor(child, folder) {
    this.#child = child;
    this.#folder = folder;
    child.stdout.on("data", (data) => this.onmessage?.({ data }));
    child.stdout.on("close", () => this.#linger());
    child.stderr.on("data", (data) => this.#keep(data));
    child.stdin.on("error", () => this.#linger());
    for (const stream of [child.stdout, child.stderr]) stream.on("error", () => {}); // `close` follows
    child.on("error", (error) => this.onerror?.({ error }));
    child.on("exit", () => this.#linger());
    child.on("close", async (status, signal) => {
      await this.started();
      const stderr = Buffer.concat(this.#stderr).toString();
      this.onclose?.({ status, signal, stderr, fault: () => new ServerGone(undefined, { status, signal, stderr }) });
    });
  }

  /** Removes what the program needs to start: it has started, or has ended. */
  async started() {
    await removed(this.#folder).catch(() => {}); // it stays where the system keeps it
    this.#folder = null;
  }

  send(text) {
    this.#child.stdin.write(text);
  }

  close() {
    this.#child.stdin.end();
  }

  destroy() {
    for (const stream of [this.#child.stdin, this.#child.stdout, this.#child.stderr]) stream.destroy();
    try {
      process.kill(-this.#child.pid, "SIGKILL"); // with what it has started, which is of its own session of the system
    } catch {
      this.#child.kill("SIGKILL");
    }
  }

  #keep(data) {
    if (this.#kept < STDERR_MOST) this.#stderr.push(data.subarray(0, STDERR_MOST - this.#kept));
    this.#kept += data.length;
  }

  /** Ends what is left of a program that has ended, or has closed its input or its output. */
  #linger() {
    if (this.#isLingering) return;
    this.#isLingering = true;
    this.#child.stdin.end();
    const timer = setTimeout(() => this.destroy(), LINGER);
    this.#child.on("close", () => clearTimeout(timer));
  }
}
