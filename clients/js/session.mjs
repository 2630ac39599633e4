/**
 * A session of a server: a method for each command of the protocol, and what the session receives besides answers.
 * @module
 */

import { COMMANDS } from "./commands.mjs";
import { commandsOf, replay, snapshot, textOf } from "./dumps.mjs";
import { MetadError, NoValue, NotAnswered, Refused, StrangeLine, shown } from "./errors.mjs";
import { Calls, Hearing, notInTime, waitUntil } from "./hearing.mjs";
import { NUMBER, isPlain } from "./json.mjs";
import { lineOf } from "./lines.mjs";
import { Reference, described, isMethod } from "./objects.mjs";
import { hearPost, waitForSignal } from "./relays.mjs";
import { Shape, meant } from "./shapes.mjs";
import { after } from "./transports.mjs";

const WAIT_MS = 5_000; // of `waitFor`, where nothing else is said
const PAGE = 1_000; // connections or bindings that one reply has at most

/**
 * A session of a server, by its name. It is made by `session` of a client.
 *
 * Each command is a method. Its arguments are the keys that the command needs, in the order of the protocol's table. The
 * optional keys follow, one by one or as an object. `timeout`, in milliseconds, may be among them.
 */
export class Session {
  #hearing = new Hearing();

  constructor(client, name) {
    /** The client that it is of. */
    this.client = client;
    /** The name that the commands of this session are given by. */
    this.name = name;
    /** The name that its lines have, and by which others join it; null before its first answer. */
    this.knownAs = null;
    /** Milliseconds in which each command has to be answered; null waits without a limit. */
    this.timeout = client.timeout;
    /** Whether each command is followed by a `spin`, which is answered before the command is. */
    this.autoSpin = false;
  }

  /** Whether events come unasked, without `spin`. */
  get isLive() {
    return this.client.isLive;
  }

  /**
   * Gives a command by its word and its keys; the promise has the value of the reply.
   * @param {string} word
   * @param {Record<string, any>} [keys]
   * @param {{timeout?: number | null}} [options]
   */
  async command(word, keys = {}, { timeout = this.timeout } = {}) {
    const answered = this.#give(word, keys, timeout);
    if (this.autoSpin && word !== "spin") await this.#give("spin", {}, timeout).catch(() => {}); // the command says why
    return answered;
  }

  #give(word, keys, timeout) {
    const command = { ...Object.fromEntries(Object.entries(keys).map(([key, it]) => [key, it?.[NUMBER] ?? it])), do: word };
    const line = this.#line(keys, command);
    const answered = new Promise((resolve, reject) => {
      const stop = after(timeout, () => reject(new NotAnswered(`no answer to ${word} in ${timeout} ms`, { command })));
      const settle = (how, value) => (stop(), how(value));
      const take = (answer) => {
        if ("error" in answer) settle(reject, new Refused(answer.error, command));
        else settle(resolve, answer.reply);
      };
      this.client.connection.give(line, { session: this, take, fail: (error) => settle(reject, withCommand(error, command)) });
    });
    answered.catch(() => {}); // `command` hands it on, when its spin is answered too
    return answered;
  }

  #line(keys, command) {
    try {
      return lineOf({ ...keys, do: command.do, session: this.name }, this);
    } catch (error) {
      throw error instanceof MetadError ? withCommand(error, command) : error;
    }
  }

  /**
   * Makes an object, a root where it has no parent; the promise has the object, with the members of its class.
   * @param {string} className
   * @param {any} [rest] the parent, or an object with `parent` and `timeout`
   */
  async new(className, ...rest) {
    const { keys, options } = given("new", [className, ...rest]);
    const made = this.command("new", keys, options);
    const shape = this.shape(className, options);
    shape.catch(() => {}); // if there is no such class, `made` says so
    const number = await made;
    if (typeof number !== "number") throw new StrangeLine(shown(number));
    return described(this, number, await shape);
  }

  /**
   * An object that is there, by its number. It can be used at once; awaited it has the members of its class.
   * @param {number | object} number
   */
  object(number) {
    return new Reference(this, number);
  }

  /** Puts the session back to how it is before its first command; nobody listens to single objects any more. */
  async reset(options) {
    const done = await this.command("reset", {}, options);
    this.#hearing.forget();
    return done;
  }

  /**
   * The members of a class, which the server is asked for once.
   * @param {string} className
   */
  async shape(className, options) {
    const { shapes } = this.client;
    if (!shapes.has(className)) shapes.set(className, new Shape(await this.command("describe", { class: className }, options)));
    return shapes.get(className);
  }

  /** All connections, or those of one object, however many there are. */
  async allConnections(object) {
    const keys = object === undefined ? {} : { object };
    return this.#pages("connections", (last) => ({ ...keys, ...(last && { after: last.connection }) }));
  }

  /** All bound properties, however many there are. */
  async allBindings() {
    return this.#pages("bindings", (last) => (last ? { after: last } : {}));
  }

  /**
   * What the session holds, as a text: trees of objects with the properties that do not have the default of their type,
   * connections, publications, joins and open groups. Events and the states of functors are left out.
   */
  async dump() {
    return textOf(await snapshot(this));
  }

  /**
   * The commands that make in a fresh session what this one holds, with the same numbers: objects with the command's keys,
   * without a session. `replay` gives them, here and in the Python client.
   */
  async dumpCommands() {
    return commandsOf(await snapshot(this));
  }

  /** Gives the commands of a `dumpCommands`. Rejects with `NotFresh` if the session has had objects before. */
  async replay(commands) {
    return replay(this, commands);
  }

  async #pages(word, keysBehind) {
    const all = [];
    for (;;) {
      const page = await this.command(word, keysBehind(all[all.length - 1]));
      if (!Array.isArray(page)) throw new StrangeLine(String(page));
      all.push(...page);
      if (page.length < PAGE) return all;
    }
  }

  /**
   * Has a function called: with each `"call"`, with each `"warning"`, with what came of each `spin` of the front
   * (`"spun"`), or, where an object is given, with the calls of all its slots or of the one whose signature follows.
   * @param {"call" | "warning" | "spun" | number | object} what
   * @param {...any} rest the signature, where one slot is meant, and the function
   */
  on(what, ...rest) {
    return this.#hearing.on(what, rest);
  }

  /** Calls who listens with what came; the connection does that. */
  hear(told, report) {
    this.#hearing.hear(told, report);
  }

  /**
   * The calls of the session's slots and functors from now on, for `for await`. The iteration ends where none comes for
   * so many milliseconds, and without a `timeout` never.
   * @param {{timeout?: number | null}} [options]
   */
  calls({ timeout = null } = {}) {
    return new Calls(this, this.#hearing, timeout);
  }

  /**
   * Waits until a function returns something true, and returns that; or until a signal is sent, and returns its
   * arguments.
   * @param {(() => any) | object} what a function, or a signal of an object
   * @param {{timeout?: number | null}} [options]
   */
  async waitFor(what, { timeout = WAIT_MS, ...options } = {}) {
    if (isMethod(what)) return waitForSignal(what, { timeout, ...options });
    const done = await waitUntil(this, what, timeout);
    if (!done) throw notInTime(timeout);
    return done;
  }

  /**
   * Has a function called with what another session publishes under a name, with these types. It needs a relay, see
   * `withRelay`.
   */
  listen(from, name, types, told) {
    return hearPost(this, from, name, types, told);
  }

  toString() {
    return `session ${this.name}`;
  }
}

/** An error of a connection, with the command that it has ended. */
function withCommand(error, command) {
  error.command = command;
  return error;
}

/**
 * The keys and the options of a command, of the arguments of its method.
 * @param {string} word
 * @param {any[]} args
 */
function given(word, args) {
  const forms = COMMANDS[word];
  if (forms.length > 1 && isPlain(args[0])) return byKeys(word, forms, args);
  const { keys: required, optional } = forms[0];
  const keys = {};
  required.forEach((key, at) => {
    const value = word === "invoke" && key === "args" && args[at] === undefined ? [] : args[at];
    if (value === undefined) throw new NoValue(`${word} needs ${required.join(", ")}: it was given no ${key}`);
    keys[key] = value;
  });
  return { keys, options: further(word, keys, optional, args.slice(required.length)) };
}

/** Takes the optional keys of a command, one by one or as an object, and returns the options that are no keys. */
function further(word, keys, optional, rest) {
  while (rest.length && rest[rest.length - 1] === undefined) rest.pop();
  const last = rest[rest.length - 1];
  const named = isPlain(last) ? last : {};
  const values = isPlain(last) ? rest.slice(0, -1) : rest;
  const excess = values.length - optional.length;
  if (excess > 0) throw new NoValue(`${word} was given ${excess} arguments too many`);
  const { timeout, ...found } = named;
  values.forEach((value, at) => (found[optional[at]] = value));
  for (const [key, value] of Object.entries(found)) {
    if (!optional.includes(key)) throw new NoValue(`${word} has no key ${key}${meant(key, [...optional, "timeout"])}`);
    if (value !== undefined && value !== null) keys[key] = value;
  }
  return timeout === undefined ? {} : { timeout };
}

/** The keys of a command with several forms, which are given as an object. */
function byKeys(word, forms, [{ timeout, ...keys }]) {
  const form = forms.find((it) => it.keys.every((key) => keys[key] !== undefined));
  if (!form) throw new NoValue(`${word} needs ${forms.map((it) => it.keys.join(", ")).join(" or ")}`);
  const required = Object.fromEntries(form.keys.map((key) => [key, keys[key]]));
  const rest = Object.fromEntries(Object.entries(keys).filter(([key]) => !form.keys.includes(key)));
  further(word, required, form.optional, [rest]);
  return { keys: required, options: timeout === undefined ? {} : { timeout } };
}

for (const word of Object.keys(COMMANDS)) {
  if (word in Session.prototype) continue; // it does more than the command
  const method = async function (...args) {
    const { keys, options } = given(word, args);
    return this.command(word, keys, options);
  };
  Object.defineProperty(method, "name", { value: word });
  Object.defineProperty(Session.prototype, word, { value: method, writable: true, configurable: true });
}
