/**
 * A connection with a server, which pairs answers with commands, in their order.
 * @module
 */

import { ConnectionClosed, NotStarted, Refused, SessionLost, StrangeLine } from "./errors.mjs";
import { LineCutter, NOBODY, lineIn, textOf, toldBy } from "./lines.mjs";

const LOST = "F04"; // an error of the front itself, after which it closes the connection

/**
 * Who waits for an answer: `take` is called with its line, or `fail` with the reason why there is no answer.
 * @typedef {{session?: object, take: (line: Record<string, any>) => void, fail: (error: Error) => void}} Asking
 */

/** A connection over a transport. */
export class Connection {
  /** Whether events come unasked. */
  isLive = false;
  #listening = new Set(); // called with an error that nobody waits for: an exception of a callback, for one
  #transport;
  #cutter = new LineCutter((bytes) => this.#takeLine(bytes));
  #outbox = []; // lines that are given and not sent yet
  #underWay = [];
  #done = 0; // of those at the front of `underWay`
  #since = []; // what came since the last answer
  #unclaimed = []; // what came unasked before there was a session
  #sessions = [];
  #fault = null; // makes the error of whoever gets no answer
  #news = new Set(); // called when something has come
  #isClosing = false;
  #end = null;
  #ended;

  constructor(transport) {
    this.#transport = transport;
    let end;
    this.#ended = new Promise((resolve) => (end = resolve));
    transport.onmessage = ({ data }) => this.#take(data);
    transport.onerror = () => {}; // `onclose` follows
    transport.onclose = (event) => {
      this.#end = event ?? {};
      const why = event?.reason ? `the connection was closed: ${event.reason}` : undefined; // as a WebSocket says it
      this.#finish(typeof event?.fault === "function" ? event.fault : () => new ConnectionClosed(why));
      end(this.#end);
    };
  }

  /** Comes when the connection has ended, with what the transport says of it. */
  get ended() {
    return this.#ended;
  }

  /** Whether nothing more will come. */
  get hasEnded() {
    return this.#fault !== null;
  }

  /**
   * Gives a line, whose answer will come.
   * @param {string} line
   * @param {Asking} asking
   */
  give(line, asking) {
    if (this.#fault || this.#isClosing) {
      asking.fail(this.#fault ? this.#fault() : new ConnectionClosed("the connection was closed: nothing more is sent"));
      return;
    }
    this.#underWay.push(asking);
    if (this.#outbox.push(line) === 1) queueMicrotask(() => this.#send()); // what is given at once is sent at once
  }

  #send() {
    if (!this.#outbox.length) return;
    const text = this.#outbox.join("");
    this.#outbox = [];
    try {
      this.#transport.send(text);
    } catch (error) {
      this.#finish(() => new ConnectionClosed(`the transport does not send: ${error.message}`, { cause: error }));
    }
  }

  /** Adds a session that receives what comes unasked. */
  add(session) {
    this.#sessions.push(session);
    queueMicrotask(() => this.#claim()); // so that who asks for a session can listen first
  }

  /** Throws the reason why nothing more will come, if there is one. */
  check() {
    if (this.#fault) throw this.#fault();
  }

  /** Has a function called with errors that no caller waits for; returns what ends that. */
  onError(told) {
    const own = (error) => told(error);
    this.#listening.add(own);
    return () => this.#listening.delete(own);
  }

  /** Has a function called when something has come; returns what ends that. */
  onNews(told) {
    this.#news.add(told);
    return () => this.#news.delete(told);
  }

  /** Says that nothing more will be given, once all that was given is answered where the transport needs that. */
  hangUp() {
    if (this.#isClosing) return;
    this.#isClosing = true;
    this.#send();
    if (this.#transport.halfCloses || !this.#waiting()) this.#transport.close();
  }

  /** Ends all at once. */
  destroy() {
    this.#isClosing = true;
    if (this.#transport.destroy) this.#transport.destroy();
    else this.#transport.close();
  }

  /** What it means that the server has ended before it answered anything. */
  notStarted(Kind = NotStarted) {
    return new Kind(undefined, this.#end ?? {});
  }

  #waiting() {
    return this.#underWay.length - this.#done;
  }

  #take(data) {
    if (this.#fault) return; // nobody can tell what it means any more
    try {
      this.#cutter.push(data);
    } catch (error) {
      if (!(error instanceof StrangeLine || error instanceof SessionLost)) throw error;
      this.#finish(() => (error instanceof StrangeLine ? new StrangeLine(error.line) : new SessionLost()));
      this.destroy();
    }
  }

  #takeLine(bytes) {
    if (this.#fault) return;
    const line = lineIn(bytes);
    if ("front" in line) this.#takeSpun(line, bytes);
    else if ("reply" in line || "error" in line) this.#takeAnswer(line, bytes);
    else {
      const told = toldBy(line, bytes);
      if (told) this.#since.push(told);
      if (this.isLive && !this.#waiting()) this.#tell(this.#sessions);
    }
  }

  /** Takes the answer to a `spin` that the front has given automatically: no command here has asked for it. */
  #takeSpun(line, bytes) {
    if ("error" in line) {
      this.isLive = false;
      if (this.#listening.size) this.#report(new Refused(String(line.error), { do: "spin" }));
    } else if (line.front === "spin" && typeof line.reply?.events === "number") {
      this.#since.push({ kind: "spun", what: line.reply });
    } else {
      throw new StrangeLine(textOf(bytes));
    }
    this.#tell(this.#sessions);
    this.wake();
  }

  /** Pairs an answer with the oldest command, and what came before it with the session that gave that. */
  #takeAnswer(line, bytes) {
    if (line.error === LOST) throw new SessionLost();
    if (!this.#waiting()) throw new StrangeLine(textOf(bytes));
    const asking = this.#underWay[this.#done];
    this.#done += 1;
    if (this.#done > 1024) {
      this.#underWay.splice(0, this.#done);
      this.#done = 0;
    }
    if (asking.session && line.session !== NOBODY) asking.session.knownAs = line.session;
    this.#tell(asking.session ? [asking.session] : []);
    asking.take(line);
    if (this.#isClosing && !this.#waiting() && !this.#transport.halfCloses) this.#transport.close();
  }

  /** Passes on to sessions what came since the last answer. */
  #tell(sessions) {
    const since = this.#since;
    this.#since = [];
    if (since.length && !sessions.length && this.isLive) this.#unclaimed.push(...since);
    for (const told of since) for (const session of sessions) session.hear(told, (error) => this.#report(error));
    if (since.length) this.wake();
  }

  #claim() {
    if (!this.#unclaimed.length) return;
    this.#since.unshift(...this.#unclaimed);
    this.#unclaimed = [];
    this.#tell(this.#sessions);
  }

  /** Wakes those that wait for news. */
  wake() {
    for (const told of [...this.#news]) told();
  }

  /** Reports an error that no caller waits for; where no function takes it, it is an uncaught exception. */
  #report(error) {
    if (!this.#listening.size) throwLater(error);
    for (const told of [...this.#listening]) {
      try {
        told(error);
      } catch (another) {
        throwLater(another);
      }
    }
  }

  /** Ends all commands under way, and those to come, without an answer. */
  #finish(fault) {
    if (this.#fault) return;
    if (this.#waiting()) this.#tell([this.#underWay[this.#done].session].filter(Boolean));
    else if (this.isLive) this.#tell(this.#sessions);
    this.#fault = fault;
    const waiting = this.#underWay.slice(this.#done);
    this.#underWay = [];
    this.#outbox = [];
    this.#done = 0;
    for (const asking of waiting) asking.fail(fault());
    this.wake();
  }
}

/** Makes an error an uncaught exception. */
function throwLater(error) {
  setTimeout(() => {
    throw error;
  });
}
