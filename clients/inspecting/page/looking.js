// Lets the inspector ask for what the page does not know, if it may.

import { post } from "./asking.js";

const SOON = 250, LATER = 1000; // milliseconds

/** Requests what is not known of what is shown, one request at a time, and less often if nothing could be asked. */
export class Look {
  constructor(ask = post, wait = (next, pause) => setTimeout(next, pause)) {
    this.ask = ask;
    this.wait = wait;
    this.wanted = new Map(); // by what shows it
    this.isUnderWay = false;
  }

  /** Notes what a part of the page shows and does not know all of; null if it knows all. */
  at(place, shownBy) {
    if (place) this.wanted.set(shownBy, place); else this.wanted.delete(shownBy);
    this.go();
  }

  async go() {
    const [next] = this.wanted;
    if (this.isUnderWay || !next) return;
    this.isUnderWay = true;
    this.wanted.delete(next[0]);
    let pause = LATER;
    try {
      const said = await this.ask("look", next[1]);
      if (said.asked) pause = SOON;
    } catch (error) { console.warn(String(error)); }
    this.wait(() => { this.isUnderWay = false; this.go(); }, pause);
  }
}
