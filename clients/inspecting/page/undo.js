// Undo of values that were set from this page.

import { say, shown } from "./elements.js";
import { get, post } from "./asking.js";

const MOST = 100;

export class Undo {
  constructor(page, give = post, look = get) {
    Object.assign(this, { page, give, look });
    this.done = [];
  }

  /** Keeps in mind what a property had before it was set, as JSON. */
  keep(session, object, property, before, after) {
    this.done.push({ session, object, property, before, after });
    if (this.done.length > MOST) this.done.shift();
  }

  /** The newest value that was set for a property, or for any. */
  of(session, object, property) {
    return this.done.findLast((it) => it.session === session && it.object === object && it.property === property) ?? null;
  }

  async last() {
    if (!this.done.length) return void say("Nothing was set here that could be undone.");
    await this.undo(this.done.at(-1));
  }

  /** Sets back what a property had, unless somebody else has set it since. */
  async undo(it) {
    this.done = this.done.filter((one) => one !== it);
    const where = `${it.property} of #${it.object} in ${it.session}`;
    try {
      const found = await this.look("object", { session: it.session, number: it.object });
      const row = found?.properties.find((one) => one.name === it.property);
      if (!row || !found.is_there) return void say(`${where} is not there any more: nothing was undone.`);
      if (row.bound || (row.value !== null && shown(row.value) !== it.after)) return void say(`${where} has changed since: nothing was undone.`);
      const command = { do: "set", object: it.object, property: it.property, value: { json: it.before } };
      const said = await this.give("ask", { session: it.session, command });
      say(said.answer === null || said.error ? `not undone: ${said.answer ?? "not answered"}` : `${where} is ${it.before} again.`);
    } catch (error) { say(String(error)); }
    this.page.refresh();
  }
}
