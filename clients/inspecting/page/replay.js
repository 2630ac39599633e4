// A record: how much of it is shown.

import { el, say } from "./elements.js";
import { write } from "./texts.js";
import { oneAtATime, post } from "./asking.js";

export class Replay {
  constructor(place, page) {
    this.page = page;
    this.wanted = null;
    this.moves = 0;
    this.go = oneAtATime(() => this.step());
    const button = (text, title, does) => el("button", { type: "button", text, title, onclick: does });
    this.slider = el(
      "input",
      { type: "range", min: 0, value: 0, "aria-label": "Line of the record", oninput: () => this.to(Number(this.slider.value)) },
    );
    this.number = el("span", { class: "code" });
    place.append(
      button("|◀", "to the beginning", () => this.to(0)), button("◀", "one line back", () => this.to(this.place() - 1)),
      this.slider, button("▶", "one line forward", () => this.to(this.place() + 1)),
      button("▶|", "to the end", () => this.to(this.of)), this.number,
    );
    place.hidden = false;
    this.tell(page.about);
  }

  /** The line that is shown, or will be. */
  place() {
    return this.wanted ?? this.at;
  }

  /** How far it is shown now. News that were on their way when another line was chosen are older than that. */
  tell(news) {
    if (news.moves < this.moves) return;
    this.moves = news.moves;
    this.at = news.at;
    this.of = news.of;
    this.slider.max = news.of;
    if (document.activeElement !== this.slider || this.wanted === null) this.slider.value = news.at;
    write(this.number, `line ${news.at} of ${news.of}`);
  }

  to(line) {
    this.wanted = Math.max(0, Math.min(line, this.of));
    this.go();
  }

  async step() {
    const to = this.wanted;
    if (to === null) return;
    try {
      if (to !== this.at) this.tell(await post("step", { to }));
      if (this.wanted === to) this.wanted = null;
      this.page.refresh();
    } catch (error) {
      this.wanted = null;
      say(String(error));
    }
  }
}
