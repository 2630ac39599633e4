// The page: what is chosen, which view is shown, and what is done when something has changed.

import { el, say, span } from "./elements.js";
import { write } from "./texts.js";
import { endedSoFar, get, hear, isWaiting, versionNow } from "./asking.js";
import { changed, hashOf, readState } from "./location.js";
import { Look } from "./looking.js";
import { Crumbs } from "./crumbs.js";
import { Keys } from "./keys.js";
import { Tabs } from "./tabs.js";
import { Undo } from "./undo.js";
import { themeSwitch } from "./theme.js";
import { Sessions } from "./sessions.js";
import { TreeView } from "./tree.js";
import { HappenedView } from "./happened.js";
import { TimelineView } from "./timeline.js";
import { GraphsView } from "./graphs.js";
import { BusiestView } from "./busiest.js";
import { SearchView } from "./search.js";
import { Replay } from "./replay.js";

const VIEWS = [
  ["objects", "Objects", TreeView], ["happened", "What happened", HappenedView], ["timeline", "Timeline", TimelineView],
  ["graphs", "Graphs", GraphsView], ["busiest", "Busiest slots", BusiestView], ["search", "Search", SearchView],
];
const NAMES = VIEWS.map(([name]) => name);

class Page {
  constructor(about) {
    this.about = about;
    this.state = readState(location.hash, NAMES);
    this.look = new Look();
    this.undo = new Undo(this);
    this.crumbs = new Crumbs(document.getElementById("crumbs"), this);
    this.sessions = new Sessions(document.getElementById("sessions"), this);
    this.views = new Map(VIEWS.map(([name, , View]) => [name, new View(this)]));
    this.tabs = new Tabs(document.getElementById("tabs"), VIEWS, (view) => this.choose({ view }));
    this.keys = new Keys(this, NAMES);
    this.begin();
  }

  begin() {
    write(document.getElementById("words"), this.about.words.join(" "));
    document.getElementById("switches").append(
      el("button", { type: "button", text: "keys", title: "the keys of this page (?)", onclick: () => this.keys.help.showModal() }), themeSwitch(),
    );
    this.replay = this.about.record ? new Replay(document.getElementById("replay"), this) : null;
    window.addEventListener("hashchange", () => { this.state = readState(location.hash, NAMES); this.show(); });
    document.addEventListener("visibilitychange", () => this.refresh());
    this.show();
  }

  choose(changes) {
    const state = changed(this.state, changes), hash = hashOf(state);
    this.state = state;
    if (hashOf(readState(location.hash, NAMES)) === hash) return this.refresh();
    location.hash = hash;
  }

  /** Adds to the address what is known of the chosen place, without a further step of the way back. */
  note(more) {
    if (Object.entries(more).every(([key, value]) => this.state[key] === value)) return;
    this.state = { ...this.state, ...more };
    const isShown = this.isShown();
    history.replaceState(null, "", hashOf(this.state));
    if (isShown) this.shown = location.hash;
  }

  /** Shows a command with its calls. */
  openEntry(entry, call = null) {
    if (this.state.view === "timeline") return void this.view().chain.show(entry, call);
    const same = this.state.entry === entry && this.state.call === call && this.state.view === "happened";
    if (same) return this.view().open(entry, call);
    this.choose({ view: "happened", entry, call });
  }

  openSearch() {
    if (this.state.view !== "search") this.choose({ view: "search" });
    this.show();
    this.view().sought.select();
    this.view().sought.focus();
  }

  view() {
    return this.views.get(this.state.view);
  }

  /** Whether the page was drawn since its address has changed. */
  isShown() {
    return this.shown === location.hash;
  }

  /** Resolves once the page has drawn all that the inspector knows now and all that was chosen here. Views draw when they
   * are scrolled and get another size, which a browser tells them in its next frame. */
  async settled() {
    const version = await versionNow();
    let ended = null;
    while (isWaiting() || ended !== endedSoFar() || !this.isShown() || !(this.version >= version)) {
      ended = endedSoFar();
      await nextFrame();
    }
  }

  show() {
    const view = this.view();
    this.shown = location.hash;
    this.tabs.show(this.state.view);
    const place = document.getElementById("view");
    if (place.firstChild !== view.place) place.replaceChildren(view.place);
    view.show();
    this.sessions.refresh();
    this.crumbs.refresh();
  }

  refresh() {
    if (document.hidden) return;
    this.view().refresh();
    this.sessions.refresh();
    this.crumbs.refresh();
  }

  tell(news) {
    const parts = [
      `${news.sessions} session${news.sessions === 1 ? "" : "s"}`, `${news.commands} commands`, `${news.lines} lines`,
    ];
    if (!this.about.record) parts.push(`${news.rate} lines/s`);
    if (news.behind) parts.push(`late by ${span(news.behind)}`);
    if (news.left_out) parts.push(`${news.left_out} lines left out`);
    const place = document.getElementById("state");
    write(place, parts.join(" · "));
    place.classList.toggle("unsure", news.left_out > 0 || news.behind > 0);
    this.replay?.tell(news);
    const isNew = news.version !== this.version, isSlower = news.rate !== this.rate;
    [this.version, this.rate] = [news.version, news.rate];
    if (isNew) this.refresh();
    else if (isSlower && !document.hidden) this.sessions.refresh(); // lines per second change where nothing else does
  }
}

/** Resolves after the browser has drawn a frame, and has called all that listens to it. */
function nextFrame() {
  return new Promise((drawn) => requestAnimationFrame(() => setTimeout(drawn, 0)));
}

async function begin() {
  try {
    const page = new Page(await get("about"));
    window.page = page;
    hear(
      (news) => page.tell(news),
      () => write(document.getElementById("state"), "not connected: the server has ended, or the network sleeps"),
    );
  } catch (error) {
    say(String(error));
  }
}

begin();
