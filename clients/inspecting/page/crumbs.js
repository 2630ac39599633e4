// Where the page is: the session, the class and the object that are chosen, above every view.

import { clear, el, link, name } from "./elements.js";
import { get, oneAtATime } from "./asking.js";

export class Crumbs {
  constructor(place, page) {
    this.page = page;
    this.list = el("ol", {});
    place.append(this.list);
    this.refresh = oneAtATime(() => this.load());
  }

  async load() {
    const { session, object } = this.page.state;
    const found = session ? await get("place", { session, object }) : null;
    if (session !== this.page.state.session || object !== this.page.state.object) return void this.refresh();
    this.page.look.at(found?.wanted ? { session } : null, "session");
    this.page.look.at(found?.object?.wanted ? { session, object } : null, "object");
    if (found?.object) this.page.note({ class: found.object.class });
    this.draw(found);
  }

  draw(found) {
    const key = JSON.stringify([found, this.page.state]);
    if (key === this.key) return;
    this.key = key;
    const parts = this.parts(found);
    const last = parts.length - 1;
    const focused = this.list.contains(document.activeElement) ? document.activeElement.dataset.key : null;
    clear(this.list, parts.map((it, at) => el("li", { "aria-current": at === last ? "location" : null }, it)));
    if (focused) this.list.querySelector(`[data-key="${focused}"]`)?.focus();
  }

  parts(found) {
    const { page } = this, { session, object } = page.state;
    const crumb = (key, within, does) => {
      const made = link("", does);
      made.append(...[within].flat());
      made.dataset.key = key;
      return made;
    };
    const parts = [crumb("all", "all sessions", () => page.choose({ session: null, object: null, class: null }))];
    if (!session) return parts;
    parts.push([
      crumb("session", name(session), () => page.choose({ object: null, class: null })),
      found?.is_there ? null : el("span", { class: "mark amber", text: "it is not there, or its client has left" }),
      found?.failed ? el("span", { class: "mark red", text: "failed" }) : null,
    ]);
    const className = found?.object ? found.object.class : page.state.class;
    if (className) parts.push(
      crumb("class", name(className, "class"), () => page.choose({ object: null, class: className, view: "objects" })),
    );
    const called = found?.object?.name ? [" ", name(JSON.stringify(found.object.name), "text")] : [];
    if (object) parts.push([
      crumb("object", [`#${object}`, ...called], () => page.choose({ view: "objects" })),
      found?.object && !found.object.is_there ? el("span", { class: "mark red", text: "not there" }) : null,
    ]);
    return parts;
  }
}
