// What is chosen, as it is written in the address, so that a link shows the same again and the browser's back button works.

const NUMBERS = ["object", "entry", "call", "near"], TEXTS = ["view", "session", "class", "graph", "sought", "by", "only"];
export const KEYS = ["view", "session", "class", "object", "entry", "call", "graph", "near", "sought", "by", "only"];

/** What an address has after its `#`. Unknown views become the first one. */
export function readState(hash, views) {
  const words = new URLSearchParams(hash.replace(/^#/, ""));
  const state = {};
  for (const key of TEXTS) state[key] = words.get(key) || null;
  for (const key of NUMBERS) state[key] = /^\d{1,15}$/.test(words.get(key) ?? "") ? Number(words.get(key)) : null;
  if (!views.includes(state.view)) state.view = views[0];
  return state;
}

export function hashOf(state) {
  const words = KEYS.filter((key) => state[key] !== null && state[key] !== undefined && state[key] !== "");
  return `#${new URLSearchParams(words.map((key) => [key, state[key]]))}`;
}

/** A state with changes. Another session has other objects, and another object has another class. */
export function changed(state, changes) {
  const made = { ...state };
  if ("session" in changes && changes.session !== state.session) made.object = made.class = made.near = null;
  if ("object" in changes && changes.object !== state.object) made.class = null;
  return { ...made, ...changes };
}
