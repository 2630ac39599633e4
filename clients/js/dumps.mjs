/**
 * The contents of a session, as a text for people and as commands that make them in another session. Both are those of the
 * Python client, which can replay what is made here, and the other way round.
 *
 * A snapshot leaves out the events in the queue and the number of lost ones, which no command replies, and the states of
 * functors, which no command sets.
 * @module
 */

import { NotFresh } from "./errors.mjs";
import { writeJson } from "./json.mjs";

const INDENT = "    ";
const NUMBERED = { new: "object", connect: "connection", connectFunctor: "connection" };

/**
 * What a session holds; it takes some commands for each object.
 * @param {import("./session.mjs").Session} session
 */
export async function snapshot(session) {
  const [roots, status] = await Promise.all([session.command("children"), session.command("status")]);
  const shot = { roots, groups: status.group, objects: new Map(), children: new Map(), properties: new Map() };
  for (let level = roots; level.length; ) level = await oneLevel(session, shot, level);
  shot.expressions = await expressionsOf(session, shot);
  shot.connections = await session.allConnections();
  [shot.publications, shot.joins] = await Promise.all([session.command("publications"), session.command("joins")]);
  shot.standIns = await standIns(session, shot);
  return shot;
}

/** Asks for the objects of one level, and returns the numbers of their children. */
async function oneLevel(session, shot, level) {
  const ask = (word, numbers) => Promise.all(numbers.map((object) => session.command(word, { object })));
  const [infos, properties] = await Promise.all([ask("object", level), ask("properties", level)]);
  level.forEach((number, at) => {
    shot.objects.set(number, infos[at]);
    shot.properties.set(number, properties[at]);
  });
  const parents = level.filter((number) => shot.objects.get(number).children);
  const children = await ask("children", parents);
  parents.forEach((number, at) => shot.children.set(number, children[at]));
  return children.flat();
}

/** Asks for the expressions of all bound properties: a list of the objects, the names and the expressions. */
async function expressionsOf(session, shot) {
  const bound = [...shot.properties].flatMap(([object, held]) => held.filter((it) => it.bound).map(({ name }) => ({ object, property: name })));
  const expressions = await Promise.all(bound.map((it) => session.command("binding", it)));
  return bound.map((it, at) => ({ ...it, to: expressions[at] }));
}

/** Asks for classes with the properties that bindings read of deleted objects, by the numbers of these. */
async function standIns(session, shot) {
  const read = new Map();
  for (const { to } of shot.expressions) {
    for (const [number, name] of readsOf(to)) {
      if (!shot.objects.has(number)) read.set(number, [...(read.get(number) ?? []), name]);
    }
  }
  if (!read.size) return new Map();
  const names = await session.command("classes");
  const described = await Promise.all(names.map((name) => session.command("describe", { class: name })));
  const bindable = described.map((it) => new Set(it.properties.filter((one) => one.bindable).map((one) => one.name)));
  return new Map([...read].map(([number, of]) => [number, names[bindable.findIndex((it) => of.every((name) => it.has(name)))]]));
}

/** The properties that an expression reads of objects that it names by their numbers. */
function* readsOf(form) {
  if (Array.isArray(form)) {
    for (const part of form) yield* readsOf(part);
  } else if (typeof form === "object" && form !== null && "prop" in form) {
    if (typeof form.of === "number") yield [form.of, form.prop];
  } else if (typeof form === "object" && form !== null && !("const" in form)) {
    for (const parts of Object.values(form)) yield* readsOf(parts);
  }
}

// As text.

/** A snapshot as a text: the trees of objects with their properties, then connections, publications, joins and groups. */
export function textOf(shot) {
  const lines = shot.roots.flatMap((it) => [...tree(shot, it, "")]);
  if (!lines.length) lines.push("no objects");
  for (const [heading, held] of [
    ["connections", shot.connections.map((it) => `${it.connection}: ${connectionText(it)}`)],
    ["publications", shot.publications.map((it) => `${it.name}: ${it.object}.${it.signal}`)],
    ["joins", shot.joins.map((it) => `${it.from}.${it.name}(${it.types.join(",")}) -> ${it.object}.${it.method}`)],
  ]) {
    if (held.length) lines.push(`${heading}:`, ...held.map((it) => INDENT + it));
  }
  if (shot.groups) lines.push(`groups open: ${shot.groups}`);
  return `${lines.join("\n")}\n`;
}

/** The lines of an object with its properties, and of the objects below it. */
function* tree(shot, number, front) {
  const info = shot.objects.get(number);
  yield `${front}${number} ${info.class}${info.blocked ? ", blocked" : ""}`;
  for (const it of shot.properties.get(number)) {
    if (it.bound || isSet(it)) yield `${front}${INDENT}.${it.name}${saidOf(shot, number, it)}`;
  }
  for (const child of shot.children.get(number) ?? []) yield* tree(shot, child, front + INDENT);
}

/** The value and the binding of a property. In a group the value of a bound one is left out: it is that from before the group. */
function saidOf(shot, number, it) {
  const value = it.bound && shot.groups ? "" : ` = ${compact(it.value)}`;
  if (it.type === null) return `${value}, dynamic`;
  if (!it.bound) return value;
  const error = it.error !== null && !shot.groups ? `, in error, ${it.error}` : "";
  const { to } = shot.expressions.find(({ object, property }) => object === number && property === it.name);
  return `${value}${error}, bound to ${compact(to)}`;
}

function connectionText(it) {
  const called = "functor" in it ? `${it.functor} for ${it.context}` : `${it.receiver}.${it.method}`;
  const ways = [it.type, it.single ? "single" : "auto"].filter((word) => word !== "auto");
  return [`${it.sender}.${it.signal} -> ${called}`, ...ways].join(" ");
}

/** Whether a property has another value than its default. */
function isSet({ type, value }) {
  if (type === null) return true;
  return value !== (type === "bool" ? false : type === "QString" ? "" : 0);
}

/** A value as JSON with its keys sorted, as the server writes it. */
function compact(value) {
  return writeJson(sorted(value));
}

function sorted(value) {
  if (Array.isArray(value)) return value.map(sorted);
  if (typeof value !== "object" || value === null) return value;
  return Object.fromEntries(Object.keys(value).sort().map((key) => [key, sorted(value[key])]));
}

// As commands.

/** The commands that make the contents of a snapshot in a fresh session, with the same numbers. */
export function commandsOf(shot) {
  const placed = new Map(inPlace(shot, null));
  return [
    ...makings(shot, placed),
    ...moves(shot, placed),
    ...writings(shot),
    ...connectings(shot.connections),
    ...shot.publications.map((it) => ({ do: "publish", ...it })),
    ...shot.joins.map((it) => ({ do: "join", ...it })),
    ...Array.from({ length: shot.groups }, () => ({ do: "begin" })),
  ];
}

/** The objects that are in their places as soon as they are made in the order of their numbers, with their parents. */
function* inPlace(shot, parent) {
  let last = parent ?? 0;
  for (const number of parent === null ? shot.roots : (shot.children.get(parent) ?? [])) {
    if (number < last) return;
    last = number;
    yield [number, parent];
    yield* inPlace(shot, number);
  }
}

/** Makes the objects in the order of their numbers. The number of a deleted object is skipped by making one and deleting it. */
function* makings(shot, placed) {
  const most = [...shot.objects.keys(), ...shot.standIns.keys()].reduce((one, other) => Math.max(one, other), 0);
  for (let number = 1; number <= most; number += 1) {
    if (shot.objects.has(number)) {
      const parent = placed.get(number) ?? null;
      yield { do: "new", class: shot.objects.get(number).class, ...(parent === null ? {} : { parent }) };
    } else {
      yield { do: "new", class: shot.standIns.get(number) ?? "QObject" };
      if (!shot.standIns.has(number)) yield { do: "delete", object: number };
    }
  }
}

/** Moves the other objects to their places: first the roots, in their order, then the objects below them. */
function* moves(shot, placed) {
  for (const object of shot.roots.filter((it) => !placed.has(it))) {
    yield { do: "setParent", object, parent: shot.roots[0] };
    yield { do: "setParent", object, parent: null };
  }
  const waiting = [...shot.roots].reverse();
  while (waiting.length) {
    const parent = waiting.pop();
    const children = shot.children.get(parent) ?? [];
    for (const object of children.filter((it) => !placed.has(it))) yield { do: "setParent", object, parent };
    waiting.push(...[...children].reverse());
  }
}

/** Sets values, binds, deletes the objects that were only made for bindings to read, and blocks signals. */
function* writings(shot) {
  for (const [object, held] of shot.properties) {
    for (const it of held.filter((one) => !one.bound && isSet(one))) yield { do: "set", object, property: it.name, value: it.value };
  }
  for (const it of shot.expressions) yield { do: "bind", ...it };
  for (const object of shot.standIns.keys()) yield { do: "delete", object };
  for (const [object, info] of shot.objects) {
    if (info.blocked) yield { do: "block", object, on: true };
  }
}

/** Makes the connections in the order of their numbers. The number of a broken one is skipped by making one and breaking it. */
function* connectings(connections) {
  let number = 1;
  for (const { connection, state: _state, type, single, ...ends } of connections) {
    for (; number < connection; number += 1) {
      yield { do: "connect", sender: ends.sender, signal: "destroyed()", receiver: ends.sender, method: "deleteLater()" };
      yield { do: "disconnect", connection: number };
    }
    const ways = { ...(type === "auto" ? {} : { type }), ...(single ? { single } : {}) };
    yield { do: "functor" in ends ? "connectFunctor" : "connect", ...ends, ...ways };
    number += 1;
  }
}

// Given again.

/**
 * Gives commands that `commandsOf` or the Python client has made. Rejects with `NotFresh` if an object or a connection gets
 * another number; if the first command shows that, the others are not given.
 */
export async function replay(session, commands) {
  const counts = { object: 0, connection: 0 };
  for (const part of [commands.slice(0, 1), commands.slice(1)]) {
    const replies = await Promise.all(part.map(({ do: word, ...keys }) => session.command(word, keys)));
    part.forEach(({ do: word }, at) => {
      const kind = NUMBERED[word];
      if (kind === undefined) return;
      counts[kind] += 1;
      if (replies[at] !== counts[kind]) {
        throw new NotFresh(`${kind} ${counts[kind]} got the number ${replies[at]} in this session, which is not fresh`);
      }
    });
  }
}
