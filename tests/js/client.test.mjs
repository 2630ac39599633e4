/** Sessions: their commands, and what they receive besides answers. */

import assert from "node:assert/strict";
import { spawnSync } from "node:child_process";
import path from "node:path";
import { test } from "node:test";

import { MetadError, NoValue, OtherSession, Refused, connect, meaningOf } from "../../clients/js/index.mjs";
import { PATIENCE, PROGRAM, ROOT, StandIn, failed, served } from "./support.mjs";

test("a refusal has its code, its text and the command", async (t) => {
  const session = (await served(t)).session("a");
  const error = await failed(session.delete(7));
  assert.ok(error instanceof Refused && error instanceof MetadError && error instanceof Error);
  assert.strictEqual(error.code, "E04");
  assert.strictEqual(error.text, "no such object");
  assert.deepStrictEqual(error.command, { do: "delete", object: 7 });
  assert.strictEqual(error.message, 'delete {"object":7}: E04, no such object');
  assert.strictEqual((await failed(session.command("jump", { far: true }))).code, "E02");
  const probe = await session.new("Probe");
  const refused = await failed(session.setParent(probe, probe));
  assert.deepStrictEqual([refused.code, refused.command], ["E12", { do: "setParent", object: 1, parent: 1 }]);
  assert.deepStrictEqual((await failed(session.get(probe, 2 ** 53))).command, { do: "get", object: 1, property: 2 ** 53 });
  assert.deepStrictEqual(["E77", "constructor", "E23", "F02"].map(meaningOf), [
    ...["unknown", "unknown"],
    ...["the turns are used up", "no session of this name is shared"],
  ]);
});

test("whole numbers of 64 bits go both ways exactly", async (t) => {
  const types = {
    ...{ qlonglong: [-(2n ** 63n), 2n ** 63n - 1n], qulonglong: [0, 2n ** 64n - 1n] },
    ...{ int: [-(2 ** 31), 2 ** 31 - 1], uint: [0, 2 ** 32 - 1] },
  };
  const properties = Object.keys(types).map((type) => ({ name: `p${type}`, type }));
  const slots = Object.keys(types).map((type) => ({ sig: `f(${type})`, body: [] }));
  const session = (await served(t, { classes: { classes: [{ name: "Numbers", super: "QObject", slots, properties }] } })).session("a");
  const calls = [];
  session.on("call", ({ args }) => void calls.push(args[0]));
  const numbers = await session.new("Numbers");
  const exact = [2n ** 53n, 2n ** 53n + 1n, -(2n ** 53n), -(2n ** 53n) - 1n, 9007199254740991, -9007199254740991];
  for (const [type, borders] of Object.entries(types)) {
    for (const value of [...borders, ...(type.length > 4 ? exact : [])]) {
      if (type === "qulonglong" && value < 0) continue;
      assert.strictEqual(await session.set(numbers, `p${type}`, value), true);
      assert.strictEqual(await session.get(numbers, `p${type}`), value);
      await session.invoke(numbers, `f(${type})`, [value]);
      assert.strictEqual(calls.pop(), value);
    }
  }
  await session.set(numbers, "pqlonglong", 5n);
  assert.strictEqual(await numbers.pqlonglong, 5, "one that a number holds exactly comes as a number");
  for (const value of [2 ** 53, 0.5]) assert.ok((await failed(session.set(numbers, "pqlonglong", value))) instanceof NoValue);
});

test("what is wrong with the arguments of a method is said, and nothing is sent", async () => {
  const standIn = new StandIn();
  const session = (await connect(standIn)).session("a");
  for (const [asked, said] of [
    [() => session.get(1), /get needs object, property: it was given no property/],
    [() => session.get(1, "x", "y"), /1 arguments too many/],
    [() => session.find(1, { nmae: "x" }), /find has no key nmae; did you mean `name`\?/],
    [() => session.connect(1, "a()", 2, "b()", { uniqe: true }), /did you mean `unique`/],
    [() => session.disconnect({ signal: "a()" }), /disconnect needs connection or sender/],
    [() => session.disconnect({ sender: 1, recevier: 2 }), /did you mean `receiver`/],
    [() => session.bindings({ object: 1, property: "x" }), /bindings has no key object/],
    [() => session.set(1, "x", new Set()), /set was not sent, because of the value of `value`/],
    [() => session.set(1, "x", "x".repeat(65_536)), /more than 65536 bytes/],
  ]) {
    const error = await failed(asked());
    assert.ok(error instanceof NoValue, error.stack);
    assert.match(error.message, said);
  }
  assert.deepStrictEqual(standIn.sent, []);
});

test("keys that need not be there are given one by one or as an object", async () => {
  const standIn = new StandIn((_, it) => it.come('{"reply":true,"session":"a"}\n'));
  const session = (await connect(standIn)).session("a");
  await session.children();
  await session.children(1);
  await session.children({ object: 1n, timeout: PATIENCE });
  await session.find(1, "n", "C");
  await session.find(1, { class: "C" });
  await session.disconnect(4);
  await session.disconnect({ sender: 1, method: "m()", receiver: 2 });
  await session.invoke(1, "f()");
  await session.invoke(1, "f(int)", [1], { type: "queued", priority: -1 });
  await session.connect(1, "a()", 2, "b()", { unique: undefined, single: true });
  const keys = (line) => {
    const { session: name, ...rest } = JSON.parse(line);
    assert.strictEqual(name, "a");
    return rest;
  };
  assert.deepStrictEqual(standIn.sent.map(keys), [
    { do: "children" },
    { do: "children", object: 1 },
    { do: "children", object: 1 },
    { do: "find", object: 1, name: "n", class: "C" },
    { do: "find", object: 1, class: "C" },
    { do: "disconnect", connection: 4 },
    { do: "disconnect", sender: 1, method: "m()", receiver: 2 },
    { do: "invoke", object: 1, method: "f()", args: [] },
    { do: "invoke", object: 1, method: "f(int)", args: [1], type: "queued", priority: -1 },
    { do: "connect", sender: 1, signal: "a()", receiver: 2, method: "b()", single: true },
  ]);
});

test("a line of exactly as many bytes as metad reads is sent", async (t) => {
  const session = (await served(t)).session("a");
  const frame = '{"object":1,"property":"x","value":"","do":"set","session":"a"}'.length;
  for (const text of ["x".repeat(65_536 - frame), `${"ü".repeat((65_536 - frame - 1) / 2)}x`]) {
    const size = Buffer.byteLength(text) + frame;
    assert.strictEqual((await failed(session.set(1, "x", text))).code, "E04", `${size} bytes are read`);
    assert.match((await failed(session.set(1, "x", `${text}yy`))).message, /more than 65536 bytes/);
  }
});

test("calls come before the reply, to all who listen, until they stop", async (t) => {
  const session = (await served(t)).session("a");
  const [one, other] = [await session.new("Probe"), await session.new("Probe")];
  await one.ping.connect(one.note);
  await one.ping.connect(other.note);
  const heard = [];
  session.on("call", ({ object }) => void heard.push(`all ${object}`));
  const listener = session.on(other, "note()", ({ sender }) => void heard.push(`note of ${sender}`));
  other.onCall((call) => void heard.push(`other ${call.method}`));
  await one.ping();
  assert.deepStrictEqual(heard.splice(0), ["all 1", "all 2", "other note()", "note of 1"]);
  listener.stop();
  listener.stop();
  await one.ping();
  assert.deepStrictEqual(heard.splice(0), ["all 1", "all 2", "other note()"]);
  await session.reset();
  await (await session.new("Probe")).note();
  await (await session.new("Probe")).note();
  assert.deepStrictEqual(heard, ["all 1", "all 2"], "a reset forgets who listens to an object");
});

test("warnings have their code, its meaning, and their object", async (t) => {
  const session = (await served(t)).session("a");
  const warnings = [];
  session.on("warning", (it) => void warnings.push(it));
  const cell = await session.new("Cell");
  await cell.bind("x", { prop: "x" });
  assert.deepStrictEqual(warnings, [
    { code: "BindingLoop", meaning: "the value of the property depends on itself", object: 1, property: "x" },
  ]);
  assert.strictEqual(await cell.x.error(), "BindingLoop");
});

test("what a session gives is heard by that session alone", async (t) => {
  const client = await served(t);
  const heard = [];
  for (const name of ["a", "b"]) client.session(name).on("call", () => void heard.push(name));
  await (await client.session("b").new("Probe")).note();
  assert.deepStrictEqual(heard, ["b"]);
  assert.strictEqual(client.session("a"), client.session("a"));
  assert.strictEqual(client.session("b").knownAs, "b");
  const mine = await client.session("a").new("Probe");
  assert.ok((await failed(client.session("b").delete(mine))) instanceof OtherSession);
});

test("with autoSpin what a command posts is called before it is answered", async (t) => {
  const session = (await served(t)).session("a");
  const probe = await session.new("Probe");
  const heard = [];
  session.on("call", ({ method }) => void heard.push(method));
  session.autoSpin = true;
  await probe.late({ type: "queued" });
  assert.deepStrictEqual(heard, ["late()"]);
  assert.strictEqual((await failed(session.delete(9))).code, "E04");
});

test("an exception of a callback is handed over, and takes nothing from others", async (t) => {
  const client = await served(t);
  const session = client.session("a");
  const [errors, heard] = [[], []];
  client.on("error", (error) => void errors.push(error.message));
  session.on("call", () => {
    throw new Error("at once");
  });
  session.on("call", async () => {
    throw new Error("later");
  });
  session.on("call", () => void heard.push("call"));
  const probe = await session.new("Probe");
  assert.strictEqual(await session.invoke(probe, "note()"), true);
  await session.status();
  assert.deepStrictEqual(heard, ["call"]);
  assert.deepStrictEqual(errors.sort(), ["at once", "later"]);
});

test("all who listen for errors are called, also where one of them fails", () => {
  const script = `
    import { connect } from ${JSON.stringify(path.join(ROOT, "clients", "js", "index.mjs"))};
    process.on("uncaughtException", (error) => console.log("uncaught", error.message));
    const client = await connect({ program: process.argv[1] });
    client.on("error", () => { throw new Error("of a listener"); });
    client.on("error", () => console.log("stopped")).stop();
    client.on("error", (error) => console.log("heard", error.message));
    const session = client.session("a");
    session.on("call", () => { throw new Error("of a callback"); });
    await session.command("new", { class: "Probe" });
    console.log(await session.invoke(1, "note()"), await session.children());
    console.log(await client.close());`;
  const ran = spawnSync(process.execPath, ["--input-type=module", "-e", script, PROGRAM], { timeout: 2 * PATIENCE, encoding: "utf8" });
  const lines = ran.stdout.split("\n").sort();
  assert.deepStrictEqual(lines, ["", "0", "heard of a callback", "true [ 1 ]", "uncaught of a listener"], ran.stderr);
});

test("an exception of a callback that nobody takes ends the process", () => {
  const script = `
    import { connect } from ${JSON.stringify(path.join(ROOT, "clients", "js", "index.mjs"))};
    const client = await connect({ program: process.argv[1] });
    const session = client.session("a");
    session.on("call", () => { throw new Error("of a callback"); });
    await session.command("new", { class: "Probe" });
    await session.invoke(1, "note()");
    await new Promise((resolve) => setTimeout(resolve, ${PATIENCE}));`;
  const ran = spawnSync(process.execPath, ["--input-type=module", "-e", script, PROGRAM], { timeout: 2 * PATIENCE, encoding: "utf8" });
  assert.strictEqual(ran.status, 1, ran.stderr);
  assert.match(ran.stderr, /Error: of a callback/);
});

test("calls are iterated where the session is not live, until none comes in time", async (t) => {
  const session = (await served(t)).session("a");
  const probe = await session.new("Probe");
  const calls = session.calls({ timeout: 1_000 });
  for (let count = 0; count < 3; count += 1) await probe.late({ type: "queued" });
  const heard = [];
  for await (const { method } of calls) heard.push(method);
  assert.deepStrictEqual(heard, ["late()", "late()", "late()"]);
  const more = session.calls({ timeout: PATIENCE });
  await probe.late({ type: "queued" });
  for await (const { method } of more) {
    heard.push(method);
    break;
  }
  assert.strictEqual(heard.length, 4);
});

test("an iteration is asked by several, and ended by one of them", async (t) => {
  const session = (await served(t)).session("a");
  const probe = await session.new("Probe");
  const calls = session.calls();
  const waiting = [calls.next(), calls.next(), calls.next()];
  await probe.late({ type: "queued" });
  await probe.late({ type: "queued" });
  assert.deepStrictEqual([(await waiting[0]).done, (await waiting[1]).done], [false, false]);
  await calls.return();
  assert.strictEqual((await waiting[2]).done, true);
});

test("a timeout of Infinity, or beyond what a timer counts, is no timeout", async (t) => {
  const session = (await served(t, {}, { timeout: Infinity, closeTimeout: Infinity, startTimeout: Infinity })).session("a");
  assert.strictEqual(await session.begin({ timeout: 2 ** 40 }), 1);
});

test("connections and bindings are listed however many there are", async (t) => {
  const session = (await served(t)).session("a");
  const probe = await session.new("Probe");
  const made = [];
  for (let count = 0; count < 1_200; count += 1) made.push(session.connect(probe, "ping()", probe, "note()"));
  await Promise.all(made);
  const numbers = (await session.allConnections(probe)).map((it) => it.connection);
  assert.deepStrictEqual(numbers, Array.from({ length: 1_200 }, (_, at) => at + 1));
  assert.deepStrictEqual(await session.allBindings(), []);
  await probe.bind("objectName", { const: "p" });
  assert.deepStrictEqual(await session.allBindings(), [{ object: 1, property: "objectName" }]);
});

test("commands that are given at once are answered in their order", async (t) => {
  const client = await served(t);
  const names = ["a", "b", "c"];
  const make = (_, at) => client.session(names[at % 3]).command("new", { class: "QObject" });
  const all = await Promise.all(Array.from({ length: 3_000 }, make));
  assert.deepStrictEqual(all, Array.from({ length: 3_000 }, (_, at) => Math.floor(at / 3) + 1));
});
