/** Objects with the members of their classes, functions that are called for signals, and expressions. */

import assert from "node:assert/strict";
import { test } from "node:test";
import { inspect } from "node:util";

import { Ambiguous, NoMember, NoRelay, NoValue, NotAnswered, OtherSession, SignalSpy, withRelay } from "../../clients/js/index.mjs";
import { add, and, choose, concat, constant, equal, less, not, or, prop, subtract } from "../../clients/js/index.mjs";
import { PATIENCE, failed, served } from "./support.mjs";

const BUTTON = {
  name: "Button",
  super: "QObject",
  signals: ["textChanged(const QString &)", "moved(int,int)", "moved(int)"],
  slots: [
    { sig: "setText(QString)", body: [{ set: "text", to: { arg: 0 } }] },
    { sig: "then()", body: [] },
    { sig: "place(int)", body: [] },
    { sig: "place(int,int)", body: [] },
  ],
  properties: [
    { name: "text", type: "QString", notify: "textChanged(QString)", bindable: true },
    { name: "width", type: "int", bindable: true },
    { name: "number", type: "int" },
  ],
};
const CLASSES = withRelay({ classes: [BUTTON] });

async function session(t, classes = CLASSES) {
  return (await served(t, { classes })).session("a");
}

test("properties and methods have their names", async (t) => {
  const it = await session(t);
  const button = await it.new("Button");
  await button.setText("x");
  assert.strictEqual(await button.text, "x");
  assert.strictEqual(await button.set("text", "y"), true);
  assert.strictEqual(await button.text.set("z"), true);
  assert.deepStrictEqual(await Promise.all([button.text, button.get("text"), button.property("text")]), ["z", "z", "z"]);
  assert.strictEqual(await button.set("extra", 5), false, "a dynamic property");
  assert.strictEqual(await button.property("extra"), 5);
  assert.strictEqual(button.text.info.type, "QString");
  assert.strictEqual(button.className, "Button");
  assert.ok("text" in button && "setText" in button && !("txt" in button));
  assert.strictEqual(inspect(button), "<Button 1 of a>");
  assert.strictEqual(JSON.stringify({ button }), `{"button":1}`);
  assert.strictEqual(`${button}`, "<Button 1 of a>");
});

test("a name that is misspelt throws, with names that are like it", async (t) => {
  const button = await (await session(t)).new("Button");
  for (const [asked, said] of [
    [() => button.txet, /^Button declares no txet; did you mean `text`\?$/],
    [() => button.settext("x"), /did you mean `setText`\?/],
    [() => button.objectname, /did you mean `objectName`\?/],
    [() => button.elsewhere, /declares no elsewhere; a dynamic property is reached by \.property\("elsewhere"\)/],
    [() => (button.text = "x"), /await object\.set\("text", value\)/],
    [() => (button.txt = "x"), /declares no txt; did you mean `text`\?; for a dynamic property/],
    [() => (button.setText = "x"), /setText of <Button 1 of a> cannot be written/],
    [() => button.method("placed(int)"), /no method placed\(int\); did you mean `place`\?/],
  ]) {
    assert.throws(asked, (error) => error instanceof NoMember && said.test(error.message), String(said));
  }
  assert.match((await failed(button.bind("widht", { const: 1 }))).message, /declares no property widht; did you mean `width`\?/);
  assert.match((await failed(button.connect("textchanged", () => {}))).message, /did you mean `textChanged`\?/);
  assert.match((await failed(button.setText.connect(() => {}))).message, /is a slot/);
});

test("a method of several signatures is that which takes so many arguments", async (t) => {
  const it = await session(t);
  const button = await it.new("Button");
  const heard = [];
  it.on("call", ({ method, args }) => void heard.push([method, args]));
  await button.place(1);
  await button.place(1, 2);
  await button.method("place(int)")(3);
  await button.place.emit(4, { type: "queued", priority: 1 });
  await it.spin();
  assert.deepStrictEqual(heard, [
    ["place(int)", [1]],
    ["place(int,int)", [1, 2]],
    ["place(int)", [3]],
    ["place(int)", [4]],
  ]);
  const alone = [];
  button.onCall("setText", ({ args }) => void alone.push(...args));
  await button.setText("x");
  assert.deepStrictEqual(alone, ["x"]);
  assert.throws(() => button.onCall("setTxt(QString)", () => {}), /did you mean `setText`\?/);
  assert.throws(() => button.onCall("place", () => {}), Ambiguous);
  assert.ok((await failed(button.place())) instanceof Ambiguous);
  assert.throws(() => button.place.signature(), /2 of place\(int\), place\(int,int\) of Button is meant; name one by its signature/);
});

test("members that have names of an object's own are reached by property and method", async (t) => {
  const button = await (await session(t)).new("Button");
  assert.strictEqual(button.number, 1);
  await button.property("number").set(7);
  assert.strictEqual(await button.property("number"), 7);
  assert.strictEqual(button.then, undefined, "or an object could not be awaited");
  await button.method("then")();
});

test("an object that is there is used by its number, and has its members when it is awaited", async (t) => {
  const it = await session(t);
  await it.command("new", { class: "Button" });
  const reference = it.object(1);
  assert.strictEqual(await reference.set("text", "x"), true);
  assert.strictEqual(await reference.invoke("setText(QString)", ["y"]), true);
  const button = await reference;
  assert.strictEqual(await button.text, "y");
  assert.strictEqual((await reference.info()).class, "Button");
  assert.throws(() => reference.method("setText"), /is not known/);
  assert.strictEqual((await failed(it.object(9).object())).code, "E04");
  assert.strictEqual(it.object(1n).number, 1);
  for (const wrong of ["1", null, {}]) assert.throws(() => it.object(wrong), NoValue);
  const child = await it.new("Button", button);
  assert.strictEqual(String(await child.parent()), String(button));
  assert.deepStrictEqual((await button.children()).map(String), [String(child)]);
  assert.strictEqual(await button.parent(), null);
  assert.strictEqual((await child.properties()).find(({ name }) => name === "width").type, "int");
  await child.delete();
  assert.deepStrictEqual(await it.children(button), []);
});

test("a signal is connected to a method, to an object by number, and to a function", async (t) => {
  const it = await session(t);
  const [button, label] = [await it.new("Button"), await it.new("Button")];
  const connected = await button.textChanged.connect(label.setText);
  await button.set("text", "one");
  assert.strictEqual(await label.text, "one");
  assert.strictEqual(await connected.disconnect(), true);
  assert.strictEqual(await connected.disconnect(), false);
  await it.object(1).connect("textChanged(QString)", label, "setText(QString)", { single: true });
  const heard = [];
  const listening = await button.connect("textChanged", (text) => void heard.push(text));
  await button.set("text", "two");
  assert.deepStrictEqual([await label.text, heard], ["two", ["two"]]);
  assert.strictEqual(await listening.disconnect(), true);
  await button.set("text", "three");
  assert.deepStrictEqual([await label.text, heard], ["two", ["two"]]);
  assert.deepStrictEqual(await it.children(button), [], "the relay has gone");
});

test("a spy keeps the arguments of a signal, and waitFor waits for it", async (t) => {
  const it = await session(t);
  const button = await it.new("Button");
  const spy = await SignalSpy.on(button.method("moved(int,int)"));
  await button.moved(1, 2);
  await button.moved(3, 4, { type: "queued" });
  assert.strictEqual(await spy.wait({ timeout: PATIENCE }), true);
  assert.deepStrictEqual([...spy], [[1, 2], [3, 4]]);
  assert.strictEqual(await spy.wait({ timeout: 1 }), false);
  await spy.stop();
  const waiting = it.waitFor(button.textChanged, { timeout: PATIENCE });
  while (!(await it.connections({ object: button })).length); // until the wait has connected it
  await button.set("text", "now");
  assert.deepStrictEqual(await waiting, ["now"]);
  assert.ok((await failed(it.waitFor(() => false, { timeout: 10 }))) instanceof NotAnswered);
  assert.ok((await failed(it.waitFor(button.textChanged, { timeout: 10 }))) instanceof NotAnswered);
});

test("a function hears what another session publishes", async (t) => {
  const client = await served(t, { classes: CLASSES });
  const [host, guest] = [client.session("host"), client.session("guest")];
  const button = await host.new("Button");
  await button.textChanged.publish("text");
  const heard = [];
  const listening = await guest.listen("host", "text", ["QString"], (text) => void heard.push(text));
  const other = await guest.new("Button");
  await other.setText.join("host", "text");
  await button.set("text", "news");
  await guest.spin();
  assert.deepStrictEqual([heard, await other.text], [["news"], "news"]);
  assert.strictEqual(await listening.disconnect(), true);
  assert.ok((await failed(button.textChanged.connect(other.setText))) instanceof OtherSession);
});

test("without a relay a function needs a slot that is given", async (t) => {
  const it = (await served(t)).session("a");
  const [cell, ear] = [await it.new("Cell"), await it.new("Cell")];
  assert.ok((await failed(cell.xChanged.connect(() => {}))) instanceof NoRelay);
  const heard = [];
  const listening = await cell.xChanged.connect((x) => void heard.push(x), { via: ear.seen });
  await cell.set("x", 4);
  await ear.seen(9); // not sent by the cell
  assert.deepStrictEqual(heard, [4]);
  await listening.disconnect();
  assert.ok((await failed(cell.xChanged.connect(5))) instanceof NoValue);
});

test("expressions are those of the protocol", async (t) => {
  const x = { prop: "x" };
  assert.deepStrictEqual(
    [
      prop("x", 3),
      constant("a"),
      add(x, 1, 2n),
      subtract(x, 1),
      less(x, 3),
      equal(x, "a"),
      choose(true, x, 2),
      concat("a", x),
      not(x),
      and(x, true),
      or(x, false),
    ],
    [
      { prop: "x", of: 3 },
      { const: "a" },
      { "+": [{ "+": [x, { const: 1 }] }, { const: 2n }] },
      { "-": [x, { const: 1 }] },
      { "<": [x, { const: 3 }] },
      { "=": [x, { const: "a" }] },
      { if: [{ const: true }, x, { const: 2 }] },
      { cat: [{ const: "a" }, x] },
      { if: [x, { const: false }, { const: true }] },
      { if: [x, { const: true }, { const: false }] },
      { if: [x, { const: true }, { const: false }] },
    ],
  );
  assert.throws(() => add(x), NoValue);
  assert.throws(() => equal(x, null), NoValue);
  const it = await session(t);
  const [one, other] = [await it.new("Button"), await it.new("Button")];
  await other.width.bind(choose(less(one.width, 10), add(one.width, 1), subtract(prop("width", one), 1)));
  for (const [width, wanted] of [[3, 4], [10, 9]]) {
    await one.width.set(width);
    assert.strictEqual(await other.width, wanted);
  }
  assert.deepStrictEqual((await other.width.binding()).if[1], { "+": [{ of: 1, prop: "width" }, { const: 1 }] });
  assert.strictEqual(await other.width.unbind(), true);
});
