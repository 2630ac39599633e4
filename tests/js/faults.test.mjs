/** Servers that end, refuse, are slow, or are no servers at all. */

import assert from "node:assert/strict";
import { readFileSync, readdirSync } from "node:fs";
import { mkdtemp, rm, writeFile } from "node:fs/promises";
import { tmpdir } from "node:os";
import path from "node:path";
import { test } from "node:test";

import {
  ClassFileRefused, ConnectionClosed, MetadError, NoValue, NotAnswered, NotStarted, ServerGone, SessionLost, StrangeLine, connect,
} from "../../clients/js/index.mjs";
import { PATIENCE, PROGRAM, ROOT, StandIn, failed, fronted, joined, listening, randoms } from "./support.mjs";

/** Starts a script of the shell in the place of a server. */
function script(text, options = {}) {
  return connect({ program: "sh", args: ["-c", text] }, { startTimeout: PATIENCE, ...options });
}

const GREETED = `read line; echo '{"error":"E02","session":"-"}'; `;

test("a program that does not start says why", async () => {
  for (const [text, Kind, said] of [
    ["exit 3", NotStarted, /status 3$/],
    ["echo of no use >&2; exit 2", NotStarted, /status 2: of no use$/],
    ["echo metad: class file refused: C04 at class 1 >&2; exit 1", ClassFileRefused, /class file refused: C04 at class 1$/],
    ["kill -KILL $$", NotStarted, /was ended by SIGKILL$/],
    ["echo hello", StrangeLine, /no line of the protocol: "hello"$/],
    ["cat", StrangeLine, /no line of the protocol: "\{\}"$/],
  ]) {
    const error = await failed(script(text));
    assert.ok(error instanceof Kind, error.stack);
    assert.match(error.message, said);
  }
  assert.match((await failed(connect({ program: "/nowhere/metad" }))).message, /\/nowhere\/metad cannot be started: .*ENOENT/);
  assert.ok((await failed(script("sleep 100", { startTimeout: 50 }))) instanceof NotAnswered);
});

test("what is nothing to connect with is refused", async () => {
  for (const target of [5, null, {}, { send() {} }, "http://host/"]) {
    assert.ok((await failed(connect(target))) instanceof NoValue, String(target));
  }
});

test("a server that ends fails all that is under way, and all that comes later, with its status", async () => {
  const client = await script(`${GREETED} read line; echo '{"reply":1,"session":"a"}'; echo tired >&2; exit 7`);
  const session = client.session("a");
  const [first, ...rest] = await Promise.allSettled([session.begin(), session.begin(), session.begin()]);
  assert.strictEqual(first.value, 1);
  for (const { reason } of rest) {
    assert.ok(reason instanceof ServerGone && !(reason instanceof ConnectionClosed), reason);
    assert.deepStrictEqual([reason.status, reason.signal, reason.stderr, reason.command], [7, null, "tired\n", { do: "begin" }]);
    assert.match(reason.message, /^the server has ended with status 7: tired$/);
  }
  assert.strictEqual((await failed(session.begin())).status, 7);
  await client.ended;
  assert.strictEqual(await client.close(), 7);
});

test("a server that closes its output or its input is ended, and so is what it has started", async () => {
  for (const [text, status, signal] of [
    ["exec >&- 2>&-; exec sleep 1000", null, "SIGKILL"],
    ["exec <&-; while :; do sleep 1; done", null, "SIGKILL"],
    ["sleep 1000 & exit 3", 3, null],
  ]) {
    const client = await script(`${GREETED} read line; ${text}`);
    const session = client.session("a");
    let ended = null;
    const waiting = [failed(session.begin()).then((error) => void (ended = error))];
    do { // a closed input is found by a write, and the server may take its time to close it
      await new Promise((resolve) => setTimeout(resolve, 200));
      waiting.push(failed(session.begin()));
    } while (ended === null);
    await Promise.all(waiting);
    assert.deepStrictEqual([ended.status, ended.signal], [status, signal], text);
  }
});

test("a class that is described in another way is no protocol", async () => {
  const session = (await connect(new StandIn((_, it) => it.come('{"reply":true,"session":"a"}\n')))).session("a");
  assert.ok((await failed(session.new("Cell"))) instanceof StrangeLine);
});

const STRANGE = [
  ...['{"reply":1,"session":"a"}', '{"error":"E04","session":"a"}', '{"error":{},"session":"a"}', '{"session":"a"}', ""],
  '{"args":[1],"call":"f(int)","object":1,"sender":0,"session":"a"}',
  '{"call":5,"args":[],"object":null,"sender":{},"session":"a"}',
  ...['{"object":1,"session":"a","warning":"E13"}', '{"warning":{"a":1},"session":"a"}'],
  '{"front":"spin","reply":{"events":1,"left":0,"lost":0,"mismatched":0},"session":"a"}',
  ...['{"front":"spin","reply":null,"session":"a"}', '{"error":"E21","front":"spin","session":"a"}', '{"error":"F04","session":"-"}'],
  '{"reply":{"class":"C","properties":[{}],"signals":[null],"slots":[{}]},"session":"a"}',
];

/** The lines that a server of no protocol writes for one line; some are cut or changed. */
function strangeLines(random) {
  const lines = Array.from({ length: random(3) }, () => STRANGE[random(STRANGE.length)]);
  const text = `${lines.join("\n")}\n${random(4) ? '{"reply":1,"session":"a"}\n' : ""}`;
  const at = random(text.length);
  return random(5) ? text : text.slice(0, at) + ["", "x", "\n", "{", '"'][random(5)] + text.slice(at + random(2));
}

test("whatever a server writes, each promise is settled, and fails by an error of metad", { timeout: 5 * PATIENCE }, async () => {
  const random = randoms(3);
  const kinds = new Set();
  for (let round = 0; round < 200; round += 1) {
    const greeting = '{"live":true,"reply":true,"session":"a"}\n';
    const standIn = new StandIn((line, it) => it.come(Buffer.from(line.front ? greeting : strangeLines(random))));
    const client = await connect(standIn, { live: round % 2 === 0 });
    client.on("error", (error) => void kinds.add(error.name));
    const it = client.session("a");
    it.on("call", ({ args }) => args.length);
    it.on("spun", ({ events }) => events);
    const commands = [it.begin(), it.new("C"), it.get(1, "x"), it.object(1).object(), it.allBindings()];
    const waiting = [it.calls({ timeout: 5 }).next(), it.waitFor(() => false, { timeout: 5 })];
    setTimeout(() => standIn.close(), 10);
    for (const { reason } of await Promise.allSettled([...commands, ...waiting])) {
      assert.ok(reason === undefined || reason instanceof MetadError, reason?.stack);
      if (reason) kinds.add(reason.name);
    }
  }
  for (const name of ["Refused", "SessionLost", "StrangeLine"]) assert.ok(kinds.has(name), name);
});

test("a server that is killed says by which signal", async () => {
  const client = await script(`${GREETED} read line; kill -TERM $$`);
  assert.strictEqual((await failed(client.session("a").begin())).signal, "SIGTERM");
});

test("a slow answer fails by its timeout, and later ones are still paired", async () => {
  const answers = [];
  const standIn = new StandIn(() => answers.push(`{"reply":${answers.length},"session":"a"}\n`));
  const client = await connect(standIn, { timeout: 20 });
  const session = client.session("a");
  const error = await failed(session.begin());
  assert.ok(error instanceof NotAnswered);
  assert.match(error.message, /no answer to begin in 20 ms/);
  assert.deepStrictEqual(error.command, { do: "begin" });
  const second = session.end({ timeout: null });
  setTimeout(() => standIn.come(...answers), 20);
  assert.strictEqual(await second, 1, "the late answer is not taken for that of the second command");
  session.timeout = null;
  const third = session.status({ timeout: 10 });
  assert.ok((await failed(third)) instanceof NotAnswered);
});

test("bytes that are no protocol end the connection, and are shown", async () => {
  for (const [bytes, said] of [
    ["SSH-2.0-OpenSSH\r\n", /SSH-2\.0/],
    ["[1]\n", /\[1\]/],
    ['{"reply":1}\n', /reply/],
    ['{"reply":1,"session":5}\n', /session/],
    ['{"do":"begin","session":"a"}\n', /begin/],
    ['{"call":"f()","session":"a"}\n', /call/],
    ["null\n", /null/],
    [new Uint8Array([0x7b, 0xff, 0xfe, 0x7d, 10]), /no line of the protocol/],
    ['{"reply":1,"session":"a"}\n{"reply":2,"session":"a"}\n', /"reply\\":2/],
  ]) {
    const standIn = new StandIn((_, it) => it.come(bytes));
    const session = (await connect(standIn)).session("a");
    await session.begin().catch(() => {}); // the last case has an answer first
    const error = await failed(session.begin());
    assert.ok(error instanceof StrangeLine, error.stack);
    assert.match(error.message, said);
    assert.ok(standIn.isClosed);
  }
});

test("a line may come in any pieces, and a line without its end does not count", async () => {
  const whole = Buffer.from('{"reply":"ü😀\\n","session":"a"}\n');
  const standIn = new StandIn((_, it) => it.come(...Array.from(whole, (byte) => new Uint8Array([byte]))));
  const session = (await connect(standIn)).session("a");
  assert.strictEqual(await session.begin(), "ü😀\n");
  const cut = new StandIn((_, it) => {
    it.come('{"reply":1,"sess');
    it.close();
  });
  assert.ok((await failed((await connect(cut)).session("a").begin())) instanceof ConnectionClosed);
});

test("a connection that is closed by the other side fails what is under way", async (t) => {
  let count = 0;
  const greeting = '{"live":true,"reply":true,"session":"c1"}\n';
  const port = await listening(t, (link) => link.on("data", () => (count++ ? link.destroy() : link.write(greeting))));
  const client = await connect(`tcp://127.0.0.1:${port}`);
  const session = client.session("a");
  const waiting = [session.begin(), session.waitFor(() => false, { timeout: null }), session.calls().next()];
  for (const { reason } of await Promise.allSettled(waiting)) assert.ok(reason instanceof ConnectionClosed, reason);
  assert.strictEqual(await client.close(), null);
});

test("a transport that does not send fails the command", async () => {
  const standIn = new StandIn();
  standIn.send = () => {
    throw new Error("not open");
  };
  assert.match((await failed((await connect(standIn)).session("a").begin())).message, /the transport does not send: not open/);
});

test("a front that ends fails its clients, and says where a session was lost", async (t) => {
  const front = await fronted(t);
  const client = await joined(t, front);
  const session = client.session("a");
  await session.begin();
  await front.close();
  await client.ended;
  assert.ok((await failed(session.begin())) instanceof ConnectionClosed);
  const standIn = new StandIn((_, it) => it.come('{"error":"F04","session":"c1"}\n'));
  assert.ok((await failed((await connect(standIn)).session("a").begin())) instanceof SessionLost);
});

test("close lets all be answered that was given, and ends a server that does not end", async () => {
  const client = await connect({ program: PROGRAM });
  const session = client.session("a");
  const all = Array.from({ length: 100 }, () => session.begin());
  const closed = client.close();
  assert.ok((await failed(session.begin())) instanceof ConnectionClosed);
  assert.deepStrictEqual(await Promise.all(all), Array.from({ length: 100 }, (_, at) => at + 1));
  assert.strictEqual(await closed, 0);
  const stuck = await script(`${GREETED} exec sleep 1000`, { closeTimeout: 50 });
  const waiting = failed(stuck.session("a").begin());
  assert.strictEqual(await stuck.close(), null);
  assert.strictEqual((await waiting).signal, "SIGKILL");
});

test("what was written for a server is taken away", async (t) => {
  const room = await mkdtemp(path.join(tmpdir(), "metad-js-"));
  t.after(() => rm(room, { recursive: true }));
  const before = process.env.TMPDIR;
  process.env.TMPDIR = room;
  t.after(() => (before === undefined ? delete process.env.TMPDIR : (process.env.TMPDIR = before)));
  const client = await connect({ program: PROGRAM, classes: { classes: [] } });
  await client.close();
  await failed(connect({ program: "false", classes: { classes: [] } }));
  await failed(connect({ program: "/nowhere/metad", classes: { classes: [] } }));
  const front = await fronted(t, { classes: { classes: [] }, monitor: true });
  await front.close();
  assert.deepStrictEqual(readdirSync(room), []);
  await writeFile(path.join(room, "kept"), "");
});

test("what a browser loads imports nothing of Node", () => {
  const folder = path.join(ROOT, "clients", "js");
  const [waiting, found] = [["index.mjs"], new Set()];
  while (waiting.length) {
    const name = waiting.pop();
    if (found.has(name)) continue;
    found.add(name);
    const imports = readFileSync(path.join(folder, name), "utf8").matchAll(/^(?:import|export)\s[^;]*?from "([^"]+)";/gm);
    for (const [, from] of imports) {
      assert.match(from, /^\.\/\w+\.mjs$/, `${name} imports ${from}`);
      waiting.push(from.slice(2));
    }
  }
  assert.ok(found.has("session.mjs") && !found.has("node_transports.mjs") && !found.has("fronts.mjs"), [...found].join(" "));
});
