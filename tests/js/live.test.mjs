/** Clients of a front: live sessions, shared ones, and the ways to reach one. */

import assert from "node:assert/strict";
import net from "node:net";
import path from "node:path";
import { test } from "node:test";

import { ConnectionClosed, NotLive, NotReached, Refused, connect, withRelay } from "../../clients/js/index.mjs";
import { PATIENCE, PROGRAM, StandIn, failed, fronted, joined, listening } from "./support.mjs";

/** Two clients of a front. The second has joined what the first publishes: changes of `x` of its object 1. */
async function pair(t, front) {
  const [one, other] = [await joined(t, front), await joined(t, front)];
  const [host, guest] = [one.session("host"), other.session("guest")];
  const cell = await host.new("Cell");
  const ear = await guest.new("Cell");
  await cell.xChanged.publish("level");
  await ear.seen.join(host.knownAs, "level");
  return { host, guest, cell, ear };
}

test("events come to callbacks, to iterations and to waits as they happen, without a command", async (t) => {
  const front = await fronted(t, { monitor: true });
  const { host, guest, cell, ear } = await pair(t, front);
  const seen = await front.monitor(guest.knownAs);
  const [heard, spun] = [[], []];
  guest.on("call", ({ args }) => void heard.push(args[0]));
  guest.on(ear, "seen(int)", ({ sender }) => void heard.push(`of ${sender}`));
  guest.on("spun", ({ events }) => void spun.push(events));
  const calls = guest.calls({ timeout: PATIENCE });
  setTimeout(() => cell.set("x", 7), 50);
  assert.deepStrictEqual(await guest.waitFor(() => heard.length && heard, { timeout: PATIENCE }), [7, "of 0"]);
  assert.deepStrictEqual((await calls.next()).value, { object: 1, method: "seen(int)", args: [7], sender: 0 });
  await cell.set("x", 8);
  assert.deepStrictEqual((await calls.next()).value.args, [8]);
  assert.deepStrictEqual([guest.isLive, host.isLive], [true, true]);
  await guest.waitFor(() => spun.length === 2, { timeout: PATIENCE });
  assert.deepStrictEqual(spun, [1, 1]);
  await front.close();
  const lines = [];
  for await (const line of seen) lines.push(line);
  const spins = lines.filter((it) => it.reply?.events !== undefined);
  assert.deepStrictEqual(spins.map((it) => it.reply.events), [1, 1], "the guest asked for nothing");
});

test("an iteration ends by its timeout, by a break, and with the connection", async (t) => {
  const { guest, cell } = await pair(t, await fronted(t));
  for await (const call of guest.calls({ timeout: 50 })) assert.fail(call);
  const calls = guest.calls();
  await cell.set("x", 1);
  for await (const { args } of calls) {
    assert.deepStrictEqual(args, [1]);
    break;
  }
  assert.deepStrictEqual(await calls.next(), { done: true, value: undefined });
  const ended = failed(guest.calls().next());
  await guest.client.close();
  assert.ok((await ended) instanceof ConnectionClosed);
  assert.ok((await failed(guest.status())) instanceof ConnectionClosed);
  assert.strictEqual(await guest.client.close(), null);
});

test("without live nothing comes before a spin", async (t) => {
  const front = await fronted(t);
  const [one, other] = [await joined(t, front), await joined(t, front, { live: false })];
  const [host, guest] = [one.session("host"), other.session("guest")];
  const [cell, ear] = [await host.new("Cell"), await guest.new("Cell")];
  await cell.xChanged.publish("level");
  await ear.seen.join(host.knownAs, "level");
  await cell.set("x", 7);
  const heard = [];
  guest.on("call", ({ args }) => void heard.push(args));
  assert.strictEqual((await guest.status()).queued, 1);
  assert.deepStrictEqual([guest.isLive, heard], [false, []]);
  assert.strictEqual((await guest.spin()).events, 1);
  assert.deepStrictEqual(heard, [[7]]);
});

test("several clients share a session, and hear its calls", async (t) => {
  const front = await fronted(t, { options: ["--share", "team"] });
  const [one, other] = [await joined(t, front, { share: "team" }), await joined(t, front, { share: "team" })];
  const [ours, theirs] = [one.session("ours"), other.session("theirs")];
  const heard = [];
  ours.on("call", ({ method }) => void heard.push(method));
  const probe = await ours.new("Probe");
  await (await theirs.object(probe.number)).note();
  await ours.waitFor(() => heard.length, { timeout: PATIENCE });
  assert.deepStrictEqual([heard, ours.knownAs, theirs.knownAs], [["note()"], "team", "team"]);
  const refused = await failed(connect(front.path, { share: "nobody" }));
  assert.ok(refused instanceof Refused);
  assert.deepStrictEqual([refused.code, refused.text], ["F02", "no session of this name is shared"]);
});

test("a front that names no sessions has no live ones", async (t) => {
  const front = await fronted(t, { options: ["--workers", "2", "--group-from", "name"] });
  const client = await joined(t, front);
  assert.strictEqual(client.isLive, false);
  assert.strictEqual((await client.session("desk__a").new("Cell")).number, 1);
  assert.ok((await failed(connect(front.path, { live: true }))) instanceof NotLive);
});

test("a front is reached over tcp", async (t) => {
  const front = await fronted(t);
  const port = await listening(t, (link) => link.pipe(net.connect({ path: front.path, allowHalfOpen: true })).pipe(link));
  const client = await joined(t, `tcp://127.0.0.1:${port}`);
  assert.strictEqual(client.isLive, true);
  assert.strictEqual((await client.session("a").new("Cell")).number, 1);
  assert.strictEqual(await client.close(), null);
  const nobody = await failed(connect("tcp://127.0.0.1:1"));
  assert.ok(nobody instanceof NotReached);
  assert.match(nobody.message, /tcp:\/\/127\.0\.0\.1:1 cannot be reached: nobody listens there/);
  assert.match((await failed(connect(path.join(front.path, "..", "none")))).message, /there is no such socket; is a front running\?/);
});

/** A stand-in for the WebSocket of a browser, which carries what it is given to a front and back, in pieces. */
function webSocketTo(front, isText) {
  return class {
    static opened = [];
    readyState = 0;
    binaryType = "blob";

    constructor(url) {
      this.constructor.opened.push(url);
      this.link = net.connect(front.path);
      this.link.on("connect", () => {
        this.readyState = 1;
        this.onopen({});
      });
      this.link.on("error", () => {});
      this.link.on("close", () => this.onclose?.({ code: 1006, reason: "" }));
      this.link.on("data", (data) => {
        for (let at = 0; at < data.length; at += 7) this.onmessage({ data: this.piece(data.subarray(at, at + 7)) });
      });
    }

    piece(bytes) {
      if (isText) return bytes.toString("latin1");
      assert.strictEqual(this.binaryType, "arraybuffer");
      return new Uint8Array(bytes).buffer;
    }

    send(text) {
      assert.strictEqual(this.readyState, 1);
      this.link.write(text);
    }

    close() {
      this.link.destroy();
    }
  };
}

test("a browser's WebSocket carries a live session, by texts and by bytes", async (t) => {
  const front = await fronted(t, { classes: withRelay({ classes: [] }) });
  const before = globalThis.WebSocket;
  t.after(() => (globalThis.WebSocket = before));
  for (const isText of [true, false]) {
    globalThis.WebSocket = webSocketTo(front, isText);
    const client = await joined(t, "ws://host/metad");
    assert.deepStrictEqual([client.isLive, globalThis.WebSocket.opened], [true, ["ws://host/metad"]]);
    const session = client.session("a");
    const object = await session.new("QObject");
    const names = [];
    await object.objectNameChanged.connect((name) => void names.push(name));
    await object.set("objectName", "abc");
    assert.deepStrictEqual(names, ["abc"]);
    const waiting = [session.status(), session.children()];
    const closed = client.close();
    assert.deepStrictEqual((await Promise.all(waiting))[1], [1], "what was asked for before is answered");
    assert.strictEqual(await closed, null);
  }
  globalThis.WebSocket = undefined;
  assert.match((await failed(connect("wss://host/"))).message, /there is no WebSocket here/);
});

test("a transport of one's own is asked for events where that is wanted", async (t) => {
  const answer = (line, it) => it.come(line.front ? '{"live":true,"reply":true,"session":"c1"}\n' : '{"reply":true,"session":"c1"}\n');
  const plain = new StandIn(answer);
  assert.strictEqual((await connect(plain)).isLive, false);
  assert.deepStrictEqual(plain.sent, []);
  const live = new StandIn(answer);
  const client = await connect(live, { live: true });
  assert.deepStrictEqual([client.isLive, live.sent], [true, ['{"front":"hello","live":true}']]);
  live.come('{"args":[1],"call":"early(int)","object":1,"sender":0,"session":"c1"}\n');
  live.come('{"front":"spin","reply":{"events":1,"left":0,"lost":0,"mismatched":0},"session":"c1"}\n');
  const session = client.session("a");
  const heard = [];
  session.on("call", ({ method }) => void heard.push(method));
  assert.deepStrictEqual(await session.waitFor(() => heard.length && heard, { timeout: PATIENCE }), ["early(int)"], "it waits for a session");
  const [made, older] = [[], (line, it) => it.come('{"error":"F01","session":"-"}\n')];
  const again = await connect(() => made[made.push(new StandIn(older)) - 1]);
  assert.deepStrictEqual([again.isLive, made.map((it) => it.sent.length), made[0].isClosed], [false, [1, 0], true]);
  assert.ok((await failed(connect(new StandIn(older), { live: true }))) instanceof NotLive);
});

test("a refused spin of the front ends a live session", async () => {
  const standIn = new StandIn((line, it) => {
    it.come(line.front ? '{"live":true,"reply":true,"session":"c1"}\n' : '{"error":"E20","session":"c1"}\n');
  });
  const client = await connect(standIn, { live: true });
  const errors = [];
  client.on("error", ({ code }) => void errors.push(code));
  const waiting = failed(client.session("a").calls().next());
  await new Promise(setImmediate);
  standIn.come('{"error":"E21","front":"spin","session":"c1"}\n');
  assert.strictEqual((await waiting).code, "E20");
  assert.deepStrictEqual([client.isLive, errors], [false, ["E21"]]);
});

test("a program is no front, and a front ends with its programs", async (t) => {
  const client = await connect({ program: PROGRAM });
  assert.strictEqual(client.isLive, false);
  assert.strictEqual(await client.close(), 0);
  const front = await fronted(t);
  assert.strictEqual(await front.close(), 0);
  assert.throws(() => front.monitorPath, /give `monitor: true`/);
});
