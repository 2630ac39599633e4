/** Clients of a front over TLS and over TCP. */

import assert from "node:assert/strict";
import { execFileSync, spawn, spawnSync } from "node:child_process";
import { mkdtempSync, readFileSync, rmSync } from "node:fs";
import { tmpdir } from "node:os";
import path from "node:path";
import { test } from "node:test";

import { ConnectionClosed, NoValue, NotReached, connect } from "../../clients/js/index.mjs";
import { FRONT, PATIENCE, PROGRAM, failed, listening } from "./support.mjs";

const HAS_OPENSSL = spawnSync("openssl", ["version"]).status === 0;
const ANY_PORT = "127.0.0.1:0";
const NAMES = "subjectAltName=DNS:localhost,IP:127.0.0.1";

/** Makes a CA and certificates signed by it, in a folder that is removed with the test; returns what reads one. */
function certificates(t, ...names) {
  const room = mkdtempSync(path.join(tmpdir(), "metad-certificates-"));
  t.after(() => rmSync(room, { recursive: true }));
  const make = (name, ...more) => {
    const key = ["-newkey", "ec", "-pkeyopt", "ec_paramgen_curve:P-256", "-nodes", "-keyout", `${name}.key`];
    execFileSync("openssl", ["req", "-x509", ...key, "-out", `${name}.pem`, "-subj", `/CN=${name}`, ...more], { cwd: room, stdio: "pipe" });
  };
  make("ca");
  const signed = ["-CA", "ca.pem", "-CAkey", "ca.key", "-addext", "basicConstraints=critical,CA:FALSE", "-addext", NAMES];
  for (const name of names) make(name, ...signed);
  return (name) => path.join(room, name);
}

/** A front that listens over the network, ended with the test: its ports by their words, and what it says. */
async function listeningFront(t, ...options) {
  const room = mkdtempSync(path.join(tmpdir(), "metad-front-"));
  const child = spawn(FRONT, [...options, path.join(room, "socket"), PROGRAM], { stdio: ["ignore", "ignore", "pipe"] });
  const ended = new Promise((resolve) => child.once("exit", resolve));
  t.after(async () => {
    child.kill();
    await ended;
    rmSync(room, { recursive: true });
  });
  const front = { said: "" };
  await new Promise((resolve, reject) => {
    child.stderr.on("data", (data) => {
      front.said += data;
      if (front.said.includes("listening at")) resolve();
    });
    child.once("exit", () => reject(new Error(front.said)));
  });
  for (const [, word, port] of front.said.matchAll(/: (T\w+) at \S+:(\d+)\n/g)) front[word] = port;
  return front;
}

test("a front is reached over TLS, by clients with a certificate", { skip: !HAS_OPENSSL && "there is no openssl" }, async (t) => {
  const place = certificates(t, "server", "anna");
  const read = (name) => readFileSync(place(name));
  const words = ["--tls", ANY_PORT, "--tls-cert", place("server.pem"), "--tls-key", place("server.key"), "--tls-clients", place("ca.pem")];
  const front = await listeningFront(t, ...words);
  const tls = { ca: read("ca.pem"), cert: read("anna.pem"), key: read("anna.key") };
  for (const host of ["localhost", "127.0.0.1"]) {
    const client = await connect(`tls://${host}:${front.TLS}`, { timeout: PATIENCE, tls });
    t.after(() => client.close());
    assert.strictEqual(client.isLive, true);
    const session = client.session("a");
    const many = Array.from({ length: 500 }, () => session.new("Cell"));
    assert.strictEqual((await many.at(-1)).number, 500);
    assert.strictEqual(await client.close(), null);
  }
  assert.match(front.said, /c1 has come over TLS from 127\.0\.0\.1:\d+ as CN=anna\n/);
  const stranger = await failed(connect(`tls://localhost:${front.TLS}`, { tls: { ...tls, ca: read("anna.pem") } }));
  assert.ok(stranger instanceof NotReached);
  assert.match(stranger.message, /certificate/);
  const nobody = await failed(connect(`tls://localhost:${front.TLS}`, { tls: { ca: tls.ca } }));
  assert.ok(nobody instanceof ConnectionClosed || nobody instanceof NotReached, String(nobody));
  assert.match(nobody.message, /certificate required/);
});

test("what comes before the end of a client is answered over TLS and TCP", { skip: !HAS_OPENSSL && "there is no openssl" }, async (t) => {
  const place = certificates(t, "server");
  const words = ["--tls", ANY_PORT, "--tls-cert", place("server.pem"), "--tls-key", place("server.key"), "--tcp", ANY_PORT];
  const front = await listeningFront(t, ...words);
  const tls = { ca: readFileSync(place("ca.pem")) };
  for (const [target, options] of [[`tls://localhost:${front.TLS}`, { tls }], [`tcp://127.0.0.1:${front.TCP}`, {}]]) {
    const client = await connect(target, { timeout: PATIENCE, ...options });
    const answers = Array.from({ length: 300 }, () => client.session("a").new("Cell"));
    const closed = client.close();
    assert.deepStrictEqual((await Promise.all(answers)).map((it) => it.number), Array.from({ length: 300 }, (_, at) => at + 1));
    assert.strictEqual(await closed, null);
  }
});

test("what is no TLS, or cannot be, is said", async (t) => {
  const port = await listening(t, (link) => link.end("this is no TLS\n"));
  const fault = await failed(connect(`tls://127.0.0.1:${port}`, { startTimeout: PATIENCE }));
  assert.ok(fault instanceof NotReached, String(fault));
  const unreadable = await failed(connect(`tls://127.0.0.1:${port}`, { tls: { cert: "nonsense", key: "nonsense" } }));
  assert.ok(unreadable instanceof NotReached, String(unreadable));
  assert.ok((await failed(connect("tcp://127.0.0.1:1", { tls: {} }))) instanceof NoValue);
  assert.match((await failed(connect("tls://127.0.0.1:1"))).message, /nobody listens there/);
});
