/** The examples of docs/PROTOCOL.md, given by the methods of sessions; and the methods compared with the tables of that page. */

import assert from "node:assert/strict";
import { readFileSync } from "node:fs";
import path from "node:path";
import { test } from "node:test";

import { COMMANDS, Refused, Session, connect, writeJson } from "../../clients/js/index.mjs";
import { PATIENCE, PROGRAM, ROOT } from "./support.mjs";

const PROTOCOL = readFileSync(path.join(ROOT, "docs", "PROTOCOL.md"), "utf8");
const EXAMPLE = /(?:^```classes\n((?:(?!```).*\n)*)```\n+)?^```session\n((?:(?!```).*\n)*)```$/gm;

/** The commands of an example that name a session, each with the lines that it is answered by. */
function commandsIn(lines) {
  const found = [];
  for (const line of lines.trimEnd().split("\n")) {
    if (line.startsWith("> ")) found.push({ given: line.slice(2), lines: [] });
    else found[found.length - 1].lines.push(line);
  }
  return found.filter(({ lines: [last] }) => !last.endsWith('"session":"-"}'));
}

/** Gives a command by its method where it has the keys of the table, and by its word otherwise. */
function give(session, word, keys) {
  const names = Object.keys(keys);
  const takes = (it) => names.every((key) => [...it.keys, ...it.optional].includes(key));
  const form = COMMANDS[word]?.find((it) => it.keys.every((key) => key in keys) && takes(it));
  if (!form || word === "object") return session.command(word, keys);
  if (COMMANDS[word].length > 1) return session[word](keys);
  const rest = Object.fromEntries(names.filter((key) => form.optional.includes(key)).map((key) => [key, keys[key]]));
  return session[word](...form.keys.map((key) => keys[key]), rest);
}

/** The lines that a session was answered by, as the page has them. */
async function answered(session, given, heard) {
  const { session: name, do: word, ...keys } = JSON.parse(given, exactly(given));
  let last;
  try {
    const reply = await give(session, word, keys);
    last = `{"reply":${writeJson(reply)},"session":"${name}"}`;
  } catch (error) {
    if (!(error instanceof Refused)) throw error;
    last = `{"error":"${error.code}","session":"${name}"}`;
  }
  return [...heard.splice(0), last];
}

/** Takes the one number of the page that JavaScript's reader cannot read. */
function exactly(given) {
  const long = /"value":(\d{16,})/.exec(given);
  return (key, value) => (long && key === "value" ? BigInt(long[1]) : value);
}

function lineOfCall({ object, method, args, sender }, name) {
  return `{"args":${writeJson(args)},"call":"${method}","object":${object},"sender":${sender},"session":"${name}"}`;
}

function lineOfWarning({ code, object, property }, name) {
  const of = object === null ? "" : `"object":${object},`;
  return `{${of}${property === null ? "" : `"property":"${property}",`}"session":"${name}","warning":"${code}"}`;
}

test("each example of the protocol is answered as the page says", { timeout: 5 * PATIENCE }, async () => {
  let count = 0;
  for (const [, classes, lines] of PROTOCOL.matchAll(EXAMPLE)) {
    const client = await connect({ program: PROGRAM, classes: classes && JSON.parse(classes) }, { timeout: PATIENCE });
    const sessions = new Map();
    for (const { given, lines: wanted } of commandsIn(lines)) {
      const { session: name } = JSON.parse(given);
      if (!sessions.has(name)) {
        const heard = [];
        const session = client.session(name);
        session.on("call", (call) => void heard.push(lineOfCall(call, name)));
        session.on("warning", (warning) => void heard.push(lineOfWarning(warning, name)));
        sessions.set(name, { session, heard });
      }
      const { session, heard } = sessions.get(name);
      assert.deepStrictEqual(await answered(session, given, heard), wanted, given);
      count += 1;
    }
    assert.strictEqual(await client.close(), 0);
  }
  assert.ok(count > 200, `${count} commands`);
});

test("each command of the table is a method, and is declared", () => {
  const declared = readFileSync(path.join(ROOT, "clients", "js", "session_commands.d.mts"), "utf8");
  const [, own] = declared.split("export interface SessionCommands {");
  for (const word of Object.keys(COMMANDS)) {
    assert.strictEqual(typeof Session.prototype[word], "function", word);
    assert.match(own, new RegExp(`^  "?${word}"?[(<]`, "m"), `${word} is not declared`);
  }
});

test("all that the client exports is declared", async () => {
  const declared = readFileSync(path.join(ROOT, "clients", "js", "index.d.mts"), "utf8");
  const names = [...declared.matchAll(/^export declare (?:class|const|function) (\w+)/gm)].map(([, name]) => name);
  assert.deepStrictEqual(names.sort(), Object.keys(await import("../../clients/js/index.mjs")).sort());
});
