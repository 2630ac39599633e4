/** JSON with exact whole numbers, compared with JavaScript's reader where that is exact too. */

import assert from "node:assert/strict";
import { test } from "node:test";

import { NoValue, readJson, writeJson } from "../../clients/js/index.mjs";
import { randoms } from "./support.mjs";

const LONG = "1234567890123456"; // makes the exact reader read the text

const TEXTS = ["", "a", '"', "\\", "\\\\\"", "ü€😀", "\u0000\u001f\u007f\u2028", "123456789012345678", "__proto__", "{", "]"];
const NUMBERS = ["0", "-1", "7", "900719925474099", "1.5", "-2.25e3", "1e2", "0.1", "-0.5E-2"];

function randomText(random, levels) {
  const some = () => randomText(random, levels - 1);
  const kind = random(levels ? 6 : 4);
  if (kind === 0) return NUMBERS[random(NUMBERS.length)];
  if (kind === 1) return ["true", "false", "null"][random(3)];
  if (kind < 4) return JSON.stringify(TEXTS[random(TEXTS.length)]);
  const space = [" ", "", "\t", "\r\n"][random(4)];
  const held = Array.from({ length: random(4) }, some);
  if (kind === 4) return `[${space}${held.join(`${space},`)}${space}]`;
  return `{${space}${held.map((it) => `${JSON.stringify(TEXTS[random(TEXTS.length)])}${space}:${it}`).join(`${space},${space}`)}}`;
}

/** What a reader makes of a text, or null where the text is no JSON. */
function readBy(read, text) {
  try {
    return { value: read(text) };
  } catch (error) {
    assert.ok(error instanceof SyntaxError, error);
    return null;
  }
}

test("whole numbers are a number where that is exact, and otherwise a bigint", () => {
  for (const [text, value] of [
    ["0", 0],
    ["9007199254740991", 9007199254740991],
    ["-9007199254740991", -9007199254740991],
    ["9007199254740992", 9007199254740992n],
    ["9007199254740993", 9007199254740993n],
    ["-9007199254740993", -9007199254740993n],
    ["9223372036854775807", 2n ** 63n - 1n],
    ["-9223372036854775808", -(2n ** 63n)],
    ["18446744073709551615", 2n ** 64n - 1n],
    ["1234567890.1234567890123456", 1234567890.1234567],
  ]) {
    assert.strictEqual(readJson(text), value, text);
    assert.deepStrictEqual(readJson(`{"a":[${text}, "${text}"]}`), { a: [value, text] });
    if (!text.includes(".")) assert.strictEqual(writeJson(value), text);
  }
});

test("other texts are read as JavaScript reads them, and refused where it refuses them", () => {
  const random = randoms(7);
  let refused = 0;
  for (let count = 0; count < 5_000; count += 1) {
    let text = `["${LONG}",${randomText(random, 4)}]`;
    if (count % 2) {
      const at = random(text.length);
      text = text.slice(0, at) + ["", ",", '"', "}", "0", "-", "\\", "\n"][random(8)] + text.slice(at + random(3));
    }
    const wanted = readBy(JSON.parse, text);
    refused += wanted === null ? 1 : 0;
    if (!/\d{16}/.test(text.replaceAll(/"(?:[^"\\]|\\.)*"/g, ""))) assert.deepStrictEqual(readBy(readJson, text), wanted, text);
  }
  assert.ok(refused > 500 && refused < 2_500, `${refused} texts were none`);
});

test("a key twice, a key of every object, and deep texts", () => {
  assert.deepStrictEqual(readJson(`{"a":${LONG}0,"a":1}`), { a: 1 });
  const held = readJson(`{"__proto__":${LONG}00}`);
  assert.deepStrictEqual(Object.keys(held), ["__proto__"]);
  assert.strictEqual(Object.getPrototypeOf(held), Object.prototype);
  const deep = (levels) => `${"[".repeat(levels)}${LONG}00${"]".repeat(levels)}`;
  assert.ok(Array.isArray(readJson(deep(900))));
  assert.throws(() => readJson(deep(100_000)), SyntaxError);
});

test("values are written as JavaScript writes them", () => {
  for (const value of [null, true, "ü\n\"\\\u2028", [], {}, { a: [1, { b: "c" }] }, -5, 0, [[[]]]]) {
    assert.strictEqual(writeJson(value), JSON.stringify(value));
  }
  assert.strictEqual(writeJson(-0), "0");
  assert.strictEqual(writeJson(Object.assign(Object.create(null), { a: 1n })), '{"a":1}');
});

test("what is no value of a command is refused with advice", () => {
  const nested = (levels) => (levels ? [nested(levels - 1)] : 1);
  const self = [];
  self.push(self);
  for (const [value, said] of [
    [2 ** 53, /bigint/],
    [-(2 ** 60), /bigint/],
    [1.5, /whole number/],
    [Number.NaN, /whole number/],
    [Number.POSITIVE_INFINITY, /whole number/],
    [2n ** 64n, /too large/],
    [-(2n ** 63n) - 1n, /too small/],
    [undefined, /no value of JSON/],
    [{ a: undefined }, /no value of JSON/],
    [() => 1, /no value of JSON/],
    [Symbol("a"), /no value of JSON/],
    [new Map(), /plain object/],
    [new Date(0), /plain object/],
    ["\ud800", /half a character/],
    [nested(127), /levels/],
    [self, /levels/],
  ]) {
    assert.throws(() => writeJson(value), (error) => error instanceof NoValue && said.test(error.message), String(said));
  }
  assert.strictEqual(writeJson(nested(126)).length, 2 * 126 + 1);
});
