/**
 * Expressions for `bind`, built of small functions. A value is taken as a constant, and a property of an object as its
 * value: `add(label.width, 2)` is `{"+":[{"prop":"width","of":1},{"const":2}]}`.
 * @module
 */

import { NoValue, shown } from "./errors.mjs";
import { isPlain } from "./json.mjs";
import { Property } from "./objects.mjs";

/**
 * A property: of the object whose property is bound, or of another one.
 * @param {string} name
 * @param {any} [of]
 */
export function prop(name, of) {
  return of === undefined ? { prop: name } : { prop: name, of };
}

/** A constant: a truth, a whole number or a text. */
export function constant(value) {
  return { const: value };
}

/** The sum of two or more numbers. */
export function add(...terms) {
  return chain("+", terms);
}

/** A number less another one. */
export function subtract(one, other) {
  return { "-": [operand(one), operand(other)] };
}

/** Whether a number is less than another one. */
export function less(one, other) {
  return { "<": [operand(one), operand(other)] };
}

/** Whether two numbers, two truths or two texts are equal. */
export function equal(one, other) {
  return { "=": [operand(one), operand(other)] };
}

/** One of two values: the first where the condition is true, the second where it is false. */
export function choose(condition, first, second) {
  return { if: [operand(condition), operand(first), operand(second)] };
}

/** Two or more texts, joined in their order. */
export function concat(...texts) {
  return chain("cat", texts);
}

/** Whether a condition is false. */
export function not(condition) {
  return choose(condition, false, true);
}

/** Whether all of some conditions are true; what follows the first that is false is not looked at. */
export function and(...conditions) {
  return folded(conditions, (one, rest) => choose(one, rest, false));
}

/** Whether one of some conditions is true; what follows the first that is true is not looked at. */
export function or(...conditions) {
  return folded(conditions, (one, rest) => choose(one, true, rest));
}

function chain(word, [first, ...rest]) {
  if (!rest.length) throw new NoValue(`${word} needs two operands or more`);
  return rest.reduce((sum, it) => ({ [word]: [sum, operand(it)] }), operand(first));
}

function folded(conditions, join) {
  if (!conditions.length) throw new NoValue("there is no condition");
  return conditions.map(operand).reduceRight((rest, one) => join(one, rest));
}

/** An expression as it is, a property as what reads it, and a value as a constant. */
function operand(value) {
  if (value instanceof Property) return prop(value.name, value.owner.number);
  if (isPlain(value)) return value;
  if (["boolean", "number", "bigint", "string"].includes(typeof value)) return constant(value);
  throw new NoValue(`${shown(value)} is no expression, no property and no constant`);
}
