/**
 * Objects of a session: by their numbers, and with the members of their classes.
 * @module
 */

import { NoMember, NoValue, OtherSession, StrangeLine, shown } from "./errors.mjs";
import { NUMBER, isPlain } from "./json.mjs";
import { Connected, heardBy } from "./relays.mjs";
import { meant, nameOf, only, typesOf } from "./shapes.mjs";

/** An object of a session. `described` adds the members of its class. */
export class RemoteObject {
  /**
   * @param {object} session
   * @param {number | object} number
   * @param {import("./shapes.mjs").Shape | null} shape
   */
  constructor(session, number, shape = null) {
    const isNumber = ["number", "bigint"].includes(typeof (number?.[NUMBER] ?? number));
    if (!isNumber) throw new NoValue(`${shown(number)} is no number of an object`);
    /** The session that it is of. */
    this.session = session;
    /** Its number. */
    this.number = Number(number?.[NUMBER] ?? number);
    /** The members of its class; null where they are not known. */
    this.shape = shape;
  }

  get [NUMBER]() {
    return this.number;
  }

  /** The name of its class; null where it is not known. */
  get className() {
    return this.shape?.name ?? null;
  }

  /** Reads a property, declared or dynamic. */
  get(name, options) {
    return this.session.get(this.number, name, options);
  }

  /** Writes a property; the promise has whether the class declares it. Null takes a dynamic one away. */
  set(name, value, options) {
    return this.session.set(this.number, name, value, options);
  }

  /** Calls a slot or sends a signal, by its signature. */
  invoke(method, args = [], options = {}) {
    return this.session.invoke(this.number, this.#signature(method), args, options);
  }

  /**
   * Connects a signal to a method of an object, or has a function called with its arguments.
   * @param {string} signal
   * @param {any} to a method; a function; or an object or a number, which the method follows
   * @param {...any} rest
   */
  async connect(signal, to, ...rest) {
    if (!this.shape) {
      if (isMethod(to)) return this.connect(signal, to.owner, to.signature(), ...rest);
      if (typeof to === "function") return (await this.object()).connect(signal, to, ...rest);
      return new Connected(this.session, await this.session.connect(this.number, signal, to, ...rest));
    }
    const from = this.method(signal);
    if (isMethod(to) || typeof to === "function") return from.connect(to, ...rest);
    return new Connected(this.session, await this.session.connect(this.number, from.signature(), to, ...rest));
  }

  /** Binds a property to an expression, see `expressions.mjs`. */
  async bind(property, to, options) {
    this.shape?.checkProperty(property);
    return this.session.bind(this.number, property, to, options);
  }

  /** Leaves a bound property the value that it has; the promise has whether it was bound. */
  async unbind(property, options) {
    this.shape?.checkProperty(property);
    return this.session.unbind(this.number, property, options);
  }

  /** A property, declared or dynamic, by its name. */
  property(name) {
    return new Property(this, name);
  }

  /** A signal or a slot, by its name, or by its signature where several have the name. */
  method(which) {
    if (!this.shape) throw new NoMember(`the class of ${this} is not known: await the object first`);
    return makeMethod(this, nameOf(which), this.shape.fitting(which));
  }

  /** Deletes it and all below it. */
  delete(options) {
    return this.session.delete(this.number, options);
  }

  /** What the command `object` replies of it: its class, its place in the tree, and how much there is of it. */
  info(options) {
    return this.session.command("object", { object: this.number }, options);
  }

  /** The same object with the members of its class. */
  async object() {
    if (this.shape) return described(this.session, this.number, this.shape);
    const info = await this.info();
    if (typeof info?.class !== "string") throw new StrangeLine(shown(info));
    return described(this.session, this.number, await this.session.shape(info.class));
  }

  /** Its parent, or null for a root. */
  async parent() {
    const number = await this.session.parent(this.number);
    return number === null ? null : this.session.object(number).object();
  }

  /** Its children, the newest last. */
  async children() {
    const numbers = await this.session.children(this.number);
    return Promise.all(numbers.map((it) => this.session.object(it).object()));
  }

  /** Its properties, declared and dynamic, with their types and values. */
  properties(options) {
    return this.session.properties(this.number, options);
  }

  /** All connections that have it at either end. */
  connections() {
    return this.session.allConnections(this.number);
  }

  /** Has a function called with the calls of its slots, or of the one whose signature is given first. */
  onCall(...rest) {
    const [which, ...told] = rest;
    // a name that is no method's is that of a functor
    const isMember = told.length > 0 && this.shape && (which.includes("(") || this.shape.methods.has(which));
    return this.session.on(this.number, ...(isMember ? [this.method(which).signature(), ...told] : rest));
  }

  toString() {
    return `<${this.className ?? "object"} ${this.number} of ${this.session.name}>`;
  }

  /** What JSON has in its place: its number. */
  toJSON() {
    return this.number;
  }

  /** How Node shows it. */
  [Symbol.for("nodejs.util.inspect.custom")]() {
    return String(this);
  }

  #signature(method) {
    return this.shape && !method.includes("(") ? this.method(method).signature() : method;
  }
}

/** An object by its number, whose class is asked for when it is awaited. */
export class Reference extends RemoteObject {
  then(resolve, reject) {
    return this.object().then(resolve, reject);
  }
}

const OF_OBJECTS = new Set(["then", "toJSON", "inspect", "nodeType", "asymmetricMatch", "$$typeof"]); // which others look for

const MEMBERS = {
  get(target, name) {
    if (name === "then" || typeof name === "symbol" || name in target) return own(target, name);
    const { shape } = target;
    if (shape.properties.has(name)) return target.property(name);
    if (shape.methods.has(name)) return target.method(name);
    if (OF_OBJECTS.has(name)) return undefined;
    const near = meant(name, [...shape.properties.keys(), ...shape.methods.keys()]);
    const advice = near || `; a dynamic property is reached by .property("${name}")`;
    throw new NoMember(`${shape.name} declares no ${name}${advice}`);
  },
  set(target, name) {
    const { properties, methods, name: className } = target.shape;
    const how = `write \`await object.set("${String(name)}", value)\``;
    if (properties.has(name)) throw new NoMember(`an assignment to ${name} cannot be awaited: ${how}`);
    if (name in target || methods.has(name)) throw new NoMember(`${String(name)} of ${target} cannot be written`);
    const near = meant(String(name), properties.keys());
    throw new NoMember(`${className} declares no ${String(name)}${near}; for a dynamic property ${how}`);
  },
  has(target, name) {
    return name in target || target.shape.properties.has(name) || target.shape.methods.has(name);
  },
};

function own(target, name) {
  const value = target[name];
  return typeof value === "function" && name !== "constructor" ? value.bind(target) : value;
}

/** An object with the members of its class: its properties and methods have their names. */
export function described(session, number, shape) {
  return new Proxy(new RemoteObject(session, number, shape), MEMBERS);
}

/** A property of an object. Awaited it is the property's value. */
export class Property {
  constructor(owner, name) {
    /** The object that it is of. */
    this.owner = owner;
    /** Its name. */
    this.name = name;
  }

  /** What the class declares of it: its type, its notify signal, whether it is bindable; null for a dynamic one. */
  get info() {
    return this.owner.shape?.properties.get(this.name) ?? null;
  }

  then(resolve, reject) {
    return this.get().then(resolve, reject);
  }

  catch(reject) {
    return this.get().catch(reject);
  }

  finally(told) {
    return this.get().finally(told);
  }

  /** Its value; null where there is no property of this name. */
  get(options) {
    return this.owner.get(this.name, options);
  }

  /** Writes it. */
  set(value, options) {
    return this.owner.set(this.name, value, options);
  }

  /** Binds it to an expression. */
  bind(to, options) {
    return this.owner.bind(this.name, to, options);
  }

  /** Leaves it the value that it has; the promise has whether it was bound. */
  unbind(options) {
    return this.owner.unbind(this.name, options);
  }

  /** The expression that it is bound to; null where it is not bound. */
  binding(options) {
    return this.owner.session.binding(this.owner.number, this.name, options);
  }

  /** Its error, `BindingLoop` or `EvaluationError`; null where it is in none. */
  error(options) {
    return this.owner.session.bindingError(this.owner.number, this.name, options);
  }
}

/** Whether something is a method of an object. An object with the members of its class is asked for none. */
export function isMethod(value) {
  return typeof value === "function" && value.isMethod === true;
}

/** What a method of an object has, in addition to being called. */
class Method extends Function {
  get isMethod() {
    return true;
  }

  /** Its signature; `Ambiguous` where several have its name. */
  signature() {
    return only(this.signatures, this.signatures, `of ${this.owner.shape.name} is meant`);
  }

  /** Whether it is a signal. */
  get isSignal() {
    return this.signatures.every((it) => this.owner.shape.signals.has(it));
  }

  /** That of the methods of this name that takes the most of arguments of these types. */
  taking(types, of) {
    const fits = (it) => typesOf(it).every((type, at) => type === types[at]);
    const found = this.signatures.filter(fits).sort((one, other) => typesOf(other).length - typesOf(one).length);
    const fitting = only(found.slice(0, 1), this.signatures, `fits ${of}(${types})`);
    return makeMethod(this.owner, nameOf(fitting), [fitting]);
  }

  /** That of the methods of a name that takes the most of the signal's arguments. */
  fit(to) {
    if (to.owner.session !== this.owner.session) {
      throw new OtherSession(`${to.owner} and ${this.owner} are of two sessions: publish the signal, and join it`);
    }
    return to.taking(typesOf(this.signature()), nameOf(this.signature()));
  }

  /** Sends the signal, as a call does. */
  emit(...args) {
    return this(...args);
  }

  /**
   * Connects the signal to a method, or has a function called with its arguments, for which it needs a relay (see
   * `withRelay`) or a slot `via` which it is called.
   * @param {any} to
   * @param {{via?: any, type?: string, unique?: boolean, single?: boolean}} [options]
   */
  async connect(to, { via, ...how } = {}) {
    if (!this.isSignal) throw new NoMember(`${this.signatures.join(", ")} of ${this.owner} is a slot: only signals are connected`);
    const { session, number } = this.owner;
    const connect = (it) => session.connect(number, this.signature(), it.owner.number, it.signature(), how);
    if (isMethod(to)) return new Connected(session, await connect(this.fit(to)));
    if (typeof to !== "function") throw new NoValue("a signal is connected to a method of an object, or to a function");
    return heardBy(this, to, via && this.fit(via), connect);
  }

  /** Publishes the signal under a name; `unpublish` of the session takes it back. */
  publish(name, options) {
    return this.owner.session.publish(this.owner.number, this.signature(), name, options);
  }

  /** Has the method called for what another session publishes under a name; `types` are those of the published signal. */
  join(from, name, types = typesOf(this.signature()), options = {}) {
    return this.owner.session.join(from, name, types, this.owner.number, this.signature(), options);
  }
}

/** A method that can be called: with its arguments, then an object with `type`, `priority` and `timeout` if wanted. */
function makeMethod(owner, name, signatures) {
  const method = async (...args) => {
    const options = isPlain(args[args.length - 1]) ? args.pop() : {};
    const fitting = signatures.filter((it) => typesOf(it).length === args.length);
    const signature = only(fitting, signatures, `of ${owner.shape.name} takes ${args.length} arguments`);
    await owner.session.invoke(owner.number, signature, args, options);
  };
  Object.setPrototypeOf(method, Method.prototype);
  Object.defineProperties(method, { name: { value: name }, owner: { value: owner }, signatures: { value: signatures } });
  return method;
}
