/** Declarations of the commands of a session, and of what they reply. They are written by hand. */

import type { DescribedObject, Expression, InvokeOptions, ObjectLike, Reference, Spun, Value } from "./index.mjs";

/** What each command may be given in addition to its keys: the milliseconds in which it has to be answered. */
export interface CommandOptions {
  timeout?: number | null;
}

/** How a signal is connected. */
export interface ConnectionOptions extends CommandOptions {
  type?: "auto" | "direct" | "queued";
  unique?: boolean;
  single?: boolean;
}

/** Connections of a sender, which are broken. */
export interface ConnectionPattern extends CommandOptions {
  sender: ObjectLike;
  signal?: string;
  receiver?: ObjectLike;
  method?: string;
}

export interface Status {
  bindings: number;
  connections: number;
  group: number;
  joins: number;
  lost: number;
  mismatched: number;
  objects: number;
  publications: number;
  queued: number;
}

export interface Meta {
  class: string;
  methodOffset: number;
  methods: string[];
  properties: string[];
  propertyOffset: number;
  super: string | null;
}

export interface ObjectInfo {
  blocked: boolean;
  children: number;
  class: string;
  connectionsFrom: number;
  connectionsTo: number;
  events: number;
  level: number;
  parent: number | null;
}

export interface DeclaredInfo {
  bindable: boolean;
  class: string;
  name: string;
  notify: string | null;
  type: string;
}

export interface MethodInfo {
  class: string;
  signature: string;
  types: string[];
}

export interface ClassInfo {
  class: string;
  properties: DeclaredInfo[];
  signals: MethodInfo[];
  slots: MethodInfo[];
  super: string | null;
}

export interface PropertyInfo {
  bindable: boolean;
  bound: boolean;
  error: "BindingLoop" | "EvaluationError" | null;
  name: string;
  notify: string | null;
  type: string | null;
  value: Value;
}

/** A connection: to a method, or to a functor. */
export interface ConnectionInfo {
  connection: number;
  sender: number;
  signal: string;
  single: boolean;
  type: "auto" | "direct" | "queued";
  receiver?: number;
  method?: string;
  context?: number;
  functor?: string;
  state?: number | bigint;
}

export type Bindings = { object: number; property: string }[];

/** The commands of the protocol. */
export interface SessionCommands {
  "new"<Members = Record<string, any>>(
    className: string,
    parent?: ObjectLike | null | (CommandOptions & { parent?: ObjectLike | null }),
    options?: CommandOptions,
  ): Promise<DescribedObject<Members>>;
  delete(object: ObjectLike, options?: CommandOptions): Promise<true>;
  deleteLater(object: ObjectLike, options?: CommandOptions): Promise<true>;
  setParent(object: ObjectLike, parent: ObjectLike | null, options?: CommandOptions): Promise<true>;
  children(object?: ObjectLike | (CommandOptions & { object?: ObjectLike }), options?: CommandOptions): Promise<number[]>;
  find(object: ObjectLike, options?: CommandOptions & { name?: string; class?: string }): Promise<number | null>;
  find(object: ObjectLike, name: string, className?: string, options?: CommandOptions): Promise<number | null>;
  set(object: ObjectLike, property: string, value: unknown, options?: CommandOptions): Promise<boolean>;
  get(object: ObjectLike, property: string, options?: CommandOptions): Promise<any>;
  dynamicNames(object: ObjectLike, options?: CommandOptions): Promise<string[]>;
  bind(object: ObjectLike, property: string, to: Expression, options?: CommandOptions): Promise<true>;
  unbind(object: ObjectLike, property: string, options?: CommandOptions): Promise<boolean>;
  bindingError(object: ObjectLike, property: string, options?: CommandOptions): Promise<"BindingLoop" | "EvaluationError" | null>;
  begin(options?: CommandOptions): Promise<number>;
  end(options?: CommandOptions): Promise<number>;
  connect(sender: ObjectLike, signal: string, receiver: ObjectLike, method: string, options?: ConnectionOptions): Promise<number>;
  connectFunctor(
    sender: ObjectLike,
    signal: string,
    context: ObjectLike,
    functor: string,
    options?: ConnectionOptions,
  ): Promise<number>;
  disconnect(connection: number, options?: CommandOptions): Promise<boolean>;
  disconnect(connection: CommandOptions & { connection: number }): Promise<boolean>;
  disconnect(pattern: ConnectionPattern): Promise<number>;
  invoke(object: ObjectLike, method: string, args?: readonly unknown[], options?: InvokeOptions): Promise<boolean>;
  block(object: ObjectLike, on: boolean, options?: CommandOptions): Promise<boolean>;
  publish(object: ObjectLike, signal: string, name: string, options?: CommandOptions): Promise<true>;
  unpublish(name: string, options?: CommandOptions): Promise<boolean>;
  join(
    from: string,
    name: string,
    types: readonly string[],
    object: ObjectLike,
    method: string,
    options?: CommandOptions,
  ): Promise<true>;
  leave(from: string, name: string, object: ObjectLike, method: string, options?: CommandOptions): Promise<boolean>;
  spin(options?: CommandOptions): Promise<Spun>;
  status(options?: CommandOptions): Promise<Status>;
  meta(className: string, options?: CommandOptions): Promise<Meta>;
  parent(object: ObjectLike, options?: CommandOptions): Promise<number | null>;
  findAll(object: ObjectLike, options?: CommandOptions & { name?: string; class?: string }): Promise<number[]>;
  findAll(object: ObjectLike, name: string, className?: string, options?: CommandOptions): Promise<number[]>;
  object(number: ObjectLike): Reference;
  properties(object: ObjectLike, options?: CommandOptions): Promise<PropertyInfo[]>;
  connections(options?: CommandOptions & { object?: ObjectLike; after?: number }): Promise<ConnectionInfo[]>;
  connections(object: ObjectLike, after?: number, options?: CommandOptions): Promise<ConnectionInfo[]>;
  bindings(options?: CommandOptions & { after?: { object: ObjectLike; property: string } }): Promise<Bindings>;
  binding(object: ObjectLike, property: string, options?: CommandOptions): Promise<Expression | null>;
  publications(options?: CommandOptions): Promise<{ name: string; object: number; signal: string }[]>;
  joins(options?: CommandOptions): Promise<{ from: string; method: string; name: string; object: number; types: string[] }[]>;
  classes(options?: CommandOptions): Promise<string[]>;
  describe(className: string, options?: CommandOptions): Promise<ClassInfo>;
  functors(options?: CommandOptions): Promise<{ name: string; state: boolean; types: string[] }[]>;
  reset(options?: CommandOptions): Promise<true>;
}
