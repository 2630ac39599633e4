/** Declarations of the client of metad, for TypeScript. They are written by hand. */

import type { Bindings, CommandOptions, SessionCommands } from "./session_commands.mjs";

export * from "./session_commands.mjs";

/** What JSON can say, with whole numbers beyond those of a `number` as a `bigint`. */
export type Value = null | boolean | number | bigint | string | Value[] | { [key: string]: Value };

/** What a session receives when a slot or a functor is called. */
export interface Call {
  /** The number of the object that the slot belongs to, or that is the functor's context. */
  object: number;
  /** The signature of the slot, or the name of the functor. */
  method: string;
  args: Value[];
  /** The number of the object whose signal called it; 0 where a command or another session's post did. */
  sender: number;
}

/** What a session receives when an action is refused, or a bound property is in error. */
export interface Warning {
  /** The code, as `E04`, or the error of the property. */
  code: string;
  meaning: string;
  object: number | null;
  property: string | null;
}

export declare class MetadError extends Error {
  readonly code: string | null;
  readonly text: string;
  readonly command: ({ do: string } & Record<string, unknown>) | null;
}
export declare class Refused extends MetadError {
  readonly code: string;
}
export declare class NotAnswered extends MetadError {}
export declare class ServerGone extends MetadError {
  readonly status: number | null;
  readonly signal: string | null;
  readonly stderr: string;
}
export declare class ConnectionClosed extends ServerGone {}
export declare class SessionLost extends ConnectionClosed {}
export declare class LinesLost extends ConnectionClosed {}
export declare class NotReached extends MetadError {}
export declare class NotStarted extends ServerGone {}
export declare class ClassFileRefused extends NotStarted {}
export declare class StrangeLine extends MetadError {
  readonly line: string;
}
export declare class NoValue extends MetadError {}
export declare class LineTooLong extends NoValue {}
export declare class NoMember extends MetadError {}
export declare class Ambiguous extends MetadError {}
export declare class NotLive extends MetadError {}
export declare class OtherSession extends MetadError {}
export declare class NoRelay extends MetadError {}
export declare class NoMonitors extends MetadError {}
export declare class NotFresh extends MetadError {}

/** A command of a dump: its word and its keys, without a session. */
export type DumpedCommand = { do: string } & Record<string, Value>;

/** What a code, or the error of a property, means. */
export declare function meaningOf(code: string): string;
/** How a value looks in a text, cut where it is long. */
export declare function shown(value: unknown): string;

/** The commands by their words: each with its forms. */
export declare const COMMANDS: Readonly<Record<keyof SessionCommands, readonly { keys: string[]; optional: string[] }[]>>;
export declare const CODES: Readonly<Record<string, string>>;
export declare const LINE_BYTES: number;

export declare function readJson(text: string): any;
export declare function writeJson(value: unknown): string;

/** What a class file holds. */
export interface ClassFile {
  classes: unknown[];
}

/** A program that is started. */
export interface Program {
  program: string;
  args?: string[];
  classes?: ClassFile;
  env?: Record<string, string | undefined>;
  cwd?: string;
}

/** What a client writes to and reads from, with the words of a WebSocket. */
export interface Transport {
  send(text: string): void;
  close(): void;
  onmessage: ((event: any) => any) | null;
  onclose?: ((event: any) => any) | null;
  onerror?: ((event: any) => any) | null;
  onopen?: ((event: any) => any) | null;
  readonly readyState?: number;
  /** With `metad`, as for a WebSocket of `metad-web`, each message is one line without its LF. */
  readonly protocol?: string;
  /** Whether lines still come after `close`. */
  readonly halfCloses?: boolean;
  destroy?(): void;
}

/** What `connect` takes in addition to the target. Times are in milliseconds; null waits without a limit. */
export interface ConnectOptions {
  share?: string;
  group?: string;
  live?: boolean;
  timeout?: number | null;
  startTimeout?: number | null;
  closeTimeout?: number | null;
  /** For `tls://HOST:PORT` in Node: what `tls.connect` takes. */
  tls?: TlsOptions;
}

/** Certificates and keys in PEM form, and further options of Node's `tls.connect`. */
export interface TlsOptions {
  ca?: string | Uint8Array;
  cert?: string | Uint8Array;
  key?: string | Uint8Array;
  servername?: string;
  [option: string]: unknown;
}

export declare function connect(
  target: string | Program | Transport | (() => Transport | Promise<Transport>),
  options?: ConnectOptions,
): Promise<Client>;

export declare class Client {
  private constructor();
  readonly isLive: boolean;
  readonly ended: Promise<void>;
  timeout: number | null;
  session(name: string): Session;
  on(what: "error", told: (error: unknown) => void): Listener;
  close(): Promise<number | null>;
}

/** A function that is called with what a session receives. */
export interface Listener {
  stop(): void;
}

/** What came of `spin`. */
export interface Spun {
  events: number;
  left: number;
  lost: number;
  mismatched: number;
}

export interface Session extends SessionCommands {}
export declare class Session {
  private constructor();
  readonly client: Client;
  readonly name: string;
  readonly knownAs: string | null;
  readonly isLive: boolean;
  timeout: number | null;
  autoSpin: boolean;
  command(word: string, keys?: Record<string, unknown>, options?: CommandOptions): Promise<any>;
  allConnections(object?: ObjectLike): Promise<import("./session_commands.mjs").ConnectionInfo[]>;
  allBindings(): Promise<Bindings>;
  dump(): Promise<string>;
  dumpCommands(): Promise<DumpedCommand[]>;
  replay(commands: readonly DumpedCommand[]): Promise<void>;
  on(what: "call", told: (call: Call) => unknown): Listener;
  on(what: "warning", told: (warning: Warning) => unknown): Listener;
  on(what: "spun", told: (spun: Spun) => unknown): Listener;
  on(object: ObjectLike, told: (call: Call) => unknown): Listener;
  on(object: ObjectLike, method: string, told: (call: Call) => unknown): Listener;
  calls(options?: CommandOptions): AsyncIterableIterator<Call>;
  waitFor(signal: Method, options?: CommandOptions & { via?: Method }): Promise<Value[]>;
  waitFor<T>(predicate: () => T, options?: CommandOptions): Promise<T>;
  listen(from: string, name: string, types: string[], told: (...args: any[]) => unknown): Promise<Connected>;
}

/** An object of a session, or its number. */
export type ObjectLike = number | bigint | RemoteObject;

export declare class RemoteObject {
  protected constructor();
  readonly session: Session;
  readonly number: number;
  readonly className: string | null;
  get(property: string, options?: CommandOptions): Promise<any>;
  set(property: string, value: unknown, options?: CommandOptions): Promise<boolean>;
  invoke(method: string, args?: unknown[], options?: InvokeOptions): Promise<boolean>;
  connect(signal: string, to: Method | ((...args: any[]) => unknown), options?: ConnectingOptions): Promise<Connected>;
  connect(signal: string, receiver: ObjectLike, method: string, options?: ConnectingOptions): Promise<Connected>;
  bind(property: string, to: Expression, options?: CommandOptions): Promise<boolean>;
  unbind(property: string, options?: CommandOptions): Promise<boolean>;
  property(name: string): Property;
  method(which: string): Method;
  delete(options?: CommandOptions): Promise<boolean>;
  info(options?: CommandOptions): Promise<import("./session_commands.mjs").ObjectInfo>;
  object(): Promise<DescribedObject>;
  parent(): Promise<DescribedObject | null>;
  children(): Promise<DescribedObject[]>;
  properties(options?: CommandOptions): Promise<import("./session_commands.mjs").PropertyInfo[]>;
  connections(): Promise<import("./session_commands.mjs").ConnectionInfo[]>;
  onCall(told: (call: Call) => unknown): Listener;
  onCall(method: string, told: (call: Call) => unknown): Listener;
}

/** An object with the members of its class, whose names TypeScript does not know; give their types where it should. */
export type DescribedObject<Members = Record<string, any>> = RemoteObject & Members;

/** An object by its number, which can be used at once; awaited it has the members of its class. */
export interface Reference extends RemoteObject, PromiseLike<DescribedObject> {}

export interface InvokeOptions extends CommandOptions {
  type?: "auto" | "direct" | "queued";
  priority?: -1 | 0 | 1;
}

export interface ConnectingOptions extends CommandOptions {
  type?: "auto" | "direct" | "queued";
  unique?: boolean;
  single?: boolean;
  via?: Method;
}

export declare class Property<T = any> implements PromiseLike<T> {
  private constructor();
  readonly owner: RemoteObject;
  readonly name: string;
  readonly info: import("./session_commands.mjs").DeclaredInfo | null;
  then: Promise<T>["then"];
  catch: Promise<T>["catch"];
  finally: Promise<T>["finally"];
  get(options?: CommandOptions): Promise<T>;
  set(value: T, options?: CommandOptions): Promise<boolean>;
  bind(to: Expression, options?: CommandOptions): Promise<boolean>;
  unbind(options?: CommandOptions): Promise<boolean>;
  binding(options?: CommandOptions): Promise<Expression | null>;
  error(options?: CommandOptions): Promise<"BindingLoop" | "EvaluationError" | null>;
}

/** A signal or a slot of an object. */
export interface Method {
  (...args: unknown[]): Promise<void>;
  readonly isMethod: true;
  readonly isSignal: boolean;
  readonly owner: RemoteObject;
  readonly signatures: readonly string[];
  signature(): string;
  emit(...args: unknown[]): Promise<void>;
  connect(to: Method | ((...args: any[]) => unknown), options?: ConnectingOptions): Promise<Connected>;
  publish(name: string, options?: CommandOptions): Promise<boolean>;
  join(from: string, name: string, types?: string[], options?: CommandOptions): Promise<boolean>;
}

/** A connection of a signal. */
export interface Connected {
  readonly session: Session;
  readonly number: number | null;
  disconnect(): Promise<boolean>;
}

export declare function withRelay<T extends ClassFile>(classes: T): T;

export declare class SignalSpy extends Array<Value[]> {
  static on(signal: Method, options?: { via?: Method }): Promise<SignalSpy>;
  wait(options?: CommandOptions): Promise<boolean>;
  stop(): Promise<void>;
}

/** An expression of a binding, as the protocol has it. */
export type Expression = { [form: string]: unknown };
/** What may stand in an expression: a value for a constant, and a property for what it is. */
export type Operand = Expression | Property | boolean | number | bigint | string;

export declare function prop(name: string, of?: ObjectLike): Expression;
export declare function constant(value: boolean | number | bigint | string): Expression;
export declare function add(one: Operand, other: Operand, ...more: Operand[]): Expression;
export declare function subtract(one: Operand, other: Operand): Expression;
export declare function less(one: Operand, other: Operand): Expression;
export declare function equal(one: Operand, other: Operand): Expression;
export declare function choose(condition: Operand, first: Operand, second: Operand): Expression;
export declare function concat(one: Operand, other: Operand, ...more: Operand[]): Expression;
export declare function not(condition: Operand): Expression;
export declare function and(...conditions: Operand[]): Expression;
export declare function or(...conditions: Operand[]): Expression;

export interface FrontOptions extends Program {
  options?: string[];
  monitor?: boolean;
  startTimeout?: number | null;
  front?: string;
}

export interface Front {
  readonly path: string;
  readonly monitorPath: string;
  connect(options?: ConnectOptions): Promise<Client>;
  monitor(session?: string): Promise<Monitor>;
  close(): Promise<number | null>;
}

export interface Monitor extends AsyncIterable<Record<string, any>> {
  close(): void;
}

export declare function startFront(what: FrontOptions): Promise<Front>;
export declare function monitor(path: string, session?: string): Promise<Monitor>;
