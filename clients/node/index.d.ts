// The types of index.js, which says what each does.

import type { Buffer } from 'node:buffer';
import type { ConnectionOptions } from 'node:tls';

declare global {
  interface SymbolConstructor {
    readonly asyncDispose: unique symbol;
  }
}

/** A name, a text or a query: a string is sent as UTF-8. */
export type Text = string | Uint8Array;

export interface Options {
  /** `HOST:PORT`; `[::1]:7000` for IPv6. Default: PATH_SERVER_AT. */
  at?: string;
  /** 32 hexadecimal digits, or 16 bytes. Default: the key in the file PATH_SERVER_KEY_FILE. */
  key?: string | Uint8Array;
  /** Milliseconds, 1 to 2147483647, of the opening and of each call. Default: 30,000. */
  timeout?: number;
  /** TLS with these options of tls.connect, or with none. */
  tls?: boolean | ConnectionOptions;
}

export interface PoolOptions extends Options {
  /** The most connections. Default: 4. */
  size?: number;
}

export interface CallOptions {
  /** Milliseconds, in the place of the client's. */
  timeout?: number;
  /** Ends the wait for the reply; the request may be carried out. */
  signal?: AbortSignal;
}

export interface Hit {
  document: string;
  /** The normalized path (RFC 9535, section 2.7). */
  path: string;
  /** The bytes of the value as they stand in the text. */
  value: Buffer;
}

/** The hits of a query in their order, each made when it is asked for. */
export interface Hits extends Iterable<Hit> {
  readonly length: number;
}

export interface Usage {
  collections: number;
  documents: number;
  bytes: number;
}

/** A command with its fields, which gives a Result. */
export interface Request<Result> {
  readonly code: number;
  readonly name: string;
  readonly fields: Buffer;
  readonly collection: Text;
  readonly document: Text;
  read(payload: Buffer): Result;
}

export declare const request: {
  put(collection: Text, document: Text, text: Text): Request<void>;
  putNew(collection: Text, document: Text, text: Text): Request<void>;
  putJson(collection: Text, document: Text, value: unknown): Request<void>;
  get(collection: Text, document: Text): Request<Buffer>;
  remove(collection: Text, document: Text): Request<void>;
  list(collection: Text): Request<string[]>;
  query(collection: Text, query: Text): Request<Hit[]>;
  hits(collection: Text, query: Text): Request<Hits>;
  documents(collection: Text, query: Text): Request<string[]>;
  drop(collection: Text): Request<void>;
  usage(): Request<Usage>;
};

/** The commands, for a client and for a pool. */
declare abstract class Calls {
  open(): Promise<void>;
  close(): void;
  unref(): this;
  ref(): this;
  put(collection: Text, document: Text, text: Text, options?: CallOptions): Promise<void>;
  putNew(collection: Text, document: Text, text: Text, options?: CallOptions): Promise<void>;
  putJson(collection: Text, document: Text, value: unknown, options?: CallOptions): Promise<void>;
  get(collection: Text, document: Text, options?: CallOptions): Promise<Buffer>;
  getJson<Value = unknown>(collection: Text, document: Text, options?: CallOptions & { exact?: boolean }): Promise<Value>;
  remove(collection: Text, document: Text, options?: CallOptions): Promise<void>;
  list(collection: Text, options?: CallOptions): Promise<string[]>;
  query(collection: Text, query: Text, options?: CallOptions): Promise<Hit[]>;
  hits(collection: Text, query: Text, options?: CallOptions): Promise<Hits>;
  documents(collection: Text, query: Text, options?: CallOptions): Promise<string[]>;
  drop(collection: Text, options?: CallOptions): Promise<void>;
  usage(options?: CallOptions): Promise<Usage>;
  ping(options?: CallOptions): Promise<number>;
  pipeline<Result>(
    requests: Iterable<Request<Result>> | AsyncIterable<Request<Result>>,
    options?: CallOptions,
  ): Promise<Array<Result | Refused>>;
  [Symbol.asyncDispose](): Promise<void>;
}

export declare class Client extends Calls {
  constructor(options?: Options);
}

export declare class Pool extends Calls {
  constructor(options?: PoolOptions);
}

export declare function connect(options?: Options): Promise<Client>;
export declare function pool(options?: PoolOptions): Promise<Pool>;
export declare function readKey(file: string): Buffer;

/** A number of a text with its own digits. */
export declare class ExactNumber {
  constructor(text: string);
  readonly text: string;
  valueOf(): number;
  toString(): string;
  toJSON(): number;
}

export declare const TEXT_LIMIT: number;
export declare const QUERY_LIMIT: number;

export declare abstract class Refused extends Error {
  readonly status: number;
  readonly sentence: string;
  readonly command: string;
  readonly collection: string;
  readonly document: string;
  /** Where the text or the query is refused. It is sought when it is first asked for. */
  readonly place?: Place;
  /** The line and the column of the place, counted from 1, and what may stand there. */
  readonly line?: number;
  readonly column?: number;
  readonly expected?: string;
}

/** Where a text or a query is refused: the bytes before the place, its line and column from 1, what is said of it, and what may stand there. */
export declare class Place {
  readonly byte: number;
  readonly line: number;
  readonly column: number;
  readonly message: string;
  readonly expected?: string;
}

export declare function findPlace(text: string | Uint8Array, refusal: string): Place | undefined;

export declare class Short extends Refused {}
export declare class NoTenant extends Refused {}
export declare class BadCommand extends Refused {}
export declare class BadFields extends Refused {}
export declare class TooLong extends Refused {}
export declare class NotUtf8 extends Refused {}
export declare class NotJson extends Refused {}
export declare class TooDeep extends Refused {}
export declare class NumberLimit extends Refused {}
export declare class LoneSurrogate extends Refused {}
export declare class DuplicateName extends Refused {}
export declare class TooManyCollections extends Refused {}
export declare class TooManyDocuments extends Refused {}
export declare class TooManyBytes extends Refused {}
export declare class NotFound extends Refused {}
export declare class QueryTooLong extends Refused {}
export declare class NotWellFormed extends Refused {}
export declare class NotValid extends Refused {}
export declare class ReplyTooLarge extends Refused {}
export declare class NoMemory extends Refused {}
export declare class Costly extends Refused {}
export declare class Exists extends Refused {}
export { Costly as TooCostly };

/** The connection ended, or what came is not a reply. Of a pipeline, `results` has those of the replies that came. */
export declare class BrokenConnection extends Error {
  results?: unknown[];
  /** Where no connection could be opened: the code of Node's error, such as ECONNREFUSED. */
  code?: string;
}
export declare class LostConnection extends BrokenConnection {}
export declare class TimedOut extends BrokenConnection {}
