// A client of path_server for Node, with its standard library alone.
//
//     import { connect } from 'path-client';
//
//     const client = await connect({ at: '127.0.0.1:7000', key: '00112233445566778899aabbccddeeff' });
//     await client.put('shop', 'order-1', '{"items": [{"name": "tea", "price": 4}]}');
//     for (const { document, path, value } of await client.query('shop', '$.items[?@.price<10].name')) {
//       console.log(document, path, value.toString());
//     }
//     client.close();
//
// A call gives a promise of its value, which is rejected with Refused where the server answers with a status other than Ok (each status has a
// class below it, such as NotFound), with RangeError or TypeError if the request is invalid (nothing was sent), with TimedOut or
// BrokenConnection if the connection is lost (the request may have been carried out). After the last two, and where the server closed the
// connection while no request was under way, the next call opens a new connection. A call that only reads (get, list, query, usage) is sent
// again once if its connection is lost. What writes is never sent again.

import { readFileSync } from 'node:fs';
import { Calls } from './calls.js';
import { isRead, keyBytes } from './frames.js';
import { Link, Queue, resultOf } from './link.js';
import { BrokenConnection, LostConnection, Refused, TimedOut } from './refusals.js';

export { QUERY_LIMIT, TEXT_LIMIT, request } from './frames.js';
export { ExactNumber } from './json_texts.js';
export { Place, findPlace } from './places.js';
export {
  BadCommand, BadFields, BrokenConnection, Costly, DuplicateName, Exists, LoneSurrogate, LostConnection, NoMemory, NoTenant, NotFound, NotJson,
  NotUtf8, NotValid, NotWellFormed, NumberLimit, QueryTooLong, Refused, ReplyTooLarge, Short, TimedOut, TooCostly, TooDeep, TooLong, TooManyBytes,
  TooManyCollections, TooManyDocuments,
} from './refusals.js';

/** Requests of a pipeline that may wait for a reply at a time. */
const WINDOW = 64;

/** The longest time that a timer of Node takes, in milliseconds. */
const LONGEST = 2 ** 31 - 1;

/**
 * Opens a connection to `at` (`HOST:PORT`; `[::1]:7000` for IPv6) for the tenant of `key` (32 hexadecimal digits, or 16 bytes). Without them,
 * PATH_SERVER_AT and the file PATH_SERVER_KEY_FILE have them. `timeout` in milliseconds bounds the opening and, after it, each call. With `tls`
 * (true, or options of tls.connect) it speaks TLS. Rejects with BrokenConnection if there is no server (`code` is that of Node's error), with
 * RangeError or TypeError if an option is invalid. It sends nothing: a key that the server does not know is refused at the first call.
 */
export async function connect(options) {
  const client = new Client(options);
  await client.open();
  return client;
}

/** Opens a pool of at most `size` connections (4), the first at once. The other options are those of `connect`. */
export async function pool(options) {
  const found = new Pool(options);
  await found.open();
  return found;
}

/** The key in a file that has one: 32 hexadecimal digits of either case. */
export function readKey(file) {
  const words = readFileSync(file, 'utf8').split(/[\s,]+/).filter(Boolean);
  if (words.length !== 1) throw new RangeError(`${file} has ${words.length || 'no'} keys; a client wants a file with one`);
  if (!/^[0-9a-f]{32}$/i.test(words[0])) throw new RangeError(`${file} has no key: 32 hexadecimal digits`);
  return keyBytes(words[0]);
}

function parseAddress(at = process.env.PATH_SERVER_AT || undefined) {
  if (at === undefined) throw new RangeError("give the server's address as `at`, or set PATH_SERVER_AT");
  const found = /^(?:\[([^\]/]+)\]|([^:/]+)):(\d{1,5})$/.exec(at);
  if (!found) throw new RangeError(`an address is HOST:PORT without a scheme or a path, not ${at}`);
  const port = Number(found[3]);
  if (port < 1 || port > 65_535) throw new RangeError(`a port is a number from 1 to 65535, not ${port}`);
  return { host: found[1] ?? found[2], port };
}

function givenKey(key) {
  if (key !== undefined) return keyBytes(key);
  const file = process.env.PATH_SERVER_KEY_FILE;
  if (!file) throw new RangeError("give the tenant's key, or set PATH_SERVER_KEY_FILE");
  return readKey(file);
}

/** The milliseconds up to a time, at least 1; as they were given where they are no timeout, which is then refused. */
function left(until, timeout) {
  return typeof timeout === 'number' && timeout >= 1 ? Math.max(1, Math.ceil(until - performance.now())) : timeout;
}

function checkTimeout(timeout) {
  if (typeof timeout === 'number' && timeout >= 1 && timeout <= LONGEST) return timeout;
  throw new RangeError(`a timeout is a number of milliseconds from 1 to ${LONGEST}, not ${timeout}`);
}

function checkOptions(options = {}) {
  if (options !== null && typeof options === 'object') return options;
  throw new TypeError(`options are an object, such as { at: '127.0.0.1:7000', key }, not ${options === null ? 'null' : `a ${typeof options}`}`);
}

function checkRequest(it) {
  if (it?.fields instanceof Uint8Array) return it;
  throw new TypeError(`a pipeline takes requests, such as request.get(..), not ${Array.isArray(it) ? 'an array' : typeof it}`);
}

/** A tenant's connection, opened when it is first needed. Calls that overlap are sent one behind the other over it, without waiting. */
export class Client extends Calls {
  #link;
  /** What `#link` is a promise of, while it is open. */
  #live;
  #address;
  #key;
  #timeout;
  #defaults;
  #tls;
  #isClosed = false;
  #isUnref = false;

  constructor(options) {
    super();
    const { at, key, timeout = 30_000, tls } = checkOptions(options);
    this.#address = parseAddress(at);
    this.#key = givenKey(key);
    this.#timeout = checkTimeout(timeout);
    this.#defaults = { timeout, signal: undefined };
    this.#tls = tls;
  }

  /** Opens the connection, where it is not open. A call does so by itself. */
  async open() {
    await this.#opened();
  }

  /** Closes the client for good. Calls under way are rejected with BrokenConnection. */
  close() {
    this.#isClosed = true;
    this._drop('the client is closed');
  }

  /** Lets the process end while no call is under way, although the connection is open. */
  unref() {
    return this.#hold(true);
  }

  /** Takes `unref` back. */
  ref() {
    return this.#hold(false);
  }

  #hold(isUnref) {
    this.#isUnref = isUnref;
    this.#link?.then((link) => link.unref(isUnref), () => {});
    return this;
  }

  /**
   * Sends the requests of an iterable or an async iterable, up to 64 before a reply, and gives a result for each, in their order: the value, or
   * the Refused that the call would have thrown. `timeout` bounds the wait for each reply.
   *
   * If the requests throw, those before are carried out, and it is rejected with the same. What it is rejected with has the results of the
   * replies that came, as its property `results`.
   */
  async pipeline(requests, options) {
    const { timeout, signal } = this.#options(options);
    const link = await this.#opened();
    const [sent, results] = [[], []];
    const settle = async (count) => {
      for (let at = results.length; at < count; at += 1) results.push(resultOf(await sent[at].end, sent[at].it));
    };
    let fault;
    try {
      for await (const it of requests) {
        sent.push({ it, end: link.send(this.#key, checkRequest(it), timeout, signal, true) });
        if (sent.length > WINDOW) await settle(sent.length - WINDOW);
      }
    } catch (found) {
      fault = found;
    }
    try {
      await settle(sent.length);
    } catch (found) {
      fault = found;
    }
    if (fault === undefined) return results;
    if (typeof fault === 'object') fault.results = results;
    throw fault;
  }

  async _call(make, options, told) {
    const it = make();
    const { timeout, signal } = options === undefined ? this.#defaults : this.#options(options);
    const until = performance.now() + timeout;
    let end = await (this.#live ?? (await this.#opened())).send(this.#key, it, timeout, signal, false);
    if (end.error === LostConnection && isRead(it)) {
      end = await (await this.#opened()).send(this.#key, it, left(until, timeout), signal, false);
    }
    // of a call that waited before, or was sent again, the rest of its time is over: who called gave the whole
    if (end.error === TimedOut) end.message = `no answer within ${told ?? timeout} ms`;
    const result = resultOf(end, it);
    if (end.status !== undefined) throw result;
    return result;
  }

  /** Gives the connection up, so that the next call opens another. */
  _drop(message) {
    if (this.#live) this.#live.end(BrokenConnection, message);
    else this.#link?.then((link) => link.end(BrokenConnection, message), () => {});
  }

  #options({ timeout = this.#timeout, signal } = {}) {
    signal?.throwIfAborted();
    return { timeout: checkTimeout(timeout), signal };
  }

  async #opened() {
    if (this.#isClosed) throw new BrokenConnection('the client is closed');
    this.#link ??= Link.open(this.#address, this.#tls, this.#timeout, this.#isUnref, () => {
      this.#link = this.#live = undefined;
    });
    try {
      const link = await this.#link;
      if (!link.hasEnded) this.#live = link;
      return link;
    } catch (fault) {
      if (fault instanceof BrokenConnection) throw fault;
      // several addresses that all refuse have no message of their own
      const why = fault.message || `${fault.code} at ${this.#address.host}:${this.#address.port}`;
      throw Object.assign(new BrokenConnection(`no new connection: ${why.trim()}`, { cause: fault }), { code: fault.code });
    }
  }
}

/** At most so many connections of a tenant. A call has one for itself, so that a timeout or a lost connection is that call's alone. */
export class Pool extends Calls {
  #clients;
  #idle;
  #waiting = new Queue();
  #timeout;

  constructor(given) {
    super();
    const { size = 4, ...options } = checkOptions(given);
    if (!Number.isInteger(size) || size < 1) throw new RangeError(`a pool has at least 1 connection, not ${size}`);
    this.#clients = Array.from({ length: size }, () => new Client(options));
    this.#idle = [...this.#clients];
    this.#timeout = options.timeout ?? 30_000;
  }

  /** Opens a connection, where none is open. A call does so by itself. */
  async open() {
    await this.#lend((client) => client.open());
  }

  /** Closes the pool for good. Calls under way are rejected with BrokenConnection. */
  close() {
    for (const it of this.#clients) it.close();
  }

  /** Lets the process end while no call is under way, although connections are open. */
  unref() {
    for (const it of this.#clients) it.unref();
    return this;
  }

  /** Takes `unref` back. */
  ref() {
    for (const it of this.#clients) it.ref();
    return this;
  }

  /** As `Client.pipeline`, over one of the connections. */
  async pipeline(requests, options) {
    return await this.#lend((client) => client.pipeline(requests, options), options);
  }

  async _call(make, options) {
    const { timeout = this.#timeout } = options ?? {};
    const until = performance.now() + timeout;
    // what it waited for a connection is of its own time
    return await this.#lend((client) => client._call(make, { ...options, timeout: left(until, timeout) }, timeout), options);
  }

  async #lend(use, { timeout = this.#timeout, signal } = {}) {
    signal?.throwIfAborted();
    const client = this.#idle.pop() ?? (await this.#free(checkTimeout(timeout), signal));
    try {
      return await use(client);
    } catch (fault) {
      // its reply is still to come, and would keep the next call waiting
      if (signal?.aborted) client._drop('a call on the connection was aborted');
      throw fault;
    } finally {
      this.#giveBack(client);
    }
  }

  #giveBack(client) {
    while (this.#waiting.length > 0) {
      const next = this.#waiting.first;
      this.#waiting.shift();
      if (next(client)) return;
    }
    this.#idle.push(client);
  }

  /** Waits until a call gives its connection back. */
  #free(timeout, signal) {
    return new Promise((resolve, reject) => {
      let isOver = false;
      const over = () => {
        if (isOver) return false;
        clearTimeout(late);
        signal?.removeEventListener('abort', abort);
        return (isOver = true);
      };
      const abort = () => over() && reject(signal.reason);
      const late = setTimeout(() => over() && reject(new TimedOut(`no connection of the pool came free within ${timeout} ms`)), timeout);
      signal?.addEventListener('abort', abort, { once: true });
      this.#waiting.push((client) => over() && (resolve(client), true));
    });
  }
}
