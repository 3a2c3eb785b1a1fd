// Requests and replies as bytes: the frames of docs/PROTOCOL.md, and nothing of connections.

import { toJson } from './json_texts.js';
import { BrokenConnection } from './refusals.js';

/** Bytes of a reply's body, at most. */
const REPLY_LIMIT = 8_388_608;
const COLLECTION_LIMIT = 64;
const DOCUMENT_LIMIT = 128;
/** Bytes of a document's text, at most. */
export const TEXT_LIMIT = 4_194_304;
/** Bytes of a query, at most. */
export const QUERY_LIMIT = 4_096;
const KEY_BYTES = 16;
const FRAME_FAULT = 255;

/**
 * Commands with their fields, for any tenant: what `pipeline` takes. Names, texts and queries are strings or bytes; a string is sent as
 * UTF-8. Each throws a RangeError where the server would refuse a name, or the length of a text or query, whatever it holds, and a TypeError
 * for what is neither a string nor bytes.
 */
export const request = {
  /** Keeps a text under a collection and a document, in the place of one that is there. */
  put: (collection, document, text) =>
    command(1, 'PUT', [...place(collection, document), bounded('text', text, TEXT_LIMIT)], readNothing, collection, document),
  /** Keeps the JSON text of a value. */
  putJson: (collection, document, value) => request.put(collection, document, toJson(value)),
  /** The text of a document. */
  get: (collection, document) => command(2, 'GET', place(collection, document), (payload) => Buffer.from(payload), collection, document),
  /** Removes a document. */
  remove: (collection, document) => command(3, 'REMOVE', place(collection, document), readNothing, collection, document),
  /** The names of a collection's documents. */
  list: (collection) => command(4, 'LIST', [collectionName(collection)], readNames, collection),
  /** The hits of a query in each document of a collection. */
  query: (collection, query) => question(collection, query, (payload) => [...new Hits(payload)]),
  /** The hits of a query, made one by one as they are asked for. */
  hits: (collection, query) => question(collection, query, (payload) => new Hits(payload)),
  /** The names of the documents in which a query has a hit. */
  documents: (collection, query) => question(collection, query, readDocuments),
  /** Removes a collection with all its documents. */
  drop: (collection) => command(6, 'DROP', [collectionName(collection)], readNothing, collection),
  /** What the tenant keeps. */
  usage: () => USAGE,
  /** Keeps a text under a collection and a document where no document is there. */
  putNew: (collection, document, text) =>
    command(8, 'PUT_NEW', [...place(collection, document), bounded('text', text, TEXT_LIMIT)], readNothing, collection, document),
};

/** The commands that change nothing, and may be sent again: GET, LIST, QUERY and USAGE. */
const READS = [2, 4, 5, 7];
/** The commands whose last field is a text or a query: PUT, QUERY and PUT_NEW. */
const WITH_TEXT = [1, 5, 8];

function command(code, name, fields, read, collection = '', document = '') {
  const bytes = Buffer.concat(fields);
  const text = WITH_TEXT.includes(code) ? bytes.subarray(bytes.length - fields.at(-1).length) : undefined;
  return { code, name, fields: bytes, read, collection, document, text };
}

/** Whether a command changes nothing, so that it may be sent again. */
export function isRead({ code }) {
  return READS.includes(code);
}

/** The command of a request, the names in it, and its text or query, for people. */
export function shown({ name, collection, document, text: put }) {
  const text = (given) => (typeof given === 'string' ? given : Buffer.from(given).toString());
  return { command: name, collection: text(collection), document: text(document), text: put };
}

function question(collection, query, read) {
  return command(5, 'QUERY', [collectionName(collection), bounded('query', query, QUERY_LIMIT)], read, collection);
}

const USAGE = command(7, 'USAGE', [], readUsage);

/** The bytes of a key: 32 hexadecimal digits of either case, or 16 bytes. */
export function keyBytes(key) {
  if (typeof key === 'string' && /^[0-9a-f]{32}$/i.test(key)) return Buffer.from(key, 'hex');
  if (key instanceof Uint8Array && key.length === KEY_BYTES) return Buffer.from(key);
  const what = typeof key === 'string' ? `a string of ${key.length} characters` : key instanceof Uint8Array ? `${key.length} bytes` : typeof key;
  throw new RangeError(`a key is ${2 * KEY_BYTES} hexadecimal digits, or ${KEY_BYTES} bytes, not ${what}: readKey(file) reads one`);
}

/** The bytes of a request's frame. */
export function lengthOf({ fields }) {
  return 9 + KEY_BYTES + fields.length;
}

/** Writes a request's frame into bytes at a place, and gives the bytes. */
export function writeFrame(bytes, at, key, number, { code, fields }) {
  bytes.writeUInt32BE(5 + KEY_BYTES + fields.length, at);
  bytes.writeUInt8(code, at + 4);
  bytes.writeUInt32BE(number, at + 5);
  bytes.set(key, at + 9);
  bytes.set(fields, at + 9 + KEY_BYTES);
  return bytes;
}

/** What a reply says of a request that was sent under a number: its value, or the status of its refusal. Throws where it is another's. */
export function outcome({ status, number, payload }, wanted, { read }) {
  if (status === FRAME_FAULT) throw new BrokenConnection('the server met a framing fault');
  if (number !== wanted) throw new BrokenConnection(`a reply has the number ${number} in the place of ${wanted}`);
  if (status === 0) return { value: read(payload) };
  if (payload.length > 0) throw new BrokenConnection('a refusal has a payload');
  return { status };
}

/** Cuts the bytes that come from the server into replies, however the pieces fall. */
export class Replies {
  #pieces = [];
  #length = 0;
  #wanted = 4;

  /** The replies that are whole with this piece, in order. Throws for a length that no reply has. */
  *feed(piece) {
    this.#pieces.push(piece);
    this.#length += piece.length;
    while (this.#length >= this.#wanted) {
      const bytes = this.#pieces.length === 1 ? this.#pieces[0] : Buffer.concat(this.#pieces);
      const length = bytes.readUInt32BE(0);
      if (length < 5 || length > REPLY_LIMIT) throw new BrokenConnection(`a reply's body has ${length} bytes`);
      const isWhole = bytes.length >= 4 + length;
      const rest = isWhole ? bytes.subarray(4 + length) : bytes;
      this.#pieces = [rest];
      this.#length = rest.length;
      this.#wanted = isWhole ? 4 : 4 + length;
      if (isWhole) yield { status: bytes[4], number: bytes.readUInt32BE(5), payload: bytes.subarray(9, 4 + length) };
    }
  }
}

function asBytes(what, text) {
  if (text instanceof Uint8Array) return Buffer.from(text);
  if (typeof text !== 'string') {
    const hint = what === 'text' ? ': putJson serializes it, or JSON.stringify' : '';
    throw new TypeError(`a ${what} is a string or bytes, not ${text === null ? 'null' : Array.isArray(text) ? 'an array' : typeof text}${hint}`);
  }
  if (/\p{Surrogate}/u.test(text)) throw new RangeError('a text with a lone surrogate has no UTF-8');
  return Buffer.from(text);
}

function name(what, text, limit) {
  const bytes = asBytes(`${what}'s name`, text);
  if (bytes.length > limit || !/^[A-Za-z0-9._-]+$/.test(bytes.toString('latin1')) || bytes.includes(10)) {
    throw new RangeError(`the name of a ${what} has 1 to ${limit} ASCII letters, digits, '.', '-' or '_', not '${bytes}'`);
  }
  return Buffer.concat([Buffer.of(bytes.length), bytes]);
}

const collectionName = (collection) => name('collection', collection, COLLECTION_LIMIT);

const place = (collection, document) => [collectionName(collection), name('document', document, DOCUMENT_LIMIT)];

function bounded(what, text, limit) {
  const bytes = asBytes(what, text);
  if (bytes.length > limit) throw new RangeError(`a ${what} has at most ${limit} bytes, not ${bytes.length}`);
  return bytes;
}

const UTF8 = new TextDecoder('utf-8', { fatal: true, ignoreBOM: true });

/** Reads the fields of a payload from the front. */
class Payload {
  #bytes;
  #at = 0;

  constructor(bytes) {
    this.#bytes = bytes;
  }

  take(count) {
    if (count > this.#bytes.length - this.#at) throw new BrokenConnection('a payload ends within a field');
    this.#at += count;
    return this.#bytes.subarray(this.#at - count, this.#at);
  }

  number() {
    return this.take(4).readUInt32BE(0);
  }

  text(count) {
    try {
      return UTF8.decode(this.take(count));
    } catch (fault) {
      throw fault instanceof BrokenConnection ? fault : new BrokenConnection('a name or path is not UTF-8');
    }
  }

  name() {
    return this.text(this.take(1)[0]);
  }

  list(read) {
    const items = [];
    for (let left = this.number(); left > 0; left -= 1) items.push(read());
    return items;
  }

  end(value) {
    if (this.#at !== this.#bytes.length) throw new BrokenConnection('a payload has bytes left over');
    return value;
  }
}

function readNothing(payload) {
  return new Payload(payload).end(undefined);
}

function readNames(payload) {
  const rest = new Payload(payload);
  return rest.end(rest.list(() => rest.name()));
}

/** The hits of a query in their order. Each is made of the reply when it is asked for, so that the whole is not copied. */
class Hits {
  #payload;

  constructor(payload) {
    this.#payload = payload;
    this.length = new Payload(payload).number();
  }

  *[Symbol.iterator]() {
    const rest = new Payload(this.#payload);
    for (let left = rest.number(); left > 0; left -= 1) {
      yield { document: rest.name(), path: rest.text(rest.number()), value: Buffer.from(rest.take(rest.number())) };
    }
    rest.end();
  }
}

/** The documents of a reply to a query, each once: a document's hits stand behind one another. */
function readDocuments(payload) {
  const rest = new Payload(payload);
  const names = [];
  for (let left = rest.number(); left > 0; left -= 1) {
    const name = rest.name();
    if (name !== names.at(-1)) names.push(name);
    rest.take(rest.number());
    rest.take(rest.number());
  }
  return rest.end(names);
}

function readUsage(payload) {
  const rest = new Payload(payload);
  return rest.end({ collections: rest.number(), documents: rest.number(), bytes: rest.number() });
}
