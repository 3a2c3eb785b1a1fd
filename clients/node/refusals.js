// What goes wrong: the statuses of docs/PROTOCOL.md with a class for each, connections that break, and calls that take too long.

import { findPlace } from './places.js';

/** Bytes of a text, at most, whose place stands in the message too: finding that of a text of megabytes takes long. */
const TOLD_BYTES = 65_536;

/** The server answered with a status other than Ok. Each status has a class of its name below this one. */
export class Refused extends Error {
  /** The number of the status. */
  status;
  /** What the status says, and what to do about it. */
  sentence;
  /** What was refused: the command, and the collection and the document that it named, or ''. */
  command;
  collection;
  document;

  /** The text that was put or the query, and where it is refused once that was asked for. */
  #text;
  #place;

  constructor(status, name, sentence, { command = '', collection = '', document = '', text } = {}) {
    const target = [collection, document].filter(Boolean).join('/');
    const about = [command, target].filter(Boolean).join(' ');
    const place = text?.length <= TOLD_BYTES ? findPlace(text, name) : undefined;
    super((about ? `${sentence} (${about})` : sentence) + (place ? `\n${place}` : ''));
    Object.assign(this, { status, name, sentence, command, collection, document });
    this.#place = place;
    this.#text = text?.length > TOLD_BYTES ? text : undefined;
  }

  /** Where the text or the query is refused, if it is refused for what stands in it: byte, line, column, expected, message. */
  get place() {
    if (this.#text) this.#place = findPlace(this.#text, this.name);
    this.#text = undefined;
    return this.#place;
  }

  /** The line of the place, counted from 1. */
  get line() {
    return this.place?.line;
  }

  /** The column of the place in characters, counted from 1. */
  get column() {
    return this.place?.column;
  }

  /** What may stand at the place. */
  get expected() {
    return this.place?.expected;
  }
}

function refusal(status, name, sentence) {
  const kind = class extends Refused {
    constructor(asked) {
      super(status, name, sentence, asked);
    }
  };
  Object.defineProperty(kind, 'name', { value: name });
  CLASSES.set(status, kind);
  return kind;
}

/** The class of each status that a reply may have. */
const CLASSES = new Map();
export const Short = refusal(1, 'Short', 'server and client disagree about the protocol: use the same version of both');
export const NoTenant = refusal(2, 'NoTenant', 'the server has no tenant with the key');
export const BadCommand = refusal(3, 'BadCommand', 'the server is older than this client');
export const BadFields = refusal(4, 'BadFields', 'server and client disagree about names: use the same version of both');
export const TooLong = refusal(5, 'TooLong', 'a text has at most 4194304 bytes');
export const NotUtf8 = refusal(6, 'NotUtf8', 'the text is not UTF-8');
export const NotJson = refusal(7, 'NotJson', 'the text is not JSON (RFC 8259)');
export const TooDeep = refusal(8, 'TooDeep', 'a text has at most 256 levels of arrays and objects');
export const NumberLimit = refusal(9, 'NumberLimit', 'a number has at most 256 bytes, and an exponent up to 999999999');
export const LoneSurrogate = refusal(10, 'LoneSurrogate', 'an escape has half of a surrogate pair alone');
export const DuplicateName = refusal(11, 'DuplicateName', 'an object has the same name twice');
export const TooManyCollections = refusal(12, 'TooManyCollections', 'a tenant has at most 16 collections: drop one');
export const TooManyDocuments = refusal(13, 'TooManyDocuments', 'a tenant has at most 1000 documents: remove some');
export const TooManyBytes = refusal(14, 'TooManyBytes', "a tenant's texts have at most 16777216 bytes together: remove some");
export const NotFound = refusal(15, 'NotFound', 'there is no such document or collection');
export const QueryTooLong = refusal(16, 'QueryTooLong', 'a query has at most 4096 bytes');
export const NotWellFormed = refusal(17, 'NotWellFormed', 'the query is not well-formed (RFC 9535, section 2.1)');
export const NotValid = refusal(18, 'NotValid', 'the query is not valid (RFC 9535, section 2.1)');
export const ReplyTooLarge = refusal(20, 'ReplyTooLarge', 'the reply would have more than 8388608 bytes: ask for fewer hits');
export const NoMemory = refusal(21, 'NoMemory', 'the server ran out of memory and changed nothing: try again');
export const Costly = refusal(22, 'Costly', 'the query costs more than 10000000 units: ask for less');
export const Exists = refusal(23, 'Exists', 'the document exists: put replaces it');
/** Costly, by the name that reads well behind `instanceof`. */
export const TooCostly = Costly;

/** The connection ended, or what came over it is not a reply. A request that was on its way may have been carried out. */
export class BrokenConnection extends Error {
  name = 'BrokenConnection';
}

/** The connection ended before the reply came. A call that reads is sent again once; this is then its second end. */
export class LostConnection extends BrokenConnection {
  name = 'LostConnection';
}

/** No reply came in time. The request may have been carried out. */
export class TimedOut extends BrokenConnection {
  name = 'TimedOut';
}

/** The Refused of a status for a request. */
export function refused(status, request) {
  const kind = CLASSES.get(status);
  return kind ? new kind(request) : new Refused(status, `Status${status}`, 'the server is newer than this client', request);
}
