// Values as JSON texts, and back.

/** A number of a text with its own digits. In arithmetic it is the nearest number that JavaScript has. */
export class ExactNumber {
  constructor(text) {
    if (!/^-?(0|[1-9]\d*)(\.\d+)?([eE][+-]?\d+)?$/.test(text)) throw new RangeError(`not a number of JSON: ${text}`);
    this.text = text;
  }

  valueOf() {
    return Number(this.text);
  }

  toString() {
    return this.text;
  }

  toJSON() {
    return Number(this.text);
  }
}

/** The JSON text of a value. An ExactNumber and a BigInt keep their digits. Throws a TypeError for what has no JSON. */
export function toJson(value) {
  if (value instanceof ExactNumber || typeof value === 'bigint') return String(value);
  if (typeof value?.toJSON === 'function') return toJson(value.toJSON());
  if (value === null || typeof value === 'string' || typeof value === 'boolean' || Number.isFinite(value)) return JSON.stringify(value);
  if (Array.isArray(value)) return `[${value.map(toJson).join()}]`;
  if (typeof value !== 'object') throw new TypeError(`${String(value)} has no JSON`);
  const members = Object.entries(value).filter(([, item]) => item !== undefined);
  return `{${members.map(([name, item]) => `${JSON.stringify(name)}:${toJson(item)}`).join()}}`;
}

/** The value of a JSON text. If it is to be exact, its numbers are ExactNumbers. */
export function fromJson(text, exact) {
  return exact ? new Reading(text).value() : JSON.parse(text);
}

/** Reads a text that the server has taken, so that it is JSON. */
class Reading {
  #tokens;

  constructor(text) {
    this.#tokens = text.matchAll(/"(?:[^"\\]|\\.)*"|[-+\w.]+|[[\]{}]/g);
  }

  #next() {
    return this.#tokens.next().value[0];
  }

  value(token = this.#next()) {
    if (token === '[') return this.#items([], (items, item) => items.push(this.value(item)));
    if (token === '{') return this.#items({}, (members, name) => define(members, JSON.parse(name), this.value()));
    return /^[-\d]/.test(token) ? new ExactNumber(token) : JSON.parse(token);
  }

  #items(found, add) {
    for (let token = this.#next(); token !== ']' && token !== '}'; token = this.#next()) add(found, token);
    return found;
  }
}

/** A member as JSON.parse makes it: `__proto__` is a name like others. */
function define(members, name, value) {
  Object.defineProperty(members, name, { value, writable: true, enumerable: true, configurable: true });
}
