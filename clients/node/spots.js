// A place as people count it, and what the finders for texts and for queries have in common.
export const NUMBER_FRONT = /-?(?:(?:0|[1-9][0-9]*)(?:\.(?:[0-9]+(?:[eE][+-]?[0-9]*)?)?|[eE][+-]?[0-9]*)?)?/y;
export const NUMBER = /^-?(?:0|[1-9][0-9]*)(?:\.[0-9]+)?(?:[eE][+-]?[0-9]+)?$/;

// The bytes before a place, its line and column (counted from 1, a column is a character), what is said of it, and what may stand there, if
// something else was found.
export class Place {
  constructor(byte, line, column, message, expected) {
    Object.assign(this, { byte, line, column, message, expected });
  }

  toString() {
    return `line ${this.line}, column ${this.column} (byte ${this.byte}): ${this.message}`;
  }
}

// From this unit on the text does not follow its grammar.
export class Stop {
  constructor(at, expected) {
    Object.assign(this, { at, expected });
  }
}

// Where a pattern that may be empty ends.
export function end(pattern, text, at) {
  pattern.lastIndex = at;
  pattern.test(text);
  return pattern.lastIndex;
}

export function isBeyond(number) {
  const exponent = /[eE][+-]?([0-9]+)/.exec(number);
  return number.length > 256 || (exponent !== null && BigInt(exponent[1]) > 999999999n);
}

function foundAt(bytes, at) {
  if (at >= bytes.length) return 'the end of the text';
  const byte = bytes[at];
  return byte >= 0x20 && byte < 0x7F ? `'${String.fromCharCode(byte)}'` : `byte 0x${byte.toString(16).padStart(2, '0')}`;
}

function spot(bytes, at) {
  let line = 1;
  let column = 1;
  for (let k = 0; k < at && k < bytes.length; k += 1) {
    if (bytes[k] === 0x0A) {
      line += 1;
      column = 1;
    } else if ((bytes[k] & 0xC0) !== 0x80) {
      column += 1;
    }
  }
  return [at, line, column];
}

export function rulePlace(bytes, at, rule) {
  return new Place(...spot(bytes, at), rule);
}

export function expectedPlace(bytes, at, expected) {
  return new Place(...spot(bytes, at), `expected ${expected}, found ${foundAt(bytes, at)}`, expected);
}

// How many of these bytes are the longest front in UTF-8 (RFC 3629, section 4).
export function utf8Front(bytes) {
  let at = 0;
  while (at < bytes.length) {
    const first = bytes[at];
    const length = first < 0x80 ? 1 : first >= 0xC2 && first <= 0xDF ? 2 : first >= 0xE0 && first <= 0xEF ? 3 : first >= 0xF0 && first <= 0xF4 ? 4 : 0;
    if (length === 0 || at + length > bytes.length) return at;
    const low = { 0xE0: 0xA0, 0xF0: 0x90 }[first] ?? 0x80;
    const high = { 0xED: 0x9F, 0xF4: 0x8F }[first] ?? 0xBF;
    for (let more = 1; more < length; more += 1) {
      const byte = bytes[at + more];
      if (byte < (more === 1 ? low : 0x80) || byte > (more === 1 ? high : 0xBF)) return at;
    }
    at += length;
  }
  return at;
}

export function decoded(bytes) {
  return new TextDecoder('utf-8', { ignoreBOM: true }).decode(bytes);
}
