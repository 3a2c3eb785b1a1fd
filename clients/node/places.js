// Where a text or a query is refused. The server says which refusal applies and not where, so that it reads fast; whoever holds the text finds the
// place:
//
//     const place = findPlace(text, 'NotJson');
//     String(place); // line 3, column 1 (byte 24): expected a name in double quotes, found '}'
//     place.byte; // 24
//
// A place of NotJson is the end of the longest front with which some JSON text (RFC 8259) begins, and one of NotWellFormed that of a query (RFC 9535).
import { queryPlace } from './query_places.js';
import { NUMBER, NUMBER_FRONT, Stop, decoded, end, expectedPlace, isBeyond, rulePlace, utf8Front } from './spots.js';

export { Place } from './spots.js';

const BLANKS = /[ \t\n\r]*/y;
const STRING = /"(?:[^"\\\x00-\x1f]+|\\(?:["\\/bfnrt]|u[0-9A-Fa-f]{4}))*/y;
const ESCAPE = /\\(?:u[0-9A-Fa-f]{0,3})?/y;
const UNIT = /\\u([0-9A-Fa-f]{4})|\\[^]|[^\\]/g;
const SHORT = { b: '\b', f: '\f', n: '\n', r: '\r', t: '\t' };
const DEPTH_LIMIT = 256;
// The refusals that have a place.
const OF_TEXTS = ['NotUtf8', 'NotJson', 'TooDeep', 'NumberLimit', 'LoneSurrogate', 'DuplicateName'];
const OF_QUERIES = ['NotWellFormed', 'NotValid'];
const NUMBER_RULE = 'a number of more than 256 bytes, or with an exponent above 999999999';

// The tokens of a text with the units between which they stand.
function* tokens(text) {
  const opens = [];
  let at = 0;
  let wants = 'a value';
  for (;;) {
    at = end(BLANKS, text, at);
    const sign = text.charAt(at);
    if (wants === 'a value' || wants === "a value or ']'") {
      if (sign === ']' && wants !== 'a value') {
        opens.pop();
        yield [sign, at, at + 1];
        at += 1;
        wants = 'behind';
      } else if (sign === '[' || sign === '{') {
        yield [sign, at, at + 1];
        opens.push(sign === '[' ? ']' : '}');
        at += 1;
        wants = sign === '[' ? "a value or ']'" : "a name in double quotes or '}'";
      } else {
        const [kind, behind] = scalar(text, at, wants);
        yield [kind, at, behind];
        at = behind;
        wants = 'behind';
      }
    } else if (wants === "':'") {
      if (sign !== ':') throw new Stop(at, wants);
      at += 1;
      wants = 'a value';
    } else if (wants === 'behind') {
      const close = opens[opens.length - 1];
      if (!opens.length) {
        if (sign) throw new Stop(at, 'the end of the text');
        return;
      }
      if (sign === ',') {
        wants = close === ']' ? 'a value' : 'a name in double quotes';
      } else if (sign === close) {
        opens.pop();
        yield [sign, at, at + 1];
      } else {
        throw new Stop(at, `',' or '${close}'`);
      }
      at += 1;
    } else if (sign === '}' && wants.endsWith("'}'")) {
      opens.pop();
      yield [sign, at, at + 1];
      at += 1;
      wants = 'behind';
    } else if (sign === '"') {
      const behind = stringEnd(text, at);
      yield ['name', at, behind];
      at = behind;
      wants = "':'";
    } else {
      throw new Stop(at, wants);
    }
  }
}

// What a number, a string or a word is, and where it ends.
function scalar(text, at, wants) {
  const sign = text.charAt(at);
  if (sign === '"') return ['string', stringEnd(text, at)];
  for (const word of ['true', 'false', 'null']) {
    if (sign !== word[0]) continue;
    for (let more = 0; more < word.length; more += 1) {
      if (text.charAt(at + more) !== word[more]) throw new Stop(at + more, `'${word[more]}'`);
    }
    return ['word', at + word.length];
  }
  const behind = end(NUMBER_FRONT, text, at);
  if (behind === at) throw new Stop(at, wants);
  if (!NUMBER.test(text.slice(at, behind))) throw new Stop(behind, 'a digit');
  return ['number', behind];
}

function stringEnd(text, at) {
  const stop = end(STRING, text, at);
  const sign = text.charAt(stop);
  if (sign === '"') return stop + 1;
  if (sign !== '\\') throw new Stop(stop, "a character or '\"'");
  const behind = end(ESCAPE, text, stop);
  throw new Stop(behind, behind === stop + 1 ? 'an escape' : 'four hexadecimal digits');
}

// What the characters of a string mean, as units of UTF-16, with their places.
function units(text, start, stop) {
  const found = [];
  for (const it of text.slice(start + 1, stop - 1).matchAll(UNIT)) {
    const letter = it[0].charAt(it[0].length - 1);
    const plain = it[0].length > 1 ? SHORT[letter] ?? letter : letter;
    const unit = it[1] ? parseInt(it[1], 16) : plain.charCodeAt(0);
    found.push([start + 1 + it.index, unit]);
  }
  return found;
}

function isHigh(unit) {
  return unit >= 0xD800 && unit <= 0xDBFF;
}

function isLow(unit) {
  return unit >= 0xDC00 && unit <= 0xDFFF;
}

function lone(text, start, stop) {
  const all = units(text, start, stop);
  for (let k = 0; k < all.length; k += 1) {
    const [at, unit] = all[k];
    const pairs = k + 1 < all.length && isLow(all[k + 1][1]);
    if (isLow(unit) || (isHigh(unit) && !pairs)) return at;
    if (isHigh(unit)) k += 1;
  }
  return undefined;
}

// The place at which a text or a query, a string or bytes, is refused for this reason, by the status's name. undefined if it is not, or where there
// is no place.
export function findPlace(text, refusal) {
  const bytes = typeof text === 'string' ? Buffer.from(text, 'utf8') : Buffer.from(text);
  if (OF_QUERIES.includes(refusal)) return queryPlace(bytes, refusal);
  if (!OF_TEXTS.includes(refusal)) return undefined;
  const front = utf8Front(bytes);
  if (front < bytes.length) return refusal === 'NotUtf8' ? expectedPlace(bytes, front, 'UTF-8') : undefined;
  const whole = decoded(bytes);
  const byteAt = (at) => Buffer.byteLength(whole.slice(0, at), 'utf8');
  const made = (at, message) => rulePlace(bytes, byteAt(at), message);
  const names = [];
  try {
    for (const [kind, start, stop] of tokens(whole)) {
      if (kind === '[' || kind === '{') {
        names.push(new Map());
        if (refusal === 'TooDeep' && names.length > DEPTH_LIMIT) return made(start, `level ${DEPTH_LIMIT + 1}, at most ${DEPTH_LIMIT} are read`);
      } else if (kind === ']' || kind === '}') {
        names.pop();
      } else if (kind === 'number') {
        if (refusal === 'NumberLimit' && isBeyond(whole.slice(start, stop))) return made(start, NUMBER_RULE);
      } else if (refusal === 'LoneSurrogate' && kind !== 'word') {
        const at = lone(whole, start, stop);
        if (at !== undefined) return made(at, 'a surrogate without its partner');
      } else if (refusal === 'DuplicateName' && kind === 'name') {
        const meaning = units(whole, start, stop).map(([, unit]) => unit).join();
        const seen = names[names.length - 1];
        if (seen.has(meaning)) {
          const first = String(made(seen.get(meaning), '')).slice(0, -2);
          return made(start, `the name ${whole.slice(start, stop)} again, first at ${first}`);
        }
        seen.set(meaning, start);
      }
    }
  } catch (stop) {
    if (!(stop instanceof Stop)) throw stop;
    if (refusal === 'NotJson') return expectedPlace(bytes, byteAt(stop.at), stop.expected);
  }
  return undefined;
}
