// Where a query is refused: at the end of the longest front with which some JSONPath query (RFC 9535, section 2.1.1) begins, or at the first part that
// breaks a rule.
import { NUMBER, NUMBER_FRONT, Stop, decoded, end, expectedPlace, isBeyond, rulePlace, utf8Front } from './spots.js';

// Stands behind the last unit. No query has it.
const END = '\0';
const LEVEL_LIMIT = 32;
const LEVEL_RULE = `level ${LEVEL_LIMIT + 1}, at most ${LEVEL_LIMIT} are read`;
const WHOLE_LIMIT = 9_007_199_254_740_991n;
const BLANKS = /[ \t\n\r]*/y;
const NAME = /(?:[A-Za-z_\x80-\uFFFF][0-9A-Za-z_\x80-\uFFFF]*)?/y;
const WORD = /(?:[a-z][a-z0-9_]*)?/y;
const WHOLE = /(?:-?[1-9][0-9]*|0)?/y;
const PLAIN = { '"': /[^\\\x00-\x1f"]*/y, "'": /[^\\\x00-\x1f']*/y };
const HEXADECIMAL = '0123456789ABCDEFabcdef';
const COMPARED = ['literal', 'singular', 'function'];
// What may stand first, behind `!`, and behind the sign of a comparison.
const OPERANDS = { '': "'@', '$', a literal, a function, '!' or '('", '!': "'@', '$', a function or '('", '==': "'@', '$', a literal or a function" };
const BEHIND = { filter: ',]', parenthesis: ')', call: ',)' };
const JOINED = { filter: "'&&', '||', ',' or ']'", parenthesis: "'&&', '||' or ')'", call: "'&&', '||', ',' or ')'" };
const QUERY_RULE = 'the argument is a query';
// What a function's argument may be, and the rule that others break.
const ARGUMENTS = {
  length: [COMPARED, 'the argument is a literal, a query of names and indexes, or a function'],
  count: [['singular', 'query'], QUERY_RULE],
  value: [['singular', 'query'], QUERY_RULE],
};

// Reads a query. Each method reads a part, and throws a Stop at a unit that cannot stand.
class Reader {
  at = 0;
  levels = 0;
  // The first part that breaks a rule, and the rule.
  broken;

  constructor(text) {
    this.text = text + END;
  }

  get sign() {
    return this.text[this.at];
  }

  get isAtEnd() {
    return this.at === this.text.length - 1;
  }

  take(signs, expected) {
    const { sign } = this;
    if (!signs.includes(sign)) throw new Stop(this.at, expected);
    this.at += 1;
    return sign;
  }

  read(pattern) {
    const start = this.at;
    this.at = end(pattern, this.text, start);
    return this.text.slice(start, this.at);
  }

  openLevel() {
    if (this.levels === LEVEL_LIMIT) throw new Stop(this.at);
    this.levels += 1;
    this.at += 1;
  }

  breaks(at, rule) {
    if (!this.broken || at < this.broken.at) this.broken = { at, rule };
  }

  query() {
    this.take('$', "'$'");
    this.segments({ isWhole: true });
  }

  // The segments of the whole query, or of one in a filter: what such an operand is. One that is bound selects a node at most.
  segments({ isWhole = false, isBound = false }) {
    let isSingular = true;
    for (;;) {
      const isBlank = this.read(BLANKS) !== '';
      if (this.sign === '[') {
        isSingular = this.brackets(isBound) && isSingular;
      } else if (this.sign === '.') {
        isSingular = this.dots(isBound) && isSingular;
      } else if (this.isAtEnd && !isWhole) {
        throw new Stop(this.at, "'.', '[' or what follows a query in a filter");
      } else if (isWhole && (isBlank || !this.isAtEnd)) {
        throw new Stop(this.at, isBlank ? "'.' or '['" : "'.', '[' or the end of the query");
      } else {
        return isSingular ? 'singular' : 'query';
      }
    }
  }

  // A segment that begins with a dot: whether it is a name.
  dots(isBound) {
    this.at += 1;
    if (this.read(NAME)) return true;
    if (isBound) throw new Stop(this.at, 'a name');
    if (this.take('*.', "a name, '*' or '.'") === '.' && !this.read(NAME)) {
      if (this.sign === '[') this.brackets(isBound);
      else this.take('*', "a name, '*' or '['");
    }
    return false;
  }

  // Selectors in brackets: whether they are one name or one index.
  brackets(isBound) {
    let isSingle = true;
    for (;;) {
      this.at += 1;
      this.read(BLANKS);
      if ('\'"'.includes(this.sign)) {
        this.string();
      } else if ('-0123456789'.includes(this.sign) || (this.sign === ':' && !isBound)) {
        isSingle = this.index(isBound) && isSingle;
      } else if (isBound) {
        throw new Stop(this.at, 'a name in quotes or an index');
      } else if (this.sign === '?') {
        isSingle = false;
        this.openLevel();
        this.expression('filter');
        this.levels -= 1;
      } else {
        isSingle = false;
        this.take('*', "a name in quotes, a number, ':', '*' or '?'");
      }
      this.read(BLANKS);
      if (this.sign === ']') {
        this.at += 1;
        return isSingle;
      }
      if (isBound || this.sign !== ',') throw new Stop(this.at, isBound ? "']'" : "',' or ']'");
      isSingle = false;
    }
  }

  // An index or a slice: whether it is an index.
  index(isBound) {
    for (let part = 0; ; part += 1) {
      const start = this.at;
      const number = this.read(WHOLE);
      if (!number && this.sign === '-') throw new Stop(start + 1, 'a digit from 1 to 9');
      if (BigInt(number.replace('-', '')) > WHOLE_LIMIT) this.breaks(start, `an index is between -${WHOLE_LIMIT} and ${WHOLE_LIMIT}`);
      this.read(BLANKS);
      if (',]'.includes(this.sign)) return part === 0;
      if (isBound) throw new Stop(this.at, "']'");
      if (part === 2 || this.sign !== ':') throw new Stop(this.at, `${number ? '' : 'a number, '}${part < 2 ? "':', " : ''}',' or ']'`);
      this.at += 1;
      this.read(BLANKS);
    }
  }

  string() {
    const quote = this.sign;
    this.at += 1;
    this.read(PLAIN[quote]);
    while (this.take(`${quote}\\`, 'a character or the closing quote') === '\\') {
      if (this.take(`bfnrt/\\u${quote}`, 'an escape') === 'u') this.unit();
      this.read(PLAIN[quote]);
    }
  }

  // The digits of an escape. The first half of a surrogate pair is followed by the second one.
  unit() {
    if (!'Dd'.includes(this.digit())) {
      this.digit();
    } else if ('89ABab'.includes(this.take('0123456789ABab', 'a digit of a character, or of the first half of a pair'))) {
      this.digit();
      this.digit();
      for (const signs of ['\\', 'u', 'Dd', 'CDEFcdef']) this.take(signs, 'the second half of a surrogate pair');
    }
    this.digit();
    this.digit();
  }

  digit() {
    return this.take(HEXADECIMAL, 'four hexadecimal digits');
  }

  // What stands in a filter, a parenthesis or a call, up to the sign behind it: what it is as an argument.
  expression(around) {
    let side = '';
    let isPlain = true;
    for (;;) {
      this.read(BLANKS);
      const start = this.at;
      if (this.sign === '!' && !side) {
        [side, isPlain] = ['!', false];
        this.at += 1;
        continue;
      }
      isPlain = isPlain && this.sign !== '(';
      const operand = this.operand(side);
      this.read(BLANKS);
      const { sign } = this;
      const isArgument = isPlain && around === 'call';
      const isCompared = !side && COMPARED.includes(operand);
      if ('=!<>'.includes(sign) && isCompared) {
        [side, isPlain] = ['==', false];
        this.comparison();
        continue;
      }
      const isLiteral = operand === 'literal' && !side;
      const isJoined = '&|'.includes(sign);
      if ((!isJoined && !BEHIND[around].includes(sign)) || (isLiteral && (isJoined || !isArgument))) {
        const left = isArgument ? "a comparison, ',' or ')'" : 'a comparison';
        throw new Stop(this.at, isLiteral ? left : (isCompared ? 'a comparison, ' : '') + JOINED[around]);
      }
      if (operand === 'function' && side !== '==' && (isJoined || !isArgument)) this.breaks(start, 'a function is no test: compare its value');
      if (!isJoined) return isPlain ? operand : 'group';
      this.at += 1;
      this.take(sign, `'${sign}'`);
      [side, isPlain] = ['', false];
    }
  }

  comparison() {
    if ('=!'.includes(this.take('=!<>'))) this.take('=', "'='");
    else if (this.isAtEnd) throw new Stop(this.at, "'=', '@', '$', a literal or a function");
    else if (this.sign === '=') this.at += 1;
  }

  operand(side) {
    const start = this.at;
    const word = this.read(WORD);
    if (word) return this.word(start, word, side);
    if ('@$'.includes(this.sign)) {
      this.at += 1;
      return this.segments({ isBound: side === '==' });
    }
    if (this.sign === '(' && side !== '==') {
      this.openLevel();
      this.expression('parenthesis');
      this.levels -= 1;
      this.at += 1;
      return 'group';
    }
    if ('\'"'.includes(this.sign) && side !== '!') {
      this.string();
      return 'literal';
    }
    const number = side === '!' ? '' : this.read(NUMBER_FRONT);
    if (!number) throw new Stop(start, OPERANDS[side]);
    if (!NUMBER.test(number)) throw new Stop(this.at, 'a digit');
    if (isBeyond(number)) this.breaks(start, 'a number has at most 256 bytes and an exponent of at most 999999999');
    return 'literal';
  }

  word(start, word, side) {
    if (this.sign === '(') {
      this.openLevel();
      if (word === 'match' || word === 'search') this.breaks(start, 'match and search are not in this server');
      else if (!Object.hasOwn(ARGUMENTS, word)) this.breaks(start, 'the functions are length, count and value');
      this.arguments(word);
      this.levels -= 1;
      return 'function';
    }
    if (['true', 'false', 'null'].includes(word) && side !== '!' && !this.isAtEnd) return 'literal';
    throw new Stop(this.at, "true, false, null, or a function with its '('");
  }

  arguments(name) {
    this.read(BLANKS);
    if (this.isAtEnd) throw new Stop(this.at, "an argument or ')'");
    const [kinds, rule] = Object.hasOwn(ARGUMENTS, name) ? ARGUMENTS[name] : [];
    let start = this.at;
    for (let number = 1; this.sign !== ')' || number > 1; number += 1) {
      const kind = this.expression('call');
      if (number > 1) this.breaks(start, 'a function has one argument');
      if (kinds && !kinds.includes(kind)) this.breaks(start, rule);
      if (this.take(',)') === ')') return;
      start = this.at;
    }
    this.breaks(start, 'a function has one argument');
    this.at += 1;
  }
}

// What stops a reader, if anything does.
function stopOf(reader) {
  try {
    reader.query();
  } catch (stop) {
    if (stop instanceof Stop) return stop;
    throw stop;
  }
  return undefined;
}

// The place at which a query is refused as NotWellFormed or NotValid. undefined if it is not.
export function queryPlace(bytes, refusal) {
  const front = utf8Front(bytes);
  const whole = decoded(bytes.subarray(0, front));
  const byteAt = (at) => Buffer.byteLength(whole.slice(0, at), 'utf8');
  const reader = new Reader(whole);
  const stop = stopOf(reader);
  if (refusal === 'NotValid') {
    return stop || !reader.broken ? undefined : rulePlace(bytes, byteAt(reader.broken.at), reader.broken.rule);
  }
  if (front < bytes.length && (!stop || stop.at === whole.length)) return expectedPlace(bytes, front, 'UTF-8');
  if (!stop) return undefined;
  return stop.expected ? expectedPlace(bytes, byteAt(stop.at), stop.expected) : rulePlace(bytes, byteAt(stop.at), LEVEL_RULE);
}
