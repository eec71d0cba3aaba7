// JSON as the program reads it: numbers keep their text, objects are maps, and a fault tells its place.
export const MAX_NESTING = 127;

export class Numeral {
  constructor(text) {
    this.text = text;
  }

  // Whether it is a whole number within 2^53 - 1 that is written as one.
  isWhole() {
    return /^-?\d+$/.test(this.text) && this.text !== '-0' && Number.isSafeInteger(Number(this.text));
  }
}

export class JsonFault extends Error {
  constructor(what, at) {
    super(what);
    this.at = at;
  }
}

const ESCAPES = { '"': '"', '\\': '\\', '/': '/', b: '\b', f: '\f', n: '\n', r: '\r', t: '\t' };
const WORDS = [['null', null], ['true', true], ['false', false]];
const isLead = (code) => code >= 0xd800 && code < 0xdc00;
const isTrail = (code) => code >= 0xdc00 && code < 0xe000;

class Reader {
  constructor(text) {
    this.text = text;
    this.at = 0;
  }

  fault(what) {
    throw new JsonFault(what, this.at);
  }

  skip() {
    while (' \t\n\r'.includes(this.text[this.at] ?? 'x')) this.at += 1;
  }

  peek() {
    this.skip();
    return this.text[this.at];
  }

  take(wanted) {
    if (this.peek() !== wanted) this.fault(this.at < this.text.length ? `${JSON.stringify(this.text[this.at])} where ${wanted} is wanted` : `the end where ${wanted} is wanted`);
    this.at += 1;
  }

  value(depth) {
    const next = this.peek();
    if (next === '{' || next === '[') {
      if (depth === MAX_NESTING) this.fault(`nested deeper than ${MAX_NESTING} arrays and objects`);
      return next === '{' ? this.object(depth + 1) : this.array(depth + 1);
    }
    if (next === '"') return this.string();
    for (const [word, value] of WORDS) {
      if (this.text.startsWith(word, this.at)) {
        this.at += word.length;
        return value;
      }
    }
    return this.number();
  }

  number() {
    const found = /-?(?:0|[1-9]\d*)(?:\.\d+)?(?:[eE][+-]?\d+)?/y;
    found.lastIndex = this.at;
    const said = found.exec(this.text);
    if (!said) this.fault(this.at < this.text.length ? `${JSON.stringify(this.text[this.at])} where a value is wanted` : 'the end where a value is wanted');
    if (!Number.isFinite(Number(said[0]))) this.fault('a number that no float holds');
    this.at += said[0].length;
    return new Numeral(said[0]);
  }

  unit() {
    const digits = this.text.slice(this.at, this.at + 4);
    if (!/^[0-9a-fA-F]{4}$/.test(digits)) this.fault('an escape \\u without four hexadecimal digits');
    this.at += 4;
    return parseInt(digits, 16);
  }

  escape() {
    const letter = this.text[this.at];
    this.at += 1;
    if (letter !== 'u') return ESCAPES[letter] ?? this.fault('an unknown escape');
    const first = this.unit();
    if (isTrail(first)) this.fault('an escape of half a character (a lone surrogate)');
    if (!isLead(first)) return String.fromCharCode(first);
    if (!this.text.startsWith('\\u', this.at)) this.fault('an escape of half a character (a lone surrogate)');
    this.at += 2;
    const second = this.unit();
    if (!isTrail(second)) this.fault('an escape of half a character (a lone surrogate)');
    return String.fromCharCode(first, second);
  }

  string() {
    let found = '';
    this.at += 1;
    for (;;) {
      const from = this.at;
      while (this.at < this.text.length && this.text[this.at] >= ' ' && this.text[this.at] !== '"' && this.text[this.at] !== '\\') this.at += 1;
      found += this.text.slice(from, this.at);
      const stop = this.text[this.at];
      if (stop === undefined) this.fault('the end inside a string');
      if (stop < ' ') this.fault('a control character inside a string');
      this.at += 1;
      if (stop === '"') return found;
      found += this.escape();
    }
  }

  // What stands between brackets, with commas between.
  listed(close, one) {
    this.at += 1;
    if (this.peek() === close) {
      this.at += 1;
      return;
    }
    for (;;) {
      one();
      if (this.peek() === close) {
        this.at += 1;
        return;
      }
      this.take(',');
    }
  }

  array(depth) {
    const found = [];
    this.listed(']', () => found.push(this.value(depth)));
    return found;
  }

  object(depth) {
    const found = new Map();
    this.listed('}', () => {
      if (this.peek() !== '"') this.fault('a key that is no string');
      const key = this.string();
      this.take(':');
      found.set(key, this.value(depth));
    });
    return found;
  }
}

// The value that these bytes are, or a JsonFault.
export function parseJson(bytes) {
  let text;
  try {
    text = new TextDecoder('utf-8', { fatal: true, ignoreBOM: true }).decode(bytes);
  } catch {
    throw new JsonFault('bytes that are no UTF-8', 0);
  }
  const reader = new Reader(text);
  const value = reader.value(0);
  if (reader.peek() !== undefined) reader.fault('more behind the value');
  return { value, text };
}
