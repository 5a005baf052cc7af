// JSON read exactly. A whole number of 64 bits is a BigInt; any other number is an `Inexact`, with its text; an object
// has no prototype, and of a key that is given twice the last value. It refuses what the program's reader refuses.

const MOST_DEPTH = 127;
const WORDS = [["true", true], ["false", false], ["null", null]];
const NUMBER = /-?(?:0|[1-9][0-9]*)(\.[0-9]+)?([eE][+-]?[0-9]+)?/y;
const PLAIN = /[^"\\\u0000-\u001f]*/y;

export class JsonFault extends Error {
  constructor(sentence, text, at) {
    const before = text.slice(0, at).split("\n");
    super(`${sentence}, in line ${before.length}, column ${before.at(-1).length + 1}`);
    this.sentence = sentence;
    this.line = before.length;
    this.column = before.at(-1).length + 1;
  }
}

/** A number with a point or an exponent, or one beyond 64 bits. */
export class Inexact {
  constructor(text) {
    this.text = text;
  }
}

export function isObject(tree) {
  return typeof tree === "object" && tree !== null && !Array.isArray(tree) && !(tree instanceof Inexact);
}

/** The text of some bytes in UTF-8; a text as it is. */
function textOf(data) {
  if (typeof data === "string") return data;
  try {
    return new TextDecoder("utf-8", { fatal: true, ignoreBOM: true }).decode(data);
  } catch {
    throw new JsonFault("it isn't UTF-8", "", 0);
  }
}

export function parseJson(data) {
  return new Reader(textOf(data)).document();
}

/** A tree, and the keys that stand twice in an object, each with the place of the first such object, as "game.sparse,
 * item 2": a reader may see one, and a program counts the other. */
export function readJson(data) {
  const reader = new Reader(textOf(data)), tree = reader.document();
  return { tree, doubles: [...reader.doubles].map(([key, place]) => ({ key, place })) };
}

class Reader {
  constructor(text) {
    this.text = text;
    this.at = 0;
    this.doubles = new Map();
    this.path = [];
  }

  document() {
    const tree = this.value(0);
    this.skipBlanks();
    if (this.at < this.text.length) this.fail("something stands behind the document");
    return tree;
  }

  fail(sentence, at = this.at) {
    throw new JsonFault(sentence, this.text, at);
  }

  skipBlanks() {
    for (;;) {
      const code = this.text.charCodeAt(this.at);
      if (code !== 32 && code !== 10 && code !== 13 && code !== 9) return;
      this.at += 1;
    }
  }

  value(depth) {
    this.skipBlanks();
    const first = this.text[this.at];
    if (first === "{") return this.object(depth + 1);
    if (first === "[") return this.array(depth + 1);
    if (first === '"') return this.string();
    for (const [word, value] of WORDS) {
      if (first === word[0] && this.text.startsWith(word, this.at)) {
        this.at += word.length;
        return value;
      }
    }
    return this.number();
  }

  object(depth) {
    const tree = Object.create(null);
    this.items(depth, "}", () => {
      this.skipBlanks();
      if (this.text[this.at] !== '"') this.fail("a key in double quotes is missing");
      const key = this.string();
      this.skipBlanks();
      if (this.text[this.at] !== ":") this.fail("a colon is missing");
      this.at += 1;
      if (key in tree && !this.doubles.has(key)) this.doubles.set(key, this.place());
      this.path.push(key);
      tree[key] = this.value(depth);
      this.path.pop();
    });
    return tree;
  }

  array(depth) {
    const tree = [];
    this.path.push(0);
    this.items(depth, "]", () => {
      this.path[this.path.length - 1] = tree.length + 1;
      tree.push(this.value(depth));
    });
    this.path.pop();
    return tree;
  }

  /** Where it reads, in words. */
  place() {
    const text = this.path.map((part) => (typeof part === "number" ? `, item ${part}` : `.${part}`)).join("");
    return text.replace(/^(\.|, )/, "") || "the document";
  }

  /** What stands between brackets, with commas between. */
  items(depth, end, readItem) {
    if (depth > MOST_DEPTH) this.fail("it is nested deeper than 127");
    this.at += 1;
    this.skipBlanks();
    if (this.text[this.at] !== end) {
      for (;;) {
        readItem();
        this.skipBlanks();
        if (this.text[this.at] !== ",") break;
        this.at += 1;
      }
    }
    if (this.at >= this.text.length) this.fail("it ends too early");
    if (this.text[this.at] !== end) this.fail(`a comma or ${end} is missing`);
    this.at += 1;
  }

  string() {
    const start = (this.at += 1);
    let read = "";
    for (;;) {
      PLAIN.lastIndex = this.at;
      read += PLAIN.exec(this.text)[0];
      this.at = PLAIN.lastIndex;
      const next = this.text[this.at];
      if (next === '"') break;
      if (next === undefined) this.fail("a text has no end", start - 1);
      if (next !== "\\") this.fail("a text has a line end or another control character");
      read += this.escape();
    }
    this.at += 1;
    if (/\p{Surrogate}/u.test(read)) this.fail("a text has half of a character", start);
    return read;
  }

  escape() {
    const simple = { '"': '"', "\\": "\\", "/": "/", b: "\b", f: "\f", n: "\n", r: "\r", t: "\t" };
    const letter = this.text[this.at + 1];
    if (letter === "u") {
      const digits = this.text.slice(this.at + 2, this.at + 6);
      if (!/^[0-9a-fA-F]{4}$/.test(digits)) this.fail("\\u has four hexadecimal digits behind it");
      this.at += 6;
      return String.fromCharCode(parseInt(digits, 16));
    }
    if (!(letter in simple)) this.fail("there is no such escape");
    this.at += 2;
    return simple[letter];
  }

  number() {
    NUMBER.lastIndex = this.at;
    const found = NUMBER.exec(this.text);
    if (!found) this.fail(this.at < this.text.length ? "a value is missing" : "it ends too early");
    const [text, point, exponent] = found;
    if (!Number.isFinite(Number(text))) this.fail("a number is too large");
    this.at = NUMBER.lastIndex;
    if (!point && !exponent && text.length < 16 && text !== "-0") return BigInt(text);
    if (point || exponent || text === "-0" || text.length > 20) return new Inexact(text);
    const value = BigInt(text);
    return BigInt.asIntN(64, value) === value ? value : new Inexact(text);
  }
}

/** A tree as compact JSON, with its keys in their order. */
export function writeJson(tree) {
  if (typeof tree === "bigint") return String(tree);
  if (tree instanceof Inexact) return tree.text;
  if (Array.isArray(tree)) return `[${tree.map(writeJson).join(",")}]`;
  if (isObject(tree)) {
    return `{${Object.keys(tree).map((key) => `${JSON.stringify(key)}:${writeJson(tree[key])}`).join(",")}}`;
  }
  return JSON.stringify(tree);
}

/** The path to the first difference of two trees, as ["game", "costs", 2]; null where there is none. */
export function firstDifference(one, other) {
  if (Array.isArray(one) && Array.isArray(other)) {
    for (let i = 0; i < Math.max(one.length, other.length); i++) {
      const path = i < one.length && i < other.length ? firstDifference(one[i], other[i]) : [];
      if (path) return [i, ...path];
    }
    return null;
  }
  if (isObject(one) && isObject(other)) {
    for (const key of [...new Set([...Object.keys(one), ...Object.keys(other)])].sort()) {
      const path = key in one && key in other ? firstDifference(one[key], other[key]) : [];
      if (path) return [key, ...path];
    }
    return null;
  }
  const isSame = one instanceof Inexact && other instanceof Inexact ? one.text === other.text : one === other;
  return isSame ? null : [];
}
