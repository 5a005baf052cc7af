// A line that came by mail and can’t be read: what has happened to it, and the line without that.
import { parseJson } from "../exact/json.js";
import { withEscapes } from "../game/names.js";
import { listed, plural } from "../game/words.js";

const MARKS = /[\ufeff\u200b\u200e\u200f\u2060]/g; // that programs put in front, or between, and nobody sees
const HARD = /\u00a0/g; // blanks, as mail programs make them of those at the beginnings of lines
const QUOTES = /[\u201c-\u201f\u00ab\u00bb\u2033]/g;
const SIGNS = /^[ \t]*(?:[>|][ \t]?)+/gm, BREAKS = /\r?\n/g, BARE = /(?<!=\r?)\r?\n/g, PACKED = /=3D|=2C|=\r?\n/g;
const MOST_READ = 2000000; // letters of a text that is looked through

const COPY = "Copy it from the first { to the last }, or choose the file that was attached.";

/** Each thing that mail programs do to a text, as a pattern and in words. */
const DONE = [
  [/^[\ufeff\u200b\u200e\u200f\u2060]/, "Before it is a mark that nobody sees (a byte order mark, or a "
    + "blank without width)."],
  [/\}\s*\{"(answer|game|refused|usage)"/, "It has more than one line: give one at a time."],
  [/^\s*[>|]/m, "Its lines begin with “>”, as in the answer to a mail."],
  [/=3D|=\r?\n/, "It is written as mail programs pack texts (“quoted-printable”), with “=” at the ends of lines."],
  [/^\s*[^{\s>\ufeff\u200b]/, "Other words come before the first {."],
  [/\}[^{}]*[^\s{}][^{}]*$/, "Other words come after the last }."],
  [/[\u201c\u201d\u201e]\s*[:,\]}]/, "It has typographic quote marks (“ ”) where plain ones (\") belong."],
  [/[{}[\],:]\s*\u00a0/, "It has hard blanks, as mail programs make them, where plain ones belong."],
  [/[^,{}[\]:\s"]\r?\n[^\s]/, "It was broken into lines in the middle of a word."],
];

/** What has happened to a text that is no JSON, and what a person may do about it, unless it `isMended`, in
 * sentences. */
export function unreadable(text, isMended = false) {
  if (text.length > MOST_READ || !/[{}]/.test(text)) return [];
  const done = DONE.filter(([pattern]) => pattern.test(text)).map(([, sentence]) => sentence);
  return isMended ? done : [...done, COPY];
}

/** The text without what a mail program did to it; null where that is no JSON either, or nothing was done. */
export const mended = (text) => undone(text)?.way ?? null;

/** A text without what mail programs add, with the part of it that is kept: {way, inside, plain}; null as above. */
function undone(text) {
  if (text.length > MOST_READ) return null;
  const bare = text.replace(MARKS, "").replace(SIGNS, "");
  const from = bare.indexOf("{"), to = bare.lastIndexOf("}");
  if (from < 0 || to < from) return null;
  const own = [bare.slice(from, to + 1), objectIn(bare)].filter(Boolean);
  const ways = own.flatMap((inside) => {
    const unbroken = inside.replace(BREAKS, ""), plainly = (some) => some.replace(QUOTES, '"');
    const plain = [inside, unbroken, unpacked(inside), plainly(unbroken), plainly(inside)];
    const some = [...plain, ...plain.map((way) => way.replace(HARD, " "))];
    return some.map((way) => ({ way, inside, plain: bare }));
  });
  return ways.find(({ way }) => way && way !== text && isJson(way)) ?? null;
}

const MOST_NAMED = 3, MOST_LETTERS = 40;

/** What is left out of a text that is mended, in words: “Dear all”, “Best, Eva” and 3 signs of quotation. */
export function leftOut(text) {
  const { way, inside, plain } = undone(text), at = plain.indexOf(inside);
  const lines = [plain.slice(0, at), plain.slice(at + inside.length)].flatMap((some) => some.split(BREAKS))
    .map((line) => line.trim()).filter(Boolean);
  const shown = lines.length > MOST_NAMED + 1 ? lines.slice(0, MOST_NAMED) : lines;
  const lost = (sign, before, after = "") => (before.match(sign)?.length ?? 0) - (after.match(sign)?.length ?? 0);
  const counts = [[lines.length - shown.length, "more line"],
    [lost(SIGNS, text), "sign of quotation", "signs of quotation"],
    [lost(MARKS, text), "mark that nobody sees", "marks that nobody sees"],
    [lost(BARE, inside, way), "line break"], [lost(QUOTES, inside, way), "typographic quote mark"],
    [lost(HARD, inside, way), "hard blank"],
    [lost(PACKED, inside, way), "“=” of a packed text", "“=” of a packed text"]];
  const quoted = (line) => `“${withEscapes(line.slice(0, MOST_LETTERS))}${line.length > MOST_LETTERS ? " …" : ""}”`;
  return listed([...shown.map(quoted),
    ...counts.filter(([count]) => count > 0).map(([count, ...words]) => plural(count, ...words))]);
}

/** The first object in a text, to the brace that ends it; null where none does. */
function objectIn(text) {
  const from = text.search(/\{\s*"/);
  for (let k = from, depth = 0, isString = false; from >= 0 && k < text.length; k++) {
    const letter = text[k];
    if (isString && letter === "\\") k += 1;
    else if (letter === '"') isString = !isString;
    else if (!isString) depth += letter === "{" ? 1 : letter === "}" ? -1 : 0;
    if (depth === 0) return text.slice(from, k + 1);
  }
  return null;
}

/** Quoted-printable, undone. */
function unpacked(text) {
  const bytes = [], joined = text.replace(/=\r?\n/g, "");
  for (let k = 0; k < joined.length; k++) {
    const [, digits] = /^=([0-9A-F]{2})/i.exec(joined.slice(k, k + 3)) ?? [];
    if (digits) [k] = [k + 2, bytes.push(parseInt(digits, 16))];
    else bytes.push(...new TextEncoder().encode(joined[k]));
  }
  return new TextDecoder().decode(new Uint8Array(bytes));
}

function isJson(text) {
  try {
    parseJson(text);
    return true;
  } catch {
    return false;
  }
}
