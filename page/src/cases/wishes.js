// Wishes: lines as "Ann: flat A, flat C", or a table of marks, as yes and no, which say with whom each buyer would
// trade, without any number.
import { isText } from "./block.js";
import { IN, isMark } from "./member-marks.js";
import { isSpoilt } from "./pasting.js";
import { GOODS } from "./price-heads.js";

const LINE = /^([^:\d][^:]{0,59}):\s*(\S.{0,400})$/u, MOST_LETTERS = 60, MOST_ROWS = 400;
const HEAD = /(?<!\p{L})(wish(es)?|wants?|likes?|choices?|acceptable|wünsch(e|t)|möchte|souhaits?|deseos?)(?!\p{L})/iu;

/** A row as a name and what it wishes. */
function wishOf(row) {
  const [first = "", ...others] = row.filter(Boolean), [, name, rest] = others.length ? [] : LINE.exec(first) ?? [];
  const texts = name ? [rest] : others, given = texts.flatMap((text) => text.split(/\s*[,;]\s*/)).filter(Boolean);
  return { name: name ?? first, wishes: given.map((text) => text.replace(/\.$/, "")) };
}

/** A table with marks below the names of sellers, as "x" and "yes", of which some is no number; null for others. */
function marksOf(rows) {
  const [[corner = "", ...heads] = [], ...below] = rows, wide = heads.length;
  const isRow = ([name = "", ...marks]) => isText(name) && marks.length <= wide && marks.every((text) => isMark(text));
  const marks = below.flatMap((row) => row.slice(1)), isIn = (text = "") => IN.test(text);
  const isAny = marks.some((text) => isIn(text) && text !== "1") && !marks.some((text) => /^[\d,.]*[2-9]/.test(text));
  if (!heads.length || below.length < 2 || !heads.every(isText) || !below.every(isRow) || !isAny) return null;
  const [first] = below, names = below.map(([name]) => name), isTurned = GOODS.test(corner);
  const values = below.map((row) => heads.map((_, c) => (isIn(row[c + 1]) ? "1" : "0")));
  const turned = heads.map((_, c) => values.map((row) => row[c])), [buyers, sellers] = isTurned ? [heads, names]
    : [names, heads];
  return { buyers, sellers, values: isTurned ? turned : values, first: first.filter(Boolean).join(", ") };
}

/** Pasted rows as a market in which each wish gains 1 and no other pair anything: {buyers, sellers, values, first},
 * `first` being a line as it was; null for other rows. Something is wished by two, or there are headings. */
export function wishesOf(pasted) {
  const filled = pasted.filter((row) => row.some(Boolean)), isHead = HEAD.test(filled[0]?.join(" ") ?? "");
  const own = filled.slice(isHead ? 1 : 0), marked = marksOf(filled);
  if (marked) return marked;
  const isName = (text) => isText(text) && !isSpoilt(text) && text.length <= MOST_LETTERS;
  if (own.some(([name]) => !name) || own.length < 2 || own.length > MOST_ROWS) return null;
  const found = own.map(wishOf), buyers = found.map(({ name }) => name), all = found.flatMap(({ wishes }) => wishes);
  const sellers = [...new Set(all)], isShared = sellers.length < all.length || isHead;
  const isOf = found.every(({ wishes }) => wishes.length && new Set(wishes).size === wishes.length);
  if (!isShared || !isOf || ![...buyers, ...all].every(isName) || new Set(buyers).size < buyers.length) return null;
  if (sellers.some((name) => buyers.includes(name))) return null;
  const values = found.map(({ wishes }) => sellers.map((name) => (wishes.includes(name) ? "1" : "0")));
  return { buyers, sellers, values, first: own[0].filter(Boolean).join(", ") };
}
