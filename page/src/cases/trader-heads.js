// What stands in a pasted table of a market beside the names of its traders and their numbers: “Bid” before the names
// of buyers, columns of words, as "Owner", and numbers that are nobody's, as an area.
import { readNumber } from "../exact/decimals.js";
import { Rational } from "../exact/rational.js";
import { withEscapes } from "../game/names.js";
import { isText as isWord, isValue } from "./block.js";
import { BUYS_AT, GOODS, isCount, kindOf } from "./price-heads.js";

const OF = "(?:\\s(?:of|by|from|von|de|des|du|van|av))?:?";
const BEFORE = new RegExp(`^(${BUYS_AT})${OF}\\s+(\\S.{0,80})$`, "iu");
const BEHIND = new RegExp(`^(\\S.{0,80}?)(?:['’]s?)?\\s+(${BUYS_AT})$`, "iu");
const UNIT = /\s*[([]\s*[^()[\]]{1,12}[)\]]$/u; // as "(€)" behind a heading

/** The name in a heading as “Bid Larsen”, “Moe’s bid” or “Bid Moe (€)”, and the word beside it; null for another. */
function bidderOf(text) {
  const head = text.slice(0, 120), unit = UNIT.exec(head)?.[0] ?? "", bare = head.slice(0, head.length - unit.length);
  const [, word, own] = BEFORE.exec(bare) ?? [], [, other, last] = own ? [] : BEHIND.exec(bare) ?? [];
  const name = own ?? other, { side, isPrice } = kindOf(name ?? "");
  return name && /\p{L}/u.test(name) && !side && !isPrice ? { name, word: word ?? last } : null;
}

/** Whether texts have two such names or more, and none twice. */
function areBidders(texts) {
  const names = texts.map(bidderOf).filter(Boolean).map(({ name }) => name);
  return names.length > 1 && new Set(names).size === names.length;
}

/** Pasted rows without the word for a bid beside the names of the buyers, above the columns or before the rows: {rows,
 * told}; `isAbove` says that the buyers stand above. */
export function withoutBids(pasted) {
  const first = pasted.findIndex((row) => row.filter(Boolean).length > 1), heads = pasted[first] ?? [];
  const isAbove = areBidders(heads), isBefore = !isAbove && areBidders(pasted.map(([text = ""]) => text));
  if (!isAbove && !isBefore) return { rows: pasted };
  const own = isAbove ? heads : pasted.map(([text = ""]) => text), word = own.map(bidderOf).find(Boolean)?.word;
  const bare = (text) => bidderOf(text)?.name ?? text;
  const rows = pasted.map((row, r) => row.map((text, c) => ((isAbove ? r === first : c === 0) ? bare(text) : text)));
  return { rows, isAbove, told: `“${withEscapes(word)}” beside the names was left out.` };
}

const SIZES = new RegExp("(?<!\\p{L})(area|size|surface|superficie|fläche|größe|oppervlakte|floor|etage|age|alter|âge"
  + "|baujahr|year built)(?!\\p{L})|m²|sqm|sq ?ft", "iu");
const BEST = /(?<!\p{L})(highest|best|top|winning|max|maximum|höchst\p{L}*|meilleure?|hoogste)(?!\p{L})/iu;

/** Whether a column of a table has no more than the highest of its other numbers, but those of limit prices. */
function isHighest([heads, ...below], c) {
  if (!BEST.test(heads[c]) || !kindOf(heads[c]).isPrice || below.length < 2) return false;
  const others = heads.map((_, at) => at).filter((at) => at && at !== c && !kindOf(heads[at]).isPrice);
  const valueOf = (text = "") => readNumber(text).value, isOf = (row) => {
    const values = others.map((at) => valueOf(row[at])).filter(Boolean);
    return values.length > 1 && Boolean(valueOf(row[c])?.equals(Rational.max(values)));
  };
  return below.every(isOf);
}

/** A table without columns that have only texts below their heading, as remarks, without rows that have only texts
 * behind their name, and without numbers that are nobody's: numbers of the goods, their sizes, and the highest bids:
 * {rows, left}. */
export function withoutTexts([heads, ...all]) {
  const isText = (text) => text === "" || !isValue(text), isSome = ([name, ...texts]) => name && texts.some(Boolean);
  const isRemark = (row) => isSome(row) && row.slice(1).every(isText), gone = all.filter(isRemark);
  const below = gone.length < all.length - 1 ? all.filter((row) => !gone.includes(row)) : all;
  const isWords = (c) => isWord(heads[c]) && below.some((row) => row[c]) && below.every((row) => isText(row[c]));
  const isCounts = (c) => (isCount(heads[c]) || GOODS.test(heads[c])) && below.length > 1
    && below.every((row, k) => row[c] === String(k + 1));
  const isOut = heads.map((head, c) => {
    return c > 0 && (isWords(c) || isCounts(c) || SIZES.test(head) || isHighest([heads, ...below], c));
  });
  const others = all.filter((row) => !below.includes(row)).map(([name]) => name);
  const names = [...heads.filter((_, c) => isOut[c]), ...others];
  const rows = [heads, ...below].map((row) => row.filter((_, c) => !isOut[c]));
  return { rows, left: names.map((name) => `“${withEscapes(name)}”`) };
}
