// Signs before or behind the names of a pasted list that are no part of them: of a list or a quotation in a mail, and
// dashes that lead to a number.
import { readNumber } from "../exact/decimals.js";
import { parted } from "./units.js";

const SIGN = "[-–—•*·▪◦●○‣∙\uf0b7]";
const QUOTED = /^(?:>\s*)+/, LISTED = new RegExp(`^${SIGN}(?:\\s+(?=\\S*\\p{L})|(?=\\p{L}))`, "u");
const ALONE = new RegExp(`^(?:>|o|${SIGN})$`, "u"); // in a cell of its own, as from Word
const MONEY = "(?:[A-Z]{3}|\\p{Sc})?\\s?";
const DASHED = new RegExp(`^(?:(.*[\\p{L}\\d)\\]}.])(?:\\s+[-–—]|\\s*[–—])\\s+|(.*\\p{L})[–—])(${MONEY}\\d.*)$`, "u");

const REMARK = /\s*\([^()]*\p{L}[^()]*\)[.;,]?$/u; // behind a number, as "(niece)"

const DASHED_REMARK = /\s[–—-]\s\p{L}[^\s\d,]*(?:\s[^\s\d,]+){0,2}$/u; // and as "– new roof"

/** Rows without the signs of a list or a quotation before their first text, and without a column of "1.", "2." beside
 * texts: {rows, isSigned, isCounted}. */
export function withoutSigns(all) {
  const isCounted = isCountedText(all), given = isCounted ? all.map((row) => row.slice(1)) : all;
  const filled = given.filter((row) => row.some(Boolean)), hasText = ([, ...others]) => others.some(Boolean);
  const isNote = filled.filter((row) => /^(>\s*)*\*/.test(row.find(Boolean))).length < 2; // one star is of a note
  const isColumn = filled.length > 1 && filled.every((row) => ALONE.test(row[0]) && hasText(row));
  const rows = (isColumn ? given.map((row) => row.slice(1)) : given).map((row) => {
    const at = row.findIndex(Boolean), text = row[at] ?? "", said = text.replace(QUOTED, "");
    const plain = isNote && said.startsWith("*") ? said : said.replace(LISTED, "");
    return plain === text || (!plain && row.length > 1) ? row : row.map((own, c) => (c === at ? plain : own));
  });
  const isSigned = isColumn || rows.some((row, k) => row !== given[k]);
  return { rows, isCounted, isSigned };
}

/** Rows of one text each without those with a number above a list with signs, as they have none: {rows, above}. Those
 * that are `known` stay. */
export function belowNumbers(all, known) {
  const textOf = (row) => row.find(Boolean) ?? "", isSigned = (row) => LISTED.test(textOf(row));
  const first = all.findIndex(isSigned), isRow = (row) => row.filter(Boolean).length < 2 && /\d/.test(textOf(row));
  const isOut = (row, k) => k < first && isRow(row) && !known(textOf(row));
  const isList = all.filter(isSigned).length > 1 && all.slice(first).every((row) => isSigned(row) || !isRow(row));
  return isList ? { rows: all.filter((row, k) => !isOut(row, k)), above: all.filter(isOut).map(textOf) }
    : { rows: all, above: [] };
}

/** Whether rows have two cells each: 1, 2, .. with a point or before a text that ends with a number, and that text. */
function isCountedText(all) {
  const rows = all.filter((row) => row.some(Boolean)), isOf = ([number, text, other = ""], k) => {
    const isText = text && /\p{L}/u.test(text) && readNumber(text).fault;
    return isText && !other && number.replace(/[.)]$/, "") === String(k + 1);
  };
  return rows.length > 1 && rows.every(isOf) && rows.every(([number, text]) => {
    return /[.)]$/.test(number) || /^\p{L}.*\s\S*\d\S*$/u.test(text);
  });
}

/** Lines of a name, a dash and a number with a colon in its place: {texts, isDashed}; the same if some line of a name
 * and a number (`isParted`) has none, as the dash may be a minus then. So may a hyphen, if numbers can be negative. */
export function withoutDashes(texts, isParted, canBeNegative) {
  const isAmount = (text) => !readNumber(text).fault || parted(text) !== null;
  const dashed = texts.map((text) => {
    const [, one, other = one, number = ""] = DASHED.exec(text) ?? [];
    const plain = number.replace(REMARK, "").replace(DASHED_REMARK, "");
    const isMinus = canBeNegative && /^\s*-/.test(text.slice(other?.length));
    return !isMinus && isAmount(plain.replace(/[.;,]$/, "")) ? `${other.trim()}: ${number}` : null;
  });
  const isOf = dashed.filter(Boolean).length > 1 && texts.every((text, k) => dashed[k] || !isParted(text));
  return isOf ? { texts: texts.map((text, k) => dashed[k] ?? text), isDashed: true } : { texts, isDashed: false };
}

const NUMBER = "\\d[\\d.,'’\u202f]*", OF_MONEY = "(?:[A-Z]{3}|\\p{Sc})";
const BEFORE = new RegExp(`^((?:${OF_MONEY} ?${NUMBER}|${NUMBER} ?${OF_MONEY})(?= )|${NUMBER}(?=: ))(?: [-–—]|:)?`
  + "(?: (?:to|for|an|für|à|pour))? (\\p{L}[^\\d:]*)$", "u");

/** Lines of an amount, in money or before a colon, and a name, with the name first; others as they are. */
export function namesFirst(texts) {
  const found = texts.map((text) => BEFORE.exec(text)), kept = texts.filter(Boolean);
  const isOf = kept.length > 1 && found.filter(Boolean).length === kept.length;
  return isOf ? found.map((one) => (one ? `${one[2].trim()}: ${one[1]}` : "")) : texts;
}
