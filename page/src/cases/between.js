// Lines above and between those of groups that are none: a title, or a heading above a part of them, as "Pairs".
import { isAllWord } from "./all-together.js";
import { isNothing } from "./block.js";
import { YEAR } from "./frames.js";
import { saysKind } from "./other-case.js";

const MOST_LETTERS = 80; // of a heading
const ALL_LINE = /^(\D{2,40}?)\s*[:=–]?\s*((?:\p{Sc}\s?)?\d[\d.,'’ ]*(?:\p{Sc}|[A-Z]{3})?)$/u;
const TITLE_WORDS = 5; // of a name without a number, which then is none
const KNOWN = new RegExp("^(?:(?:each )?alone|singl(?:y|es?|etons?)|individual(?:ly|s)?|stand-?alone(?: \\p{L}+)?"
  + "|pairs?|pairwise|doubles|triples?|(?:two|three|four)(?: together| players| members)|einzeln|allein|paare?"
  + "|zu (?:zweit|dritt|viert)|seule?s?|à (?:deux|trois)|coalitions?(?: of (?:two|three|four))?):?$", "iu");

/** Cells of a table; a line of all together in one cell, as "All three: 72", is parted into words and number. */
export function withAllLine(cells) {
  if (!cells.some((row) => row.filter(Boolean).length > 2)) return cells;
  return cells.map((row) => {
    const [text = "", other] = row.filter(Boolean), isShort = !other && text.length <= MOST_LETTERS;
    const [, words, number] = (isShort && ALL_LINE.exec(text)) || [];
    return words && isAllWord(words) ? [words, number] : row;
  });
}

/** Cells without headings of parts: {cells, left}. Such a one has no number, stands below an empty line, ends with a
 * colon or has known words, and has rows with numbers above and right below; then
 * one may stand above all, too. */
export function withoutPartHeads(cells) {
  const texts = cells.map((row) => (row.filter(Boolean).length > 1 ? null : row.find(Boolean) ?? ""));
  const hasDigit = cells.map((row) => row.some((text) => /\d/.test(text))), first = hasDigit.indexOf(true);
  const isWords = (text) => text && text.length <= MOST_LETTERS && !/\d|[:=]\s*\S/.test(text)
    && !isNothing(text.split(/\s+/).at(-1));
  const isHead = (text, k) => first >= 0 && k > first && isWords(text) && hasDigit[k + 1]
    && (texts[k - 1] === "" || text.endsWith(":") || KNOWN.test(text));
  const found = new Set(texts.flatMap((text, k) => (isHead(text, k) ? [k] : [])));
  const heads = found.size && first > 0 && isWords(texts[first - 1]) ? new Set([first - 1, ...found]) : found;
  return heads.size ? {
    cells: cells.map((row, k) => (heads.has(k) ? [""] : row)), left: [...heads].map((k) => texts[k]),
  } : { cells, left: [] };
}

/** Rows of groups without titles above them: {rows, lines, left}. Such a one has no number, no group has it, and it has
 * many words, or says that costs or gains follow. */
export function withoutTitles({ rows, lines }) {
  const first = rows.findIndex(([, number = ""]) => /\d/.test(number)), groups = rows.slice(Math.max(0, first));
  const isSaid = (text) => !/\d/.test(text.replace(YEAR, ""))
    && (text.split(/\s+/).length >= TITLE_WORDS || saysKind(text));
  const isTitle = ([text = "", number]) => !number && isSaid(text) && !groups.some(([group]) => group.includes(text));
  const above = rows.slice(0, Math.max(0, first)), isOf = above.every(isTitle), count = isOf ? above.length : 0;
  return { rows: rows.slice(count), lines: lines.slice(count), left: above.slice(0, count).map(([text]) => text) };
}
