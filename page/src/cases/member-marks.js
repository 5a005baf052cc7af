// A table whose columns say by marks who is in a group: 1 and 0, x or yes, below the names of the players; or which has
// a cell for each member.
import { readNumber } from "../exact/decimals.js";
import { isSumWord, withEscapes } from "../game/names.js";
import { isWorth } from "./group-columns.js";

export const IN = /^(1|x|✓|✔|☑|y|yes|ja|j|oui|sí|si)$/i;
const OUT = /^(0|no?|nein|non|nee|☐|✗|[-–—.]?)$/i;
const MOST_BEFORE = 2; // columns before those of marks, as a number and a label of each row

const quoted = (text) => `“${withEscapes(text)}”`;

export const isMark = (text = "") => IN.test(text) || OUT.test(text);

/** Rows of a group and its numbers, from rows below names that say who is in the group: {rows, told}; the same rows if
 * they are others. Columns before the names that number or call the rows are left out. */
export function joinedMembers(given) {
  const marked = fromMarks(aligned(given)), rows = marked ? null : fromCells(given);
  return marked ?? (rows ? { rows, told: "Names side by side are a group." } : { rows: given, told: "" });
}

/** The rows of groups whose members have a cell each, and all a row alone; null for others. */
function fromCells(given) {
  const isNumber = (text) => !readNumber(text).fault, filled = given.map((row) => row.filter(Boolean));
  const isHead = filled[0]?.length > 1 && !isNumber(filled[0].at(-1)), below = isHead ? filled.slice(1) : filled;
  const alone = new Set(below.filter(({ length }) => length === 2).map(([name]) => name));
  const isGroup = (row) => row.length > 1 && isNumber(row.at(-1))
    && row.slice(0, -1).every((name) => !isNumber(name) && (row.length === 2 || alone.has(name)));
  if (!below.some(({ length }) => length > 2) || !below.every(isGroup)) return null;
  const heads = isHead ? [[filled[0][0], filled[0].at(-1)]] : [];
  return [...heads, ...below.map((row) => [row.slice(0, -1).join("+"), row.at(-1)])];
}

/** Rows whose headings lack the cell of the first column, with an empty one there. */
function aligned([heads = [], ...below]) {
  const isShort = below.length > 1 && heads.every(Boolean) && below.every(({ length }) => length === heads.length + 1);
  return [isShort ? ["", ...heads] : heads, ...below];
}

/** The same rows of a table with columns of marks side by side, and beside them one of numbers, behind or before;
 * null for others. */
function fromMarks([heads = [], ...below]) {
  const wide = below.reduce((most, { length }) => Math.max(most, length), heads.length);
  const all = Array.from({ length: wide }, (_, c) => c), textsAt = (c) => below.map((row) => row[c] ?? "");
  const isName = (text = "") => text !== "" && !isMark(text) && !isWorth(text);
  const isMarks = (c) => isName(heads[c]) && textsAt(c).every(isMark) && textsAt(c).some((text) => IN.test(text));
  const runs = all.filter((c) => isMarks(c) && !isMarks(c - 1)).map((c) => {
    const end = all.find((one) => one > c && !isMarks(one)) ?? wide;
    return all.slice(c, end);
  });
  const marks = runs.reduce((most, run) => (run.length > most.length ? run : most), []), hasMost = marks.length > 1;
  const [before, behind] = [all.slice(0, marks[0]), all.slice(marks.at(-1) + 1)];
  const hasNumbers = (some) => some.some((c) => textsAt(c).some((text) => /\d/.test(text)));
  const isBehind = hasNumbers(behind), isLabel = (c) => new Set(textsAt(c)).size === below.length;
  const isCalled = before.length <= MOST_BEFORE && before.every(isLabel);
  const isOf = isBehind ? isCalled : hasNumbers(before) && before.some((c) => isWorth(heads[c]));
  if (!hasMost || !isOf) return null;
  const [kept, out] = isBehind ? [behind, before] : [before, []], cellsOf = (row) => kept.map((c) => row[c] ?? "");
  const shown = out.map((c) => quoted(heads[c] || `${below[0][c]} …`)).join(" and ");
  const membersOf = (row) => marks.filter((c) => IN.test(row[c] ?? "")).map((c) => heads[c]).join("+");
  const isSum = (row) => !membersOf(row) && before.some((c) => isSumWord(row[c] ?? "")), sum = below.find(isSum);
  const own = below.filter((row) => !isSum(row)), ofSum = sum ? `${quoted(sum[before[0]])} was left out.` : "";
  return {
    rows: [["", ...cellsOf(heads)], ...own.map((row) => [membersOf(row), ...cellsOf(row)])],
    from: [0, ...own.map((row) => below.indexOf(row) + 1)],
    told: [shown && `${shown}, before the columns of marks, was left out.`, ofSum].filter(Boolean).join(" "),
  };
}
