// A sheet of claims may begin with its title and the estate, above an empty line and the headings.
import { readNumber } from "../exact/decimals.js";
import { headingsOf } from "./pasting.js";
import { mayBeWhole } from "./whole-words.js";

const MOST_ABOVE = 4; // rows
const isNumber = (text) => !readNumber(text).fault;
const filledOf = (row) => row.filter(Boolean);

/** Pasted rows with the headings first, and the estate as the first row below, where a sheet begins so: {rows, left},
 * the titles, which aren't among the rows. */
export function headsFirst(rows) {
  const isHead = (row) => filledOf(row).length > 1 && !filledOf(row).some(isNumber), whole = { rows, left: [] };
  const begin = rows.findIndex((row, k) => k > 0 && !filledOf(rows[k - 1]).length && isHead(row));
  if (begin < 0 || headingsOf(rows.slice(begin), 0) === null) return whole;
  const above = rows.slice(0, begin).filter((row) => filledOf(row).length);
  const [heads, first, ...others] = rows.slice(begin);
  const at = first.findIndex((text) => text && isNumber(text));
  const isTitle = (row) => filledOf(row).length === 1 && !isNumber(filledOf(row)[0]);
  const isWhole = (row) => filledOf(row).length === 2 && isNumber(row[at] ?? "") && mayBeWhole(row[at - 1] ?? "");
  const isAll = above.length <= MOST_ABOVE && above.some(isWhole) && above.every((row) => isTitle(row) || isWhole(row));
  const left = above.filter(isTitle).flatMap(filledOf);
  return isAll ? { rows: [heads, ...above.filter(isWhole), first, ...others], left } : whole;
}
