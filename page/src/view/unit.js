// The unit of money: what was typed for paper, or else the one that a pasted table has in its headings or numbers.
import { SIGN as MONEY } from "../exact/money.js";

const SIGN = `(?:[kKTM]|Mio\\.? ?|Tsd\\.? ?|thousand |million )?${MONEY}`;
const IN_HEAD = new RegExp(`[(\\[]\\s*(?:in )?(${SIGN})\\s*[)\\]]|\\bin (${SIGN})\\s*$`, "u");
const AMOUNT = "\\d[\\d.,'’\\s\\u202f]*";
const BESIDE = new RegExp(`^[-−(]?${AMOUNT}(${SIGN})\\)?$|^(${SIGN}|[A-Z]{3})\\s?[-−]?${AMOUNT}$`, "u");
const BEHIND = new RegExp(`(?:^|[\\s:=–—(-])(?:(${SIGN})\\s?[-−]?${AMOUNT}|${AMOUNT}(${SIGN}))\\)?[.,;]?$`, "u");
const REMARK = /\s*\([^()]*\p{L}[^()]*\)$/u, LAST = 80; // letters of a line with a name and an amount

/** The one unit that the cells of a pasted text show, or the ends of its lines, as "Ann £120"; "" if they show none, or
 * several. In the corner of a table "EUR 1000" is no amount. */
export function unitIn(text) {
  const found = new Set();
  text.split(/[\n\r]+/).forEach((line, r) => {
    const cells = line.split(/[\t;|]/).map((cell) => cell.trim()), isNamed = cells.some((cell) => /^\D+$/.test(cell));
    cells.forEach((cell, c) => {
      const [, head, behind] = IN_HEAD.exec(cell) ?? [], isCorner = r + c === 0 && isNamed;
      const end = cell.slice(-LAST).replace(REMARK, "");
      const [, ...beside] = (!isCorner && (BESIDE.exec(cell) ?? BEHIND.exec(end))) || [];
      const unit = head ?? behind ?? beside.find(Boolean);
      if (unit) found.add(unit.trim());
    });
  });
  return found.size === 1 ? [...found][0] : "";
}

/** The unit of the amounts of a case on paper. */
export function unitOf({ unit, pastedUnit = "" }) {
  return (unit ?? pastedUnit).trim();
}

/** Whence the unit is, if a pasted table names one. */
export function unitText({ unit, pastedUnit }) {
  if (!pastedUnit || unit?.trim() === pastedUnit) return "";
  return unit === undefined ? `“${pastedUnit}” is that of the table that was pasted.`
    : `“${unit.trim()}” was typed, and the table that was pasted has “${pastedUnit}”.`;
}
