// Texts that frame a pasted table and are no rows of it: a title above, notes below.
import { readNumber } from "../exact/decimals.js";
import { withEscapes } from "../game/names.js";
import { isLostPerson } from "./block.js";
import { headingsOf } from "./pasting.js";
import { parted } from "./units.js";

const MOST_TOLD = 4;
const MOST_LETTERS = 60;
/** A year in a text. */
export const YEAR = /(?<!\d)(?:19|20)\d\d(?!\d)/g;
const NOTE = /^([(*†]|sources?\b|notes?\b|remarks?\b|quellen?\b|hinweis|anmerkung|stand\b)/iu;

const PARAGRAPH = /^(?:§|art(?:icle|ikel|\.)\s*\d)/iu;
const LISTED = "claims|debts|creditors|forderungen|gläubiger|votes|seats|shares|stimmen|sitze|anteile|voix|sièges"
  + "|parts|créances|créanciers|\\p{L}*verteilung|distribution|allocation|répartition";
const TITLE = new RegExp(`^(?:\\p{L}+\\s)?(?:${LISTED})\\s*(?:\\([^()]{1,60}\\))?:?$`, "iu");
const NUMBERED = new RegExp("^\\d{1,2}(?:\\.\\d{1,2}){0,2}[.)]?\\s(?:\\p{L}+\\s){0,3}"
  + `(?:${LISTED})(?:\\s\\p{L}|:?$)`, "iu");

const filledOf = (row) => row.filter(Boolean);
const isBlank = (row) => !row.some(Boolean);

/** A text alone in its line. */
function isLone(row) {
  const [text, other] = filledOf(row);
  return text !== undefined && other === undefined && Boolean(readNumber(text).fault);
}

/** A pasted text without what frames its table, if that has two columns or more: {rows, text, left}, where `left` are
 * the texts that are left out. Such a one stands alone in its line: above the headings, beyond an empty line, in a line
 * without signs between cells, or as a note. */
export function unframed(rows, text = "") {
  const whole = { rows, text, left: [] }, isOf = (row) => !isBlank(row) && !isLone(row);
  if (rows.filter((row) => filledOf(row).length > 1).length < 2) return whole;
  const isAmount = (one, _, { length }) => !readNumber(one).fault || (length > 1 && parted(one) !== null);
  const begin = rows.findIndex((row) => filledOf(row).some(isAmount));
  const isTitle = (row, k) => isLone(row) && isHeadline(filledOf(row)[0], k < begin);
  const titles = new Set(rows.filter(isTitle));
  if (titles.size) return withoutTitles(rows, text, titles);
  const first = rows.findIndex(isOf), end = rows.length - [...rows].reverse().findIndex(isOf);
  const isHeaded = headingsOf(rows.slice(first, end), 0) !== null;
  const above = apart(rows.slice(0, first).reverse(), rows[first], () => isHeaded);
  const below = rows.slice(end), isNote = ([one]) => NOTE.test(one);
  const isPerson = (row) => !isNote(filledOf(row)) && isLostPerson(filledOf(row).join(" "));
  const other = below.findIndex((row) => !isPerson(row)), lost = below.slice(0, other < 0 ? below.length : other);
  const left = new Set([...above, ...apart(below, rows[end - 1], isNote)].filter((row) => !lost.includes(row)));
  if (!left.size) return whole;
  const lines = text.split(/\r\n?|\n/), isInside = (k) => k >= first && k < end;
  const isKept = (_, k) => isInside(k) || !(isBlank(rows[k]) || left.has(rows[k]));
  const texts = rows.filter((row) => left.has(row)).flatMap(filledOf);
  return { rows: rows.filter(isKept), text: lines.slice(0, rows.length).filter(isKept).join("\n"), left: texts };
}

/** Whether a text alone in its row is a paragraph of statutes or, `isAbove` the rows, says what is listed: nobody. */
export const isHeadline = (text, isAbove) => PARAGRAPH.test(text)
  || (isAbove && [TITLE, NUMBERED].some((one) => one.test(text)));

/** The same without titles, which are told with what else is left out. */
function withoutTitles(rows, text, titles) {
  const isKept = (_, k) => !titles.has(rows[k]), lines = text.split(/\r\n?|\n/).slice(0, rows.length);
  const found = unframed(rows.filter(isKept), lines.filter(isKept).join("\n"));
  return { ...found, left: [...[...titles].flatMap(filledOf), ...found.left] };
}

/** Of lines on one side of a table, the nearest first, the texts that aren't of it. */
function apart(lines, [, ...others], isBeside) {
  const blank = lines.findIndex(isBlank), isBeyond = (k) => blank >= 0 && k > blank;
  const isOut = (line, k) => isBeyond(k) || (line.length === 1 && others.length > 0) || isBeside(filledOf(line));
  return lines.filter((line, k) => isLone(line) && isOut(line, k));
}

/** What is told of these. */
export function leftText(left) {
  const shown = (words) => {
    return `“${withEscapes(words.slice(0, MOST_LETTERS))}${words.length > MOST_LETTERS ? " …" : ""}”`;
  };
  const hasNumber = left.some((text) => /\d/.test(text.replace(YEAR, "")));
  const why = !hasNumber ? "no number stands beside" : left.length > 1 ? "these are no rows" : "it is no row";
  const more = left.length > MOST_TOLD ? " …" : "";
  return left.length ? `Left out, as ${why}: ${left.slice(0, MOST_TOLD).map(shown).join(", ")}${more}.` : "";
}
