// A list of numbers alone, as other programs print it: a line each, a row of a spreadsheet, c(1, 2), R's [1] 1 2, or
// MATLAB's v = [1 2];
import { mostOf } from "../game/classes.js";
import { isSumWord } from "../game/names.js";
import { readNumber } from "../exact/decimals.js";
import { joinedOf } from "./group-words.js";
import { SPOILT } from "./pasting.js";

const MOST_PLAYERS = mostOf("table");
const NAMED = /^\s*[\p{L}_][\p{L}\d_.]*\s*(?:=|<-)\s*(?=[[({]|c\s*\(|(?:np\.)?array\s*\()/u;


/** The first line of a list, where it has nothing but words; null where it has others. */
export function headingOf(text) {
  const [first] = text.trimStart().split(/\r?\n/, 1), cells = first.split(/[\t;,]/).map((cell) => cell.trim());
  const isWord = (cell) => /\p{L}/u.test(cell) && !SPOILT.test(cell) && !/[=([{+]/.test(cell);
  return cells.some(Boolean) && cells.every((cell) => !cell || isWord(cell)) ? first : null;
}

/** The rows of numbers of a text in which nothing else stands; null for any other text. */
export function numbersIn(text) {
  const list = NAMED.test(text) ? text.replace(NAMED, "").replace(/;\s*$/, "") : text;
  const plain = list.replace(/\r\n?/g, "\n").replace(/^[ \t]*\[\d+\](?=\s)/gm, "")
    .replace(/\b(?:c|(?:np\.)?array)\s*\(/g, " ")
    .replace(/[^\s;]+/g, (word) => (isMinus(word) ? word : word.replace(/[[\](){}]/g, " ")));
  const lines = plain.split("\n").map((line) => line.trim()).filter(Boolean), part = separatorOf(lines);
  const rows = lines.map((line) => line.split(part).map((token) => token.trim()).filter(Boolean));
  const tokens = rows.flat();
  const isList = tokens.length > 0 && tokens.every((token) => isNumber(token));
  return isList ? rows.filter((row) => row.length) : null;
}

/** Brackets around one number say minus: (3.50). */
function isMinus(word) {
  return /^\([\d.,]+\)$/.test(word);
}

function isNumber(token) {
  return !readNumber(token).fault;
}

/** What parts the numbers of a line. A comma does where it can't stand in front of decimals. */
function separatorOf(lines) {
  const has = (mark) => lines.some((line) => mark.test(line));
  if (has(/\t/)) return /\t/;
  if (has(/;/)) return /;/;
  if (has(/,\s|,$/)) return /,\s*/;
  if (lines.every(isNumber)) return /$^/;
  return has(/\d\s+[-−.\d]/) ? /\s+/ : /,/;
}

/** What is said of rows that have a game each; null for others. */
function manyText(rows) {
  const count = rows.length, [{ length: wide }] = rows, isTable = rows.every((row) => row.length === wide);
  if (count < 2 || wide < 2 || !isTable || !Number.isInteger(Math.log2(wide + 1))) return null;
  return `These are ${count} rows of ${wide} numbers, so ${count} games. One game at a time here: paste one row.`;
}

/** The same of rows below a heading, and behind a first column of what they are called. A column of names is of groups,
 * unless headings without one above it, or such of groups, say what the numbers are. */
export function manyBelow(rows) {
  const isWord = (cell) => /\p{L}/u.test(cell) && !SPOILT.test(cell);
  const [heads = [], ...below] = rows, titles = heads.slice(1);
  const isNamed = below.some(([name = ""]) => !isNumber(name)) && below.every(({ length }) => length === heads.length);
  const apart = new Set(titles), isOfGroups = titles.some((one) => one.includes("+") || joinedOf(one, apart));
  const isGroup = ([name = ""]) => isSumWord(name) || name.includes("+") || (isWord(name) && heads.includes(name));
  if (!below.length || !titles.every(isWord) || (isNamed && !isOfGroups) || below.some(isGroup)) return null;
  const isNumeric = (some) => some.every((row) => row.every((cell) => isNumber(cell)));
  const plain = [below, below.map((row) => row.slice(1))].filter(isNumeric);
  return plain.map(manyText).find(Boolean) ?? null;
}

/** The numbers of all groups in a row, without the group of nobody: {numbers, n, hasNobody}, or {fault}. */
export function vectorOf(rows) {
  const many = manyText(rows);
  if (many) return { fault: many };
  const all = rows.flat(), hasNobody = all.length > 2 && Number.isInteger(Math.log2(all.length)) && isZero(all[0]);
  const numbers = hasNobody ? all.slice(1) : all, n = Math.log2(numbers.length + 1);
  if (Number.isInteger(n) && n > 0 && n <= MOST_PLAYERS) return { numbers, n, hasNobody };
  return { fault: `These are ${all.length} numbers alone. A list of all groups of two to sixteen players has `
    + "3, 7, 15, 31 and so on; the group of nobody isn’t listed." };
}

function isZero(token) {
  return readNumber(token).value?.isZero() ?? false;
}
