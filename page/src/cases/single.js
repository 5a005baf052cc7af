// The number above a list, an estate or a quota, which may come with its rows.
import { readNumber } from "../exact/decimals.js";

const MOST_LINE = 200; // letters
const isNumber = (text) => !readNumber(text).fault;

/** Rows in which a line such as "Quorum: 2/3" or "Needed 8 3" has a cell for each. */
export function withSingle(rows, { heads, reads = isNumber }) {
  return rows.map((row) => {
    const [text = "", more] = row.filter(Boolean);
    if (more || text.length > MOST_LINE) return row;
    const [, word, number] = /^([^:=]+?)\s*[:=]\s*(.+)$/.exec(text) ?? [];
    const [name, ...others] = text.replace(/(?<=\d)\.$/, "").split(/\s+(?=\d)/);
    if (word && heads.test(word) && reads(number)) return [word, number];
    return others.length && heads.test(name) && others.every(reads)
      ? [name, ...(reads(others.join(" ")) ? [others.join(" ")] : others)] : row;
  });
}

/** Rows without the lines among them that name a number above the list, as "Needed: at least 50 % + 1", if two others
 * or more are left: {rows, own}, each of `own` with a cell for each. */
export function apartSingles(all, single) {
  const cells = withSingle(all, single), rows = all.filter((row, k) => cells[k] === row);
  const isList = rows.filter((row) => row.some(Boolean)).length > 1;
  return isList ? { rows, own: cells.filter((row, k) => row !== all[k]) } : { rows: all, own: [] };
}

/** The rows that name a number above the list: {row, word, numbers}, each number with its column: {text, c}. */
export function singlesOf(rows, { heads, reads = isNumber }) {
  const wide = Math.max(...rows.map(({ length }) => length), 3);
  return rows.map((row) => {
    const cells = row.map((text, c) => ({ text, c })).filter(({ text }) => text);
    const isTurned = cells.length === 2 && reads(cells[0].text) && !reads(cells[1].text);
    const [word, ...others] = isTurned ? cells.reverse() : cells, isWide = row.length === wide;
    const numbers = others.filter(({ text }) => reads(text)).map((one) => ({ ...one, isWide, word: word.text }));
    return word && heads.test(word.text) && numbers.length ? { row, numbers } : null;
  }).filter(Boolean);
}

/** The one number that these name: {number}, or {fault} in words where it isn't clear. */
export function singleOf([one, other]) {
  if (other) return { fault: `Leave one of the rows “${one.numbers[0].word}” and “${other.numbers[0].word}”.` };
  const [number, more] = one?.numbers ?? [];
  return more ? { fault: `Leave one number beside “${number.word}”.` } : { number };
}

/** Which of the numbers that these name is which of two quotas: {number, other, left}, by the columns of votes that
 * they stand in, or by their order. Where there is one quota so far (not `isTwo`), {asked: {pair}}, until somebody said
 * that there is one (`isOne`). `spare` are the columns of numbers that may be other votes. */
export function quotasOf(named, { targets, spare, isTwo, isOne }) {
  const all = named.flatMap(({ numbers }) => numbers), isSpare = (one) => spare.some(({ c }) => c === one.c);
  const at = (key) => all.find(({ c, isWide }) => isWide && targets[c]?.key === key);
  const isAt = at("votes") ?? at("second");
  const [first, next, more] = isAt ? all.filter((one) => targets[one.c] || isSpare(one) || !one.isWide) : all;
  if (more || named.length > 2) return singleOf(named);
  if (isTwo && isAt) return { number: at("votes"), other: at("second") };
  if (!next) return first?.isWide && isSpare(first) ? { left: first } : { number: first };
  if (isTwo) return { number: first, other: next };
  return isOne ? { number: at("votes") ?? first, left: next } : { asked: { pair: [first, next] } };
}
