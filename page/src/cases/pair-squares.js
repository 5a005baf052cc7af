// A square of names above and names before: each number is that of the two, and those of the diagonal, or below
// "alone", are of one. A row of another name may have one number, as that of all.
import { readNumber } from "../exact/decimals.js";
import { isAloneWord } from "./group-words.js";

const WITH = /^(?:(?:together )?with|mit|avec|con|met|\+|&) ?(?=\S)/iu;
const NONE = /^[-–—x]?$/iu; // on the diagonal
const TOLD = "Each number was taken as that of the two beside and above it, or of one alone.";

/** Rows of a group and its number from a square of pairs, with `from`, the place of the row of each, and what is told;
 * the same rows if they are others. */
export function fromPairs(given) {
  const [[, ...heads] = [], ...below] = given, names = below.map(([name = ""]) => name), known = new Set(names);
  const nameOf = (head) => (known.has(head) ? head : head.replace(WITH, ""));
  const columns = heads.map((head) => (isAloneWord(head) ? null : nameOf(head))), pairs = columns.filter(Boolean);
  const cellsOf = (row) => heads.map((_, c) => (NONE.test(row[c + 1] ?? "") ? "" : row[c + 1]));
  const isNumber = (text) => !text || !readNumber(text).fault, whole = { rows: given, told: "" };
  const isOf = pairs.length > 1 && pairs.every((name) => known.has(name)) && known.size === below.length
    && new Set(columns).size === columns.length
    && below.every((row) => /^[^+]+$/.test(row[0]) && cellsOf(row).every(isNumber));
  if (!isOf) return whole;
  const found = new Map(), add = (group, text, r) => {
    const key = [...group].sort().join("+");
    found.set(key, [...found.get(key) ?? [], { group: group.join("+"), text, r: r + 1 }]);
  };
  below.forEach((row, r) => {
    const [name] = row, cells = cellsOf(row), own = cells.filter(Boolean), isOther = !pairs.includes(name);
    const groupOf = (c) => ([null, name].includes(columns[c]) ? [name] : [name, columns[c]]);
    cells.forEach((text, c) => text && add(isOther && own.length === 1 ? [name] : groupOf(c), text, r));
  });
  const all = [...found.values()], isRight = all.every((some) => new Set(some.map(({ text }) => text)).size === 1);
  if (!isRight) return whole;
  return { rows: all.map(([{ group, text }]) => [group, text]), from: all.map(([{ r }]) => r), told: TOLD };
}
