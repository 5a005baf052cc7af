// A name that a cell of a text program has in two lines: pasted, its first line is a row without an amount.
import { readNumber } from "../exact/decimals.js";

const MOST_LETTERS = 60; // of both lines together

/** The two lines of the one name that may be broken, in `rows` below the headings: {at, lines}; null where there is
 * none, or several, or a line without an amount isn't followed by one with the amounts that all others have. */
export function brokenName(rows) {
  const isWord = (text = "") => /^\p{L}[^\d:;,]*$/u.test(text), isAmount = (text = "") => !readNumber(text).fault;
  const filled = rows.map((row) => row.filter(Boolean)), lone = filled.flatMap((row, r) => (row.length < 2 ? [r] : []));
  const [at] = lone, [line, next, ...others] = lone.length === 1 ? filled.slice(at) : [];
  const wide = next?.length ?? 0, rest = filled.filter((_, r) => r !== at);
  const isTable = rest.length > 1 && rest.every((row) => row.length === wide && isWord(row[0]) && isAmount(row[1]));
  if (!line?.length || !isTable || !isWord(line[0]) || rows[at].length > 1) return null;
  const lines = [line[0], next[0]];
  return lines.join(" ").length > MOST_LETTERS ? null : { at, lines };
}

/** The rows with that name in one. */
export function mendedName(rows, { at, lines }) {
  return rows.flatMap((row, r) => {
    return r === at ? [] : [r === at + 1 ? row.map((text, c) => (c ? text : lines.join(" "))) : row];
  });
}
