// How much of a pasted text is read: what no person has as a table is refused before a reader looks at it.
import { countText } from "../exact/decimals.js";

const MOST_LETTERS = 20000, MOST_CELLS = 500; // of a line, unless it has nothing but numbers
const MOST_EMPTY = 200000; // lines, with empty ones
const FEW_LINES = 4000, MANY_LINES = 70000; // of a list, a market or a network; of a table of all groups
const PARTS = /[\t;]/g, WORDS = /[^\d\s.,;:+\-−eE()[\]{}'’]/; // no sign of numbers in a line
const MOST_HEAD = 200, MOST_NUMBERS = 2000000; // letters before the numbers of a line, as "v = np.array(", and of it

const hasText = (line) => /\S/.test(line);
const sentence = (begin, [count, most, what]) => `${begin} ${countText(count)} ${what}, and at most ${countText(most)} `
  + "are read. Copy the table alone, each row as a line.";

/** Why a text is too much to be read, in words; undefined if it isn't. One for a table of all groups has more lines,
 * and lines of numbers alone may be long there (`isLong`). */
export function tooMuch(text, { isLong = false } = {}) {
  const all = text.split(/\r\n?|\n/), lines = all.filter(hasText), most = isLong ? MANY_LINES : FEW_LINES;
  const isOver = ([count, limit]) => count > limit;
  const many = [[lines.length, most, "lines"], [all.length, MOST_EMPTY, "lines"]].find(isOver);
  if (many) return sentence("These are", many);
  const isNumbers = (line) => isLong && line.length <= MOST_NUMBERS && !WORDS.test(line.slice(MOST_HEAD));
  for (const line of all) {
    const { length } = line, cells = length > MOST_CELLS ? (line.match(PARTS)?.length ?? 0) + 1 : 1;
    const found = [[cells, MOST_CELLS, "cells"], [length, MOST_LETTERS, "letters"]].find(isOver);
    if (found && !isNumbers(line)) return sentence("A line has", found);
  }
  return undefined;
}
