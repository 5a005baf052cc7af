// Rows of one name in a list: one person whose numbers add, several of one name, or the same rows pasted twice.
import { typedText } from "../exact/decimals.js";
import { Rational } from "../exact/rational.js";
import { isMark } from "../exact/marks.js";
import { numbered } from "./mended-names.js";
import { isEmpty } from "./sum-row.js";

/** Asks what rows with the same name are, if `keys` are numbers that add; else only of rows that are the same in all,
 * until somebody says that they count (`state.notTwice`). Another question comes first. */
export function askOfTwice(reading, state, keys = null) {
  const textOf = (row, key) => (row[key] ?? "").trim(), nameOf = (row) => reading.nameOf(row.name);
  const all = (row) => JSON.stringify(Object.entries(row).filter(([, text]) => text.trim()).sort());
  const idOf = keys ? nameOf : all, rows = state.rows.filter((row) => !isEmpty(row)), first = new Map();
  const isNamed = (row) => nameOf(row) || (!keys && textOf(row, "type"));
  for (const row of rows) if (isNamed(row) && !first.has(idOf(row))) first.set(idOf(row), row);
  const others = rows.filter((row) => isNamed(row) && first.get(idOf(row)) !== row);
  if (!others.length || reading.asked || (!keys && state.notTwice)) return;
  const [other] = others, names = new Set(others.map(idOf)), mark = isMark(reading.mark) ? reading.mark : ".";
  const once = rows.filter((row) => !others.includes(row));
  const isSame = others.every((row) => all(row) === all(first.get(idOf(row))));
  const sumOf = (row, key) => typedText(Rational.sum(rows.filter((one) => idOf(one) === idOf(row))
    .map((one) => reading.known(textOf(one, key)).value)), mark);
  const added = () => once.map((row) => (names.has(idOf(row))
    ? { ...row, ...Object.fromEntries(keys.map((key) => [key, sumOf(row, key)])) } : row));
  const fresh = keys && numbered(rows.map(({ name }) => name));
  reading.asked = {
    name: nameOf(other) || textOf(other, "type"), more: names.size - 1, canKeep: !keys,
    ways: [
      ...(keys && !reading.count && !reading.empty.count ? [["One: add them", added()]] : []),
      ...(keys ? [["Several: number them", rows.map((row, k) => ({ ...row, name: fresh[k] }))]] : []),
      ...(isSame ? [["Pasted twice: keep one", once]] : []),
    ],
  };
}
