// A row that is the sum of others comes with many sheets. It is nobody, and must not count before that is settled.
import { MARKS } from "../exact/marks.js";
import { Rational } from "../exact/rational.js";
import { isSumWord } from "../game/names.js";
import { byOneMark, Reading } from "./reading.js";

// how the name of a sum of some rows may begin
const PARTIAL = new RegExp("^((grand |sub)?[ -]?tota+l|sum\\b|(zwischen)?summe|gesamt|sous-total|somme|carried|"
  + "report\\b|übertrag)", "iu");

const CARRIED = /^(carried|brought) (forward|over|down)|^(übertrag|vortrag|report)\b/iu;
const ALL = /^([Σ∑]|all|alle|ensemble)$/iu;

/** The name in a row: in a runway without airlines that of its type. */
const nameIn = ({ name = "", type = "" }) => name.trim() || type.trim();

export const isEmpty = (row) => Object.values(row).every((text) => !text.trim());

/** Asks of a row that is named as a sum, of one whose numbers are the sums of all others, or of the last one, if it has
 * no name below names and a number of it is the sum of those above, or the greatest. A row that is only the sum of all
 * others by its numbers is asked about in a list that was pasted. `keys` are the columns of numbers;
 * `state.notSums` are the names of which it was said already, or true for all. Whether it was asked. */
export function askOfSum(reading, state, keys) {
  const kept = state.rows.map((row, r) => ({ row, r })).filter(({ row }) => !isEmpty(row)), last = kept.at(-1);
  if (kept.length < 2) return false;
  const nameOf = ({ row }) => nameIn(row), { notSums = [] } = state;
  const isPartial = (one, k) => PARTIAL.test(nameOf(one)) && isOfRowsAbove(reading, kept, k, keys);
  const others = (one, key) => kept.filter((other) => other !== one).map(({ row }) => row[key] ?? "");
  const isOfAll = (one) => keys.every((key) => isSumOf(reading, one.row[key] ?? "", others(one, key)));
  const least = keys[0] === "votes" ? 3 : 2; // others: of two voters one often has as many votes as two more
  const isWhole = (one) => (one === last || PARTIAL.test(nameOf(one))) && kept.length > least && isOfAll(one);
  const isChance = (one) => !state.isPasted && !PARTIAL.test(nameOf(one)); // as the Talmud's 100, 200 and 300, typed
  const isWord = (name) => isSumWord(name) || [ALL, CARRIED].some((words) => words.test(name));
  const isSum = (one, k) => isWord(nameOf(one)) || isPartial(one, k) || (isWhole(one) && !isChance(one));
  const named = kept.filter((one, k) => isSum(one, k) && notSums !== true && !notSums.includes(nameOf(one)));
  const isAsked = named.length > 0 || (!nameOf(last) && Boolean(state.isNamed)
    && keys.some((key) => isAbove(reading, last.row[key], others(last, key))));
  if (!isAsked) return false;
  withoutSumNotes(reading);
  const one = named.at(-1) ?? last, { r } = one;
  const isOff = isSumWord(nameOf(one)) && !isPartial(one, kept.indexOf(one));
  const said = isOff && keys.map((key) => offBy(reading, one.row[key] ?? "", others(one, key)));
  reading.asked = { r, name: nameOf(one), isLast: r === last.r, off: (said || []).find(Boolean) };
  return true;
}

/** Takes back that a name may be that of a sum, where it is asked instead. */
export function withoutSumNotes(reading) {
  reading.notes = reading.notes.filter((note) => !note.includes("Is it the sum of the others?"));
}

/** Pasted rows without the one whose name is a word for a sum, if each number of it is that of two others or more:
 * {rows, sum}, its name, cells by their keys and amount. Where numbers can be read both ways, it is so in both. */
export function withoutSum({ rows, targets, amounts, beside }) {
  const cells = rows.map((row) => {
    const own = Object.fromEntries(row.map((text, c) => [targets[c]?.key, text ?? ""]));
    const beside = row.find((text, c) => !targets[c] && /\p{L}/u.test(text)) ?? ""; // a sum below a column left out
    return nameIn(own) || own.name === undefined ? own : { ...own, name: beside };
  });
  const sums = cells.filter((row) => isSumWord(nameIn(row))), [own] = sums;
  const others = cells.filter((one) => one !== own), keys = targets.filter((one) => one?.number).map(({ key }) => key);
  const given = keys.filter((key) => own?.[key]);
  const main = keys.find((key) => !["second", "count"].includes(key));
  if (sums.length !== 1 || !own[main] || others.length < 2) return { rows };
  const isSum = isByEach(cells, given, { amounts, beside }, (reading) => given.every((key) => {
    return isSumOf(reading, own[key], others.map((one) => one[key] || "0"));
  }));
  const sum = { name: nameIn(own), row: own, amount: own[main] };
  return isSum ? { rows: rows.filter((_, k) => cells[k] !== own), sum } : { rows };
}

/** Whether something `is` so of pasted cells, by each way in which their numbers can be read. */
export function isByEach(cells, keys, how, is) {
  const read = (by) => {
    const reading = new Reading(by, how);
    for (const key of keys) for (const one of cells) if (one[key]) reading.number("", one[key], "");
    return { reading, is: is(reading) };
  };
  return MARKS.every(([by]) => byOneMark(read, by).is);
}

/** What a sum says and what the others add to, if all are numbers and these differ. */
function offBy(reading, typed, others) {
  const [own, ...values] = [typed, ...others].map((text) => reading.known(text).value);
  const sum = values.every(Boolean) && Rational.sum(values);
  return own && sum && !own.equals(sum) ? [own, sum].map(String) : undefined;
}

/** Whether a row is named as a sum, and is that of two rows or more right above it. */
export function isNamedSum(reading, kept, k, keys) {
  const name = nameIn(kept[k].row);
  return (PARTIAL.test(name) || isSumWord(name)) && isOfRowsAbove(reading, kept, k, keys);
}

/** Whether a number of a row is the sum of two or more rows right above it. */
function isOfRowsAbove(reading, kept, k, keys) {
  return keys.some((key) => {
    const own = reading.known(kept[k].row[key]).value;
    let sum = Rational.of(0);
    for (let r = k - 1; own && r >= 0; r--) {
      const { value } = reading.known(kept[r].row[key]);
      if (!value) return false;
      sum = sum.plus(value);
      if (r < k - 1 && sum.equals(own)) return true;
    }
    return false;
  });
}

/** Whether a number is the sum of others, which all are given. */
function isSumOf(reading, typed, others) {
  const [own, ...values] = [typed, ...others].map((text) => reading.known(text).value);
  return Boolean(own) && values.every(Boolean) && own.equals(Rational.sum(values));
}

/** Whether a number is the sum of others, or greater than each of them. */
function isAbove(reading, typed, others) {
  const valueOf = (text) => reading.known(text).value, own = valueOf(typed);
  const values = others.map(valueOf).filter(Boolean);
  if (!own || !values.length) return false;
  return own.equals(Rational.sum(values)) || values.every((value) => value.less(own));
}
