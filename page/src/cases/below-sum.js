// What stands below the sum of the claims is no claim without a question: it may be the estate, or what comes off it.
import { isEmpty, isNamedSum, withoutSumNotes } from "./sum-row.js";
import { mayBeWhole } from "./whole-words.js";
import { isSumWord } from "../game/names.js";

const MOST_BELOW = 4; // rows; more are claims below a part of them
const PART = /^(?:sub|zwischen|sous|carried|brought|übertrag|vortrag|report)/iu;

/** Asks of the first row below the sum, unless somebody said that it is a claim (`state.notWhole`), or that the sum is
 * none (`state.notSums`). Whether it was asked. */
export function askBelowSum(reading, state) {
  const kept = state.rows.map((row, r) => ({ row, r })).filter(({ row }) => !isEmpty(row));
  const { notSums = [], notWhole = [] } = state, nameOf = ({ row: { name = "" } }) => name.trim();
  const isSum = (one, k) => !PART.test(nameOf(one)) && !notSums.includes(nameOf(one))
    && isNamedSum(reading, kept, k, ["claim"]);
  const sum = notSums === true ? -1 : kept.findLastIndex(isSum), below = sum < 0 ? [] : kept.slice(sum + 1);
  const isOpen = (name) => name && !isSumWord(name) && !notWhole.includes(name);
  const found = below.length <= MOST_BELOW && below.find((one) => one.row.claim.trim() && isOpen(nameOf(one)));
  if (!found) return false;
  withoutSumNotes(reading); // it is asked later
  const name = nameOf(found);
  reading.asked = { r: found.r, name, amount: found.row.claim, isBelow: true, isOther: !mayBeWhole(name) };
  return true;
}
