// Groups that nobody has put a number on: what they cost, or are worth, by their best split into groups that have one.
import { lcm, Rational } from "../exact/rational.js";
import { groupedText } from "../exact/decimals.js";
import { isMark, onlyMark } from "../exact/marks.js";
import { withEscapes } from "../game/names.js";
import { NOTHING } from "../cases/filled-cells.js";
import { byOneMark, Reading } from "../cases/reading.js";
import { groupLabel, packed, unpacked } from "../cases/tables.js";
import { plural } from "../game/words.js";

const MOST_NAMED = 300; // groups that are named

/** Fills the empty groups of a table, and anew those that were `filled` before (`again` only these, so that a cell may
 * be emptied): {state, filled, notes, above}, or {fault}. `above` names groups that cost more than larger ones.
 * Costs take the cheapest split, gains the best; `how` may be "larger": then no group costs more than a larger one that
 * holds it. What all together cost or gain is never filled: it is divided. Numbers are read as those of the case, so
 * nothing is filled while the user is asked how (unless that `isMarked`). */
export function fillSplits({ typed, mark, costs, filled = [], how = "split", again = false, isMarked = true }) {
  const { names, numbers: given, amounts } = unpacked(typed), old = new Set(filled), all = given.length - 1;
  const numbers = given.map((text, mask) => (old.has(mask) ? "" : text));
  const { values, scale, by, thousands, fault } = scaledValues(numbers, mark, { isMarked, amounts });
  if (fault) return { fault };
  const best = bestSplits(how === "larger" ? heldByLarger(values).map(({ value }) => value) : values, costs);
  const fresh = [], hasWhole = values[all] !== null;
  const texts = numbers.map((text, mask) => {
    if (!mask || mask === all || values[mask] !== null || best[mask] === null || (again && !old.has(mask))) return text;
    fresh.push(mask);
    values[mask] = best[mask];
    return groupedText(new Rational(BigInt(best[mask]), scale), by, thousands);
  });
  const lacking = texts.filter((text, mask) => mask && mask !== all && !text.trim()).length;
  const above = abovesOf(values, fresh, { names, texts });
  const lone = names.filter((_, i) => !texts[1 << i].trim() && all > 1).length;
  const notes = notesOf({ count: fresh.length, lacking, lone, hasWhole, above: above.length, costs, how });
  return { state: packed({ names, numbers: texts }), filled: fresh, notes, above };
}

/** For each group the least number of a group that holds it, itself or a larger one: {value, mask}. */
function heldByLarger(values) {
  const least = values.map((value, mask) => ({ value, mask }));
  for (let bit = 1; bit < least.length; bit *= 2) {
    for (let mask = least.length - 1; mask > 0; mask--) {
      const other = least[mask | bit], own = least[mask];
      if (other.value !== null && (own.value === null || other.value < own.value)) least[mask] = other;
    }
  }
  return least;
}

/** The filled groups that cost more (gain more) than a larger group that holds them, with the one that costs least. */
function abovesOf(values, fresh, { names, texts }) {
  const least = heldByLarger(values), told = (mask) => `${groupLabel(names, mask)}: ${texts[mask]}`;
  const found = fresh.filter((mask) => least[mask].value < values[mask]);
  return found.map((mask, k) => (k < MOST_NAMED ? `${told(mask)} (${told(least[mask].mask)})` : ""));
}

/** What was typed as whole numbers over a scale, null where nothing was; `by` is the decimal mark by which all of it is
 * written. */
function scaledValues(numbers, mark, { isMarked, amounts }) {
  const { reading, values } = byOneMark((by) => valuesOf(numbers, by, amounts), mark);
  if (reading.count) return { fault: "Mend the numbers that are marked first." };
  reading.askOfMixed(isMarked);
  reading.askOfUnsure(isMarked);
  const asked = reading.mixed ?? reading.unsure;
  if (asked) return { fault: `First say how “${withEscapes(asked.typed.trim())}” is meant. Nothing was filled.` };
  reading.close();
  if (reading.isTooFine) return { fault: "The numbers are too fine: they have no common denominator to 65,536." };
  const scale = values.reduce((all, value) => (value ? lcm(all, value.den) : all), 1n);
  const whole = values.map((value) => value && Number((value.num * scale) / value.den));
  const settled = reading.settles(); // where that is open, a sign between thousands could be read as a decimal mark
  const sign = onlyMark(reading.thousands), isClear = settled || !isMark(sign);
  return { scale, values: whole, by: settled ?? mark, thousands: isClear ? sign : null };
}

function valuesOf(numbers, mark, amounts) {
  const reading = new Reading(mark, { amounts }), settled = { canBeNegative: true };
  const values = numbers.map((text, mask) => {
    return mask && text.trim() ? reading.number(`numbers.${mask}`, text, "The number", settled) : null;
  });
  return { reading, values };
}

/** The best sum of groups with numbers that split each group, which may be its own number; null where there is none. A
 * group with a number may be split too: as a part of a larger one it counts for what its parts come to. */
function bestSplits(values, costs) {
  const best = [...values], isBetter = costs ? (a, b) => a < b : (a, b) => a > b;
  for (let mask = 1; mask < best.length; mask++) {
    const low = mask & -mask, rest = mask & ~low;
    for (let part = (rest - 1) & rest; rest; part = (part - 1) & rest) {
      const one = best[part | low], other = best[mask & ~(part | low)];
      const isWhole = one !== null && other !== null;
      if (isWhole && (best[mask] === null || isBetter(one + other, best[mask]))) best[mask] = one + other;
      if (!part) break;
    }
  }
  return best;
}

function notesOf({ count, lacking, lone, hasWhole, above, costs, how }) {
  if (!count && !lacking && hasWhole) return ["No group is empty."];
  const split = costs ? "cheapest split" : "best split", notes = [], isLarger = how === "larger";
  const [cost, less] = costs ? ["cost", "less"] : ["gain", "more"];
  if (count) {
    const way = `its ${split} into groups that have a number${isLarger ? ", or a larger group that holds it" : ""}`;
    notes.push(`${plural(count, "group was", "groups were")} filled, each by ${way}. They are marked, and follow when `
      + "another number changes. "
      + `That says: together they would ${cost} no ${less} than ${isLarger ? "so" : "apart"}. If a group could, the `
      + "shares may change, those of the nucleolus too.");
  }
  if (above) {
    notes.push(`${above} of them ${cost} more than a larger group that holds them.${costs
      ? " A group that could use the larger one’s plan would cost less." : ""}`);
  }
  const still = plural(lacking, "group is", "groups are");
  if (lacking) notes.push(`${still} still empty: no groups with a number make ${lacking > 1 ? "them" : "it"} up.`);
  if (lone) notes.push(`Type what each player ${cost}s alone${costs ? "" : `, or press “${NOTHING}”`}.`);
  if (!hasWhole) notes.push(`What all together ${cost} has to be typed: it is what is divided, so it isn’t filled.`);
  return notes;
}
