// What is said of numbers that the page rounded, or took times a power of ten, since they were too fine.
import { decimal, decimalOf, fractionText } from "../exact/decimals.js";
import { spoken } from "../exact/marks.js";
import { Rational } from "../exact/rational.js";
import { plural } from "../game/words.js";

const OF_THE_ROUNDED = "The answer is that of the rounded numbers";

/** `coarse` (cases/coarse.js) in sentences; "" where the numbers stand as they were given. */
export function coarseText({ times, rounded } = {}) {
  return [times && timesText(times), rounded && roundedText(rounded)].filter(Boolean).join(" ");
}

/** What the numbers of a file are, in a few words: "rounded numbers". */
export function coarseNumbers({ times, rounded }) {
  const numbers = rounded ? "rounded numbers" : "numbers";
  return times ? `${numbers} times ${decimalOf(BigInt(times), 0)}` : numbers;
}

function timesText(times) {
  const ten = decimalOf(BigInt(times), 0);
  return `All numbers are here times ${ten}, so that they are whole, and exact. So are the shares: divide them by `
    + `${ten}.`;
}

function roundedText({ count, of, most }) {
  const size = Rational.of(most), by = `by at most ${upTo(size)}`;
  if (!count) {
    return `Numbers were rounded to four decimals here, each ${by}. ${OF_THE_ROUNDED}: a yes or a no by less than `
      + "that, times the number of groups, may come of the rounding.";
  }
  const near = upTo(size.times(Rational.of(of))), each = count === "1" ? "" : "each ";
  return `${plural(Number(count), "number was", "numbers were")} rounded to four decimals, ${each}${by}. `
    + `${OF_THE_ROUNDED}: a yes or a no by less than ${near}, ${of} times that, may come of the rounding.`;
}

/** The totals of rows divided again, exact; "" where the numbers stand as they were given. */
export function dividedText({ times } = {}, title, rows, totals) {
  if (!times) return "";
  const ten = Rational.of(times), exact = (total) => exactText(total.over(ten), times.length + 1);
  const parts = totals.map((total, r) => `${rows[r].label} ${exact(total)}`);
  return `${title}, divided by ${decimalOf(BigInt(times), 0)}: ${parts.join("; ")}.`;
}

/** As a decimal, or as a fraction with about what it is. */
function exactText(value, most) {
  for (let places = 0; places <= most; places++) {
    if (value.times(powerOfTen(places)).isWhole()) return decimal(value, places, spoken);
  }
  return `${fractionText(value)} (about ${decimal(value, most, spoken)})`;
}

/** A size above 0 by two digits, none of it lost. */
function upTo(size) {
  let places = 0;
  while (places < 20 && size.times(powerOfTen(places)).less(Rational.of(10))) places += 1;
  return decimalOf(-size.times(powerOfTen(places)).negated().floor(), places, spoken);
}

function powerOfTen(places) {
  return new Rational(10n ** BigInt(places));
}
