// Numbers that are too fine for a document: all rounded to four decimals, or all times a power of ten.
import { Rational, ZERO } from "../exact/rational.js";
import { cellNumber, decimalOf, placesOf, stepsOf, typedText } from "../exact/decimals.js";
import { LIMITS } from "../game/classes.js";
import { caseNamed } from "../cases/cases.js";

const PLACES = 4;
const MOST = 2n ** BigInt(LIMITS.bits);
const MOST_POWER = 12;

/** The cells of a case with coarser numbers, and what was done to them: {typed, coarse}, or {fault}. `how` is "round"
 * or "whole". */
export function coarser({ id, typed: sent, mark, how }) {
  const kind = caseNamed(id), typed = kind.unpack?.(sent) ?? sent, texts = [];
  kind.mapNumbers(typed, (text) => (texts.push(text), text));
  const values = texts.map((text) => cellNumber(text, mark).value).filter(Boolean);
  const { change, coarse, fault } = how === "round" ? rounding(values, mark) : scaling(values, mark);
  if (fault) return { fault };
  const changed = kind.mapNumbers(typed, (text) => {
    const { value } = cellNumber(text, mark);
    return value ? change(value, text) : text;
  });
  return { typed: kind.pack?.(changed) ?? changed, coarse };
}

function rounding(values, mark) {
  const isLong = (value) => placesOf(value) < 0, long = values.filter(isLong);
  const rounded = (value) => new Rational(stepsOf(value, PLACES), 10n ** BigInt(PLACES));
  const most = Rational.max([ZERO, ...long.map((value) => value.minus(rounded(value)).abs())]);
  return {
    change: (value, text) => (isLong(value) ? typedText(rounded(value), mark) : text),
    coarse: { rounded: { count: String(long.length), of: String(values.length), most: String(most) } },
  };
}

function scaling(values, mark) {
  const powers = Array.from({ length: MOST_POWER + 1 }, (_, k) => 10n ** BigInt(k));
  const power = powers.findIndex((ten) => values.every(({ den }) => ten % den === 0n));
  if (power < 0) {
    return { fault: "Some of these numbers have no end as decimals, or more than twelve of them, so no power of ten "
      + "makes all whole. Round them." };
  }
  const ten = Rational.of(powers[power]), isLarge = values.some((value) => value.times(ten).abs().num >= MOST);
  if (isLarge) {
    return { fault: `Times ${decimalOf(powers[power], 0)} some number gets more than twelve digits. Round them.` };
  }
  return {
    change: (value) => typedText(value.times(ten), mark),
    coarse: { times: String(powers[power]) },
  };
}
