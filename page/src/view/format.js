// How numbers are shown, by the decimals and the mark that the user wants.
import { Rational, ZERO } from "../exact/rational.js";
import { apartTexts, decimalOf, placesOf, roundedSteps, stepsOf } from "../exact/decimals.js";

/** `spelling` are the decimal mark and the sign between thousands. */
export function formatOf(places, spelling) {
  const text = (steps) => decimalOf(steps, places, spelling);
  // one column parts thousands alike
  const texts = (all) => {
    const isLong = all.some((steps) => text(steps) !== decimalOf(steps, places, { ...spelling, grouped: false }));
    return all.map((steps) => decimalOf(steps, places, { ...spelling, least: isLong ? 3 : 4 }));
  };
  const stepsIn = (values, rows) => (rows ? stepsOfRows(values, rows, places) : roundedSteps(values, places));
  return {
    places,
    ...spelling,
    text,
    /** For files and spreadsheets, which know no thousands. */
    plain: () => formatOf(places, { mark: spelling.mark }),
    show: (value) => text(stepsOf(value, places)),
    /** Numbers that a sentence compares: with more decimals where they would look the same. */
    apart: (...values) => apartTexts(values, places, spelling),
    /** By how much: what isn't 0 isn't shown as 0. */
    by: (value) => apartTexts([value, ZERO], places, spelling)[0],
    /** Values as decimals that add up, and their sum as the last; those of rows to what each airline pays, too. */
    column: (values, rows) => texts(withSum(stepsIn(values, rows))),
    texts,
    steps: stepsIn,
    /** Whether some decimals of a column are moved by a step of the last place, so that all add up. */
    isMoved: (values, rows) => stepsIn(values, rows).some((step, k) => step !== stepsOf(values[k], places)),
    isExact: (value) => {
      const needed = placesOf(value);
      return needed >= 0 && needed <= places;
    },
  };
}

/** Totals of rows in steps of the last place: first what each airline pays together, so that these add to the whole,
 * then its rows, so that they add to that. So a sentence on airlines and the rows say the same. */
export function stepsOfRows(totals, rows, places) {
  const airlines = new Map();
  rows.forEach(({ sum }, r) => airlines.set(sum ?? r, [...(airlines.get(sum ?? r) ?? []), r]));
  const owns = [...airlines.values()], steps = Array(rows.length), of = (own) => own.map((r) => totals[r]);
  roundedSteps(owns.map((own) => Rational.sum(of(own))), places).forEach((whole, k) => {
    roundedSteps(of(owns[k]), places, whole).forEach((step, j) => (steps[owns[k][j]] = step));
  });
  return steps;
}

/** Steps, and their sum as the last. */
export function withSum(steps) {
  return [...steps, steps.reduce((sum, step) => sum + step, 0n)];
}

/** What is shown of the rows' values less what is shown of others, with signs, and the sum of that as the last. */
export function signedDifferences(values, others, rows, { steps, text }) {
  return signedSteps(...[values, others].map((some) => steps(some, rows)), text);
}

/** Steps less others, as texts with signs, and their sum as the last. */
export function signedSteps(own, beside, text) {
  return withSum(own.map((step, k) => step - beside[k])).map((step) => `${step > 0n ? "+" : ""}${text(step)}`);
}

/** What exact/decimals.js does where rounding by itself doesn't add up. */
export const MOVED = "Rounded so that they add up: all are rounded down, and each unit of the last place that then "
  + "lacks goes to who lost most by that, among equals to the upper row. So equal shares may differ by one.";

/** The same of these rows: where an airline has several, that is rounded before them. */
export function movedText(rows) {
  const sums = rows.map(({ sum }) => sum).filter((sum) => sum !== undefined);
  const isSeveral = new Set(sums).size < sums.length;
  return isSeveral ? `${MOVED} What each user pays for all its rows is rounded first, and then the rows, so that `
    + "they add to that." : MOVED;
}

/** How a player is named, as the rows have it: a landing by its row. */
export function labelOf(rows, player) {
  return rows.find(({ players }) => players.includes(player)).label;
}

/** The totals of the rows by a point: of a row of landings what they pay together. */
export function totalsOf(rows, shares) {
  return rows.map(({ players }) => shares[players[0]].times(Rational.of(players.length)));
}
