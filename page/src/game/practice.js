// Divisions by the formulas of contracts and agencies, from what each costs or is worth alone and adds to all others.
// The page works them out itself, and nobody has proved them.
import { Rational, ZERO } from "../exact/rational.js";

/** In proportion to what each costs or is worth alone; of an estate to the claims. Null if one of these is negative, or
 * all are 0. */
export function inProportion({ kind, amounts, own, total }) {
  const weights = kind === "bankruptcy" ? amounts : own;
  return weights.some((weight) => weight.isNegative()) ? null : spread(weights.map(() => ZERO), weights, total);
}

/** Separable costs and remaining benefits, as agencies have it since the Tennessee Valley: each pays what it adds to
 * the others, and of the rest by what it would save against paying alone. Null for gains, and if nobody would save. */
export function remainingBenefits({ costs, own, adds, total }) {
  if (!costs) return null;
  const left = own.map((alone, i) => Rational.max([ZERO, alone.minus(adds[i])]));
  return spread(adds, left, total);
}

/** A base for each, and what then lacks by weights; null if these add to 0. */
function spread(base, weights, total) {
  const rest = total.minus(Rational.sum(base)), all = Rational.sum(weights);
  return all.isZero() ? null : base.map((own, i) => own.plus(rest.times(weights[i]).over(all)));
}
