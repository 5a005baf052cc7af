// Runways of any number of landings, in exact fractions, by the two rules that are proved for any number: Littlechild's
// payments are the nucleolus (the theorem `payments_are_the_nucleolus`; Littlechild 1974), and equal parts of each step
// of the costs are the Shapley shares (`shapley_is_by_step`; Littlechild and Owen 1973). The program takes 64 landings,
// and 32 for Shapley. Nobody has proved what stands here; up to there it is compared with the program.
import { Rational, ZERO } from "../exact/rational.js";
import { mostFor } from "../game/classes.js";

/** Each cost of rows {cost, count}, from the least, with the place of the last landing that has it. */
function placesOf(rows) {
  const costs = [...rows].sort((one, other) => one.cost.compare(other.cost)), places = [];
  let place = 0;
  for (const { cost, count } of costs) {
    place += count;
    if (places.at(-1)?.cost.equals(cost)) places.at(-1).place = place;
    else places.push({ cost, place });
  }
  return places;
}

/** Of `places` from some on, before which `settled` landings have `paid`: the least part that a cost leaves, and the
 * place of the last that leaves it. Of many landings parts have hundreds of digits, so only the least is in lowest
 * terms. */
function leastPart(places, { paid, settled, everyone }) {
  const heads = (place) => BigInt(place - settled + (place < everyone ? 1 : 0));
  let least = null, last = 0;
  places.forEach(({ cost, place }, k) => {
    const own = { left: cost.num * paid.den - paid.num * cost.den, by: cost.den * heads(place) };
    if (!least || own.left * least.by <= least.left * own.by) [least, last] = [own, k];
  });
  return { part: new Rational(least.left, least.by * paid.den), place: last };
}

/** What a landing of each row pays by the nucleolus. All that aren't settled pay the least part that some cost leaves:
 * what of it isn't paid yet, parted among the landings up to it, and one more where others need more. */
export function nucleolusOf(rows) {
  const places = placesOf(rows), everyone = places.at(-1).place, shares = new Map();
  let paid = ZERO, settled = 0, next = 0;
  while (next < places.length) {
    const { part, place } = leastPart(places.slice(next), { paid, settled, everyone }), last = next + place;
    for (const { cost } of places.slice(next, last + 1)) shares.set(String(cost), part);
    paid = paid.plus(part.times(Rational.of(places[last].place - settled)));
    [settled, next] = [places[last].place, last + 1];
  }
  return rows.map(({ cost }) => shares.get(String(cost)));
}

/** What a landing of each row pays by Shapley: each step of the costs is borne alike by all that need so much. */
export function shapleyOf(rows) {
  const places = placesOf(rows), everyone = places.at(-1).place, shares = new Map();
  let part = ZERO;
  places.forEach(({ cost }, k) => {
    const before = places[k - 1] ?? { cost: ZERO, place: 0 };
    part = part.plus(cost.minus(before.cost).over(Rational.of(everyone - before.place)));
    shares.set(String(cost), part);
  });
  return rows.map(({ cost }) => shares.get(String(cost)));
}

const MOST = { nucleolus: mostFor("nucleolus", "airport"), shapley: mostFor("shapley", "airport") }; // landings

/** What the program doesn't answer of rows {cost, count} with their labels, as texts; null where it
 * answers all. `isAll` tells that it answers nothing. */
export function beyondProgram(landings, labels) {
  const all = landings.reduce((sum, { count }) => sum + count, 0), isAll = all > MOST.nucleolus;
  if (all <= MOST.shapley) return null;
  const texts = (values) => values.map(String), points = [
    isAll && { key: "nucleolus", title: "Nucleolus", each: texts(nucleolusOf(landings)) },
    { key: "shapley", title: "Shapley shares", each: texts(shapleyOf(landings)) },
  ].filter(Boolean);
  const rows = landings.map(({ cost, count }, r) => {
    const { label, sum, type } = labels[r];
    return { label, sum, type, cost: String(cost), count };
  });
  return { isAll, all, rows, points };
}
