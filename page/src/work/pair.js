// Why one pays or gets more than another: the best group of each without the other.
import { Rational } from "../exact/rational.js";
import { membersOf } from "../game/groups.js";

const MOST_PLAYERS = 12; // of games that are no tables, whose groups take longer

/** Of players i and j by these shares: `alone`, what each is worth or costs alone, and `holds`, the group with each and
 * without the other that gains most by leaving: its members, by how much, and what it would have; null where the game
 * has too many groups. */
export function pair({ shares: texts, i, j }, game) {
  const shares = texts.map(Rational.of);
  if (!game.isTable() && game.n > MOST_PLAYERS) return null;
  return {
    alone: [i, j].map((one) => String(game.alone(one))),
    holds: [[i, j], [j, i]].map(([one, other]) => bestOf(game, shares, one, other)),
  };
}

function bestOf(game, shares, one, other) {
  let best = null;
  for (let mask = 1; mask < 2 ** game.n; mask++) {
    if (!((mask >> one) & 1) || (mask >> other) & 1) continue;
    const group = membersOf(mask), own = game.told(group), part = Rational.sum(group.map((i) => shares[i]));
    const gain = game.costs ? part.minus(own) : own.minus(part);
    const excess = game.perHead ? gain.over(Rational.of(group.length)) : gain;
    if (!best || best.excess.less(excess)) best = { group, own, part, excess };
  }
  const [own, part, excess] = [best.own, best.part, best.excess].map(String);
  return { group: best.group, own, part, excess };
}
