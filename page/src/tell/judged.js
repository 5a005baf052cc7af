// Whether an answer of propose or kernel can be about the shares beside it. The line of such an answer has neither game
// nor shares, so what it says is compared with them: the sum always, the excess of a group that could do better, and of
// few players whether any could.
import { Rational, ZERO } from "../exact/rational.js";
import { membersOf } from "../game/groups.js";

const MOST = 12, MOST_TOLD = 16; // players all of whose groups are looked at, and of a quick class
const SLOW = ["tree", "assignment", "market"]; // whose worths take long
const EFFICIENT = ["core", "blocked", "prekernel", "not prekernel"]; // answers on shares that add to the whole

/** What a group is worth less what its members get, by head if `isPerHead`; of costs a payment is a negative share. */
export function excessOf(game, shares, group, isPerHead = game.perHead) {
  const got = Rational.sum(group.map((i) => shares[i]));
  const plain = game.costs ? game.worth(group).plus(got) : game.worth(group).minus(got);
  return isPerHead ? plain.over(Rational.of(group.length)) : plain;
}

/** The greatest plain excess of a group with player i and without player j, and the first such group; null if there
 * are too many groups to look at. */
export function surplusOf(game, shares, i, j) {
  if (game.n > (SLOW.includes(game.kind) ? MOST : MOST_TOLD)) return null;
  let best = null;
  for (let mask = 1; mask < 2 ** game.n; mask++) {
    if (!((mask >> i) & 1) || (mask >> j) & 1) continue;
    const group = membersOf(mask), excess = excessOf(game, shares, group, false);
    if (!best || best.excess.less(excess)) best = { excess, group };
  }
  return best;
}

/** Why shares aren't those that an answer judges, as the end of a sentence; null if they may be. */
export function unlikeShares(game, shares, tree) {
  const unlike = (verb, found, wanted) => {
    const value = wanted instanceof Rational ? wanted : Rational.of(wanted);
    return found.equals(value) ? null : `they ${verb} ${found}, not ${value} as in the line`;
  };
  const total = Rational.sum(shares), { answer } = tree;
  if (answer === "not efficient") return unlike("add up to", total, tree.sum);
  const sum = EFFICIENT.includes(answer) ? unlike("add up to", total, game.whole()) : null;
  if (sum) return sum;
  if (answer === "blocked") {
    const group = tree.coalition.map((player) => Number(player) - 1);
    return unlike("give that group the excess", excessOf(game, shares, group), tree.excess);
  }
  if (game.n > MOST) return null;
  if (answer === "core") return someGains(game, shares) ? "they let a group do better" : null;
  if (answer !== "not prekernel") return null;
  const [i, j] = [tree.i, tree.j].map((player) => Number(player) - 1);
  const against = (one, other, key) => unlike(`give player ${one + 1} against player ${other + 1} the surplus`,
    surplusOf(game, shares, one, other).excess, tree[key]);
  return against(i, j, "ij") ?? against(j, i, "ji");
}

function someGains(game, shares) {
  for (let mask = 1; mask < 2 ** game.n - 1; mask++) {
    if (ZERO.less(excessOf(game, shares, membersOf(mask)))) return true;
  }
  return false;
}
