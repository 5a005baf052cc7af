// Whether a market has ties: other pairs that gain as much together as those that trade.
import { Rational } from "../exact/rational.js";
import { listed } from "../game/words.js";

/** Pairs that could trade in the place of some of those that do, [[buyer, seller], ..]; null where there are none. By
 * prices that no pair betters, pairs may trade that gain just what they get, and who gets nothing may go without. */
export function otherPairs({ rows }, matching) {
  const best = matching["buyers best"].map(Rational.of);
  const pairs = matching.pairs.map((pair) => pair.map((player) => Number(player) - 1));
  const sellerOf = new Map(pairs), buyerOf = new Map(pairs.map(([buyer, seller]) => [seller, buyer]));
  const open = rows.map((row, buyer) => row.flatMap((worth, k) => {
    const seller = rows.length + k, isTight = best[buyer].plus(best[seller]).equals(worth);
    return isTight && !worth.isZero() && sellerOf.get(buyer) !== seller ? [seller] : [];
  }));
  const isOut = (player) => player === undefined || best[player].isZero();
  for (const first of rows.keys()) {
    const takenBy = new Map(), queue = [first], isLoose = isOut(sellerOf.get(first));
    for (const buyer of queue) {
      for (const seller of open[buyer]) {
        if (takenBy.has(seller)) continue;
        takenBy.set(seller, buyer);
        const other = buyerOf.get(seller);
        if (other === first || (isLoose && isOut(other))) return chainTo(seller, { first, takenBy, sellerOf });
        if (other !== undefined) queue.push(other);
      }
    }
  }
  return null;
}

function chainTo(last, { first, takenBy, sellerOf }) {
  const chain = [];
  for (let seller = last; ; seller = sellerOf.get(chain[0][0])) {
    chain.unshift([takenBy.get(seller), seller]);
    if (chain[0][0] === first) return chain;
  }
}

/** The same in a sentence; "" where there are none. */
export function tiesText(game, matching) {
  const others = otherPairs(game, matching)?.map((pair) => pair.map((player) => game.shown[player]).join(" – "));
  return others ? `There are ties: with ${listed(others)} in the place of others, all gain as much together, and what `
    + "each gets stays the same." : "";
}
