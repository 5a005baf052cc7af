// The greatest excess of the coalitions that are open still.
import { membersOf } from "./coalitions.js";

/** All coalitions of at most 16 players that are open still, with their excesses. What is settled once stays so. */
export class OpenCoalitions {
  constructor(point) {
    this.open = [];
    for (let mask = 1; mask < 2 ** point.n - 1; mask++) {
      const players = membersOf(mask);
      this.open.push({ players, excess: point.excess(players) });
    }
  }

  greatest(settled, least) {
    this.open = this.open.filter(({ players }) => settled.isOpen(players));
    return this.open.reduce((most, { excess }) => (excess > most ? excess : most), least);
  }
}

/** Above 16 players the coalitions are too many to go through, and the class is airport, bankruptcy or voting. */
export class OpenByClass {
  constructor(point) {
    this.point = point;
  }

  greatest(settled, least) {
    if (settled.free.size < 2) return least;
    const most = greatestSplit(this.point, settled.free);
    return most !== null && most > least ? most : least;
  }
}

/** The greatest excess of a coalition that holds some and lacks some of the free players, by the class. */
function greatestSplit(point, free) {
  const { game, factor, shares } = point;
  if (game.kind === "voting") return greatestVote(point, free);
  const everyone = point.everyone(), payments = shares.map((share) => -share);
  const numbers = game.numbers.map((number) => BigInt(number) * factor);
  if (game.kind === "airport") {
    // of players who cost at most c each, a set costs at most c, and c itself where c is its greatest cost
    const each = [...new Set(numbers)].map((c) => less(
      greatestSum(everyone.filter((i) => numbers[i] <= c), free, payments),
      c,
    ));
    return each.reduce(greater, null);
  }
  // bankruptcy: the worth is the greater of 0 and the estate less the claims of the others
  const claims = numbers.slice(0, -1), estate = numbers.at(-1);
  const kept = greatestSum(everyone, free, claims.map((claim, i) => claim + payments[i]));
  const claimed = claims.reduce((total, claim) => total + claim, 0n);
  return greater(greatestSum(everyone, free, payments), less(kept, claimed - estate));
}

/** Differences and maxima of numbers, where null stands for no coalition at all. */
function less(one, other) {
  return one === null ? null : one - other;
}

function greater(one, other) {
  if (one === null || other === null) return one ?? other;
  return one > other ? one : other;
}

/** The greatest sum of values over the sets within the pool that hold some and lack some of the free players: all who
 * add to it, mended by one player where these hold none or all of the free. */
function greatestSum(pool, free, value) {
  const freeInPool = pool.filter((i) => free.has(i));
  if (!freeInPool.length) return null;
  const chosen = new Set(pool.filter((i) => value[i] > 0n));
  const best = (some, isBetter) => some.reduce((one, other) => (isBetter(value[other], value[one]) ? other : one));
  if (!freeInPool.some((i) => chosen.has(i))) chosen.add(best(freeInPool, (a, b) => a > b));
  if ([...free].every((i) => chosen.has(i))) chosen.delete(best([...free], (a, b) => a < b));
  return [...chosen].reduce((total, i) => total + value[i], 0n);
}

/** The same for votes. Player by player: the least that the members of a coalition get, by their votes and by whether
 * it holds some and lacks some of the free players. */
function greatestVote({ n, game, shares, factor }, free) {
  let least = new Map([["0", { votes: 0, holds: false, lacks: false, got: 0n }]]);
  for (let i = 0; i < n; i++) {
    const longer = new Map(), isFree = free.has(i);
    for (const { votes, holds, lacks, got } of least.values()) {
      const without = { votes, holds, lacks: lacks || isFree, got };
      const joined = { votes: votes + game.numbers[i], holds: holds || isFree, lacks, got: got + shares[i] };
      for (const next of [without, joined]) {
        const key = `${next.votes} ${next.holds} ${next.lacks}`, known = longer.get(key);
        if (!known || next.got < known.got) longer.set(key, next);
      }
    }
    least = longer;
  }
  const quota = game.numbers[n];
  return [...least.values()]
    .filter(({ holds, lacks }) => holds && lacks)
    .map(({ votes, got }) => (votes >= quota ? factor : 0n) - got)
    .reduce(greater, null);
}
