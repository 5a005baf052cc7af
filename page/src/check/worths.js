// What a coalition is worth by the definitions, in whole numbers over the scale of its game, and its excess.
import { COSTS, lcm, need, reduced } from "./reading.js";
import { maskOf, membersOf } from "./coalitions.js";

function worth(game, players) {
  const { kind, numbers, n } = game;
  const sum = (some) => some.reduce((total, i) => total + numbers[i], 0);
  if (kind === "table") return numbers[maskOf(players)];
  if (kind === "cost-table") return -numbers[maskOf(players)];
  if (kind === "airport") return -players.reduce((most, i) => Math.max(most, numbers[i]), 0);
  if (kind === "voting") return sum(players) >= numbers[n] ? 1 : 0;
  if (kind === "tree") return -treeCost(game.rows, players);
  if (kind === "assignment") return matchingValue(game, maskOf(players));
  const others = numbers.slice(0, n).reduce((total, claim) => total + claim, 0) - sum(players);
  return Math.max(0, numbers[n] - others);
}

/** The least cost of a tree that joins the members to the source: always the cheapest link to a new member. */
function treeCost(rows, players) {
  const points = players.map((i) => i + 1), links = points.map((point) => rows[0][point]);
  let cost = 0;
  while (points.length) {
    let next = 0;
    for (let k = 1; k < points.length; k++) if (links[k] < links[next]) next = k;
    const [joined] = points.splice(next, 1);
    cost += links.splice(next, 1)[0];
    for (let k = 0; k < points.length; k++) links[k] = Math.min(links[k], rows[joined][points[k]]);
  }
  return cost;
}

/** The greatest value of a matching: the first buyer goes without a seller, or with one of them. */
function matchingValue(game, mask) {
  game.values ??= new Map();
  if (game.values.has(mask)) return game.values.get(mask);
  const buyers = game.rows.length, [first, ...others] = membersOf(mask);
  let value = 0;
  if (first < buyers) {
    const rest = mask & ~(1 << first);
    value = matchingValue(game, rest);
    for (const j of others.filter((player) => player >= buyers)) {
      value = Math.max(value, game.rows[first][j - buyers] + matchingValue(game, rest & ~(1 << j)));
    }
  }
  game.values.set(mask, value);
  return value;
}

// ---- Excesses

/** Shares of a game. All money is in whole numbers over a unit, which all denominators and sizes divide. */
export class Point {
  constructor(game, shares) {
    const scaled = shares.map(([num, den]) => reduced(num * game.scale, den));
    let finest = 1n;
    for (const [, den] of scaled) {
      finest = lcm(finest, den);
      need(finest <= 2n ** 63n, "the shares have no common denominator to 2^63");
    }
    const over = scaled.map(([num, den]) => num * (finest / den));
    need(over.every((share) => share < 2n ** 110n && share > -(2n ** 110n)), "a share is too great");
    this.game = game;
    this.n = game.n;
    const heads = game.perHead ? Array.from({ length: game.n }, (_, i) => BigInt(i + 1)).reduce(lcm, 1n) : 1n;
    this.factor = finest * heads;
    this.unit = game.scale * this.factor;
    this.shares = over.map((share) => share * heads * (COSTS.includes(game.kind) ? -1n : 1n));
    this.alone = this.shares.map((_, i) => this.worth([i]));
  }

  worth(players) {
    return BigInt(worth(this.game, players)) * this.factor;
  }

  everyone() {
    return this.shares.map((_, i) => i);
  }

  /** What the coalition is worth less what its members get, per head where the game says so. */
  excess(players) {
    const plain = players.reduce((rest, i) => rest - this.shares[i], this.worth(players));
    return this.game.perHead ? plain / BigInt(players.length) : plain;
  }
}
