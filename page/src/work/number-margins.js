// Which landings, claims or links an answer rests on, and how far each of the others may move alone, from the
// certificate: as long as no group is worth more than its bound, and those that a level lists are worth what they were,
// the same certificate shows the same shares. Each group is looked at, so this is for 16 players at most.
import { lcm } from "../exact/rational.js";
import { maskOf } from "../game/groups.js";
import { closestOf, groupBounds, sums } from "./margins.js";
import { Networks } from "./networks.js";

/** Of each number of the game, in the order of its rows (then the estate) or of its links: what it is, and its `lows`
 * and `highs`, in lines, over the `unit`, empty where nothing bounds it; the places of those that `decide`, and of the
 * closest to a bound. */
export function numberMargins(tree, game, rows) {
  const { amounts = game.rows.flat(), single } = game, found = groupBounds(tree, game, single ? [...amounts, single]
    : amounts);
  found.listed.add(2 ** game.n - 1);
  const ranges = KINDS[game.kind](found, game, rows), owns = ranges.map(({ own }) => own);
  const inLines = (key) => ranges.map((range) => range[key] ?? "").join("\n"), rooms = ranges.map((one) => one.room());
  return {
    unit: String(found.unit), owns: owns.join("\n"), lows: inLines("low"), highs: inLines("high"), of: ranges.length,
    decide: ranges.flatMap(({ isFixed }, k) => (isFixed ? [k] : [])), closest: closestOf(rooms, owns),
    isTied: rooms.includes(0n),
  };
}

/** From where to where a number may go; none is below 0. */
class Range {
  constructor(own) {
    Object.assign(this, { own, low: null, high: null, isFixed: false });
  }

  atLeast(bound) {
    if (bound > (this.low ?? 0n)) this.low = bound;
  }

  atMost(bound) {
    if (this.high === null || bound < this.high) this.high = bound;
  }

  room() {
    const { own, low, high } = this, [down, up] = [low === null ? null : own - low, high === null ? null : high - own];
    return this.isFixed ? undefined : down === null || (up !== null && up < down) ? up ?? undefined : down;
  }
}

const KINDS = { airport: ofLandings, bankruptcy: ofClaims, tree: ofLinks };

/** A group costs what its dearest landing needs; those of a row move together. */
function ofLandings({ most, listed, over }, { n, amounts }, rows) {
  const costs = amounts.map(over), dearest = [0n];
  for (const cost of costs) for (const before of [...dearest]) dearest.push(before > cost ? before : cost);
  return rows.map(({ players }) => {
    const range = new Range(costs[players[0]]), mine = maskOf(players);
    for (let mask = 1; mask < 2 ** n; mask++) {
      if (!(mask & mine)) continue;
      const rest = dearest[mask & ~mine];
      if (listed.has(mask) && rest < range.own) range.isFixed = true;
      else if (listed.has(mask)) range.atMost(rest);
      else if (rest < -most[mask]) range.atLeast(-most[mask]);
    }
    return range;
  });
}

/** A group is worth what the claims of the others leave of the estate, and at least nothing. */
function ofClaims({ most, listed, over }, { n, amounts, single }) {
  const claims = amounts.map(over), estate = over(single), totals = sums(claims), all = 2 ** n - 1;
  const ranges = claims.map((claim, i) => {
    const range = new Range(claim);
    for (let mask = 0; mask < all; mask++) {
      if (mask & (1 << i)) continue;
      const left = estate - totals[all - mask], isListed = !mask || listed.has(mask); // claims cover the estate
      if (isListed && left > 0n) range.isFixed = true;
      range.atLeast(left + claim - (isListed ? 0n : most[mask]));
    }
    return range;
  });
  return [...ranges, Object.assign(new Range(estate), { isFixed: true })];
}

/** A group costs its cheapest network. A link that gets cheaper lowers that as soon as it costs less than the dearest
 * link between its ends there; one that gets dearer raises it only if each cheapest network has the link. */
function ofLinks({ most, listed, over, unit }, { n, rows }) {
  const scale = rows.flat().reduce((all, { den }) => lcm(all, den), 1n), times = unit / scale;
  const costs = rows.map((row) => row.map(({ num, den }) => Number(num * (scale / den)))); // below 2^40
  const ranges = new Map(), at = (i, j) => ranges.get(i * (n + 1) + j);
  rows.forEach((row, i) => row.forEach((cost, j) => i < j && ranges.set(i * (n + 1) + j, new Range(over(cost)))));
  const networks = new Networks(costs);
  for (let mask = 1; mask < 2 ** n; mask++) {
    const isListed = listed.has(mask), total = networks.join(mask);
    if (isListed) {
      for (const [i, j] of networks.links()) if (total < without(mask, costs, i, j)) at(i, j).isFixed = true;
    }
    const room = isListed ? 0n : most[mask] + BigInt(total) * times, far = Number(room / times);
    if (networks.dearest <= far) continue; // nothing is too cheap here
    networks.eachWay((i, j, top) => top > far && at(i, j).atLeast(BigInt(top) * times - room));
  }
  return [...ranges.values()];
}

/** What the cheapest network costs if a link can't be built. */
function without(mask, costs, i, j) {
  const other = costs.map((row) => [...row]);
  other[i][j] = other[j][i] = Infinity;
  return new Networks(other).join(mask);
}
