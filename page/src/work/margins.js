// Which numbers of a table its answer rests on, and how far the others may move, from the certificate alone.
//
// A certificate asks of most groups only that they aren't too well off: that the worth of an open group is at most what
// its members get and the excess of the level. So a group that no level lists may be worth anything up to the least of
// these bounds, and all such groups at once, and the same line still shows the same shares. Costs are negative worths.
import { SettledPlayers, SettledSpan } from "../check/settled.js";
import { lcm, Rational } from "../exact/rational.js";
import { maskOf, membersOf } from "../game/groups.js";
import { levelOf, listedIn } from "../tell/levels.js";

const MOST_CLOSEST = 3;

/** Of the line of an answer about a table: the masks of the groups whose numbers count as they are (`decide`, without
 * that of all), the `bounds` of the others by their masks, in lines, over the `unit`, and the masks and `numbers` of
 * those who have least room for their size; `isTied` says that some of them have no room. Costs may be anything from
 * the bound up, gains anything up to it. */
export function margins(tree, game) {
  const sign = game.costs ? -1n : 1n, { unit, over, most, listed } = groupBounds(tree, game, game.amounts);
  const worths = game.amounts.map((amount) => sign * over(amount)), told = most.map((bound) => {
    return bound === undefined ? "" : String(sign * bound);
  });
  const rooms = most.map((bound, mask) => (bound === undefined ? bound : bound - worths[mask]));
  const closest = closestOf(rooms, worths), numbers = closest.map((mask) => String(game.amounts[mask]));
  return {
    unit: String(unit), decide: [...listed], bounds: told.join("\n"), closest, numbers, isTied: rooms.includes(0n),
    of: 2 ** game.n - 2,
  };
}

/** What each group may be worth at most, by its mask, over a unit of the game's `numbers` and the line's, for no level
 * to be wrong: undefined for none, for all, and for those that a level lists. */
export function groupBounds({ answer, certificate, shares }, { n, costs, perHead }, numbers) {
  const sign = costs ? -1n : 1n, paid = shares.map(Rational.of), levels = certificate.levels.map(levelOf);
  const all = [...paid, ...levels.map(({ excess }) => excess), ...numbers];
  const unit = all.reduce((common, { den }) => (common % den ? lcm(common, den) : common), 1n);
  const over = ({ num, den }) => num * (unit / den), got = sums(paid.map((share) => sign * over(share)));
  const least = levels.map(({ excess }) => over(excess)); // of each level and those before it
  least.forEach((excess, k) => (least[k] = least[k - 1] < excess ? least[k - 1] : excess));
  const most = Array.from(lastOpen({ n, levels, mode: certificate.mode }), (k, mask) => {
    return k < 0 ? undefined : got[mask] + (perHead ? BigInt(membersOf(mask).length) * least[k] : least[k]);
  });
  if (answer === "nucleolus") { // nobody gets less than alone
    for (let i = 0; i < n; i++) if (most[1 << i] > got[1 << i]) most[1 << i] = got[1 << i];
  }
  const listed = listedIn(levels);
  for (const mask of listed) most[mask] = undefined;
  return { unit, over, most, listed };
}

/** The last level at which each group is open, by its mask; -1 for none. What is settled once stays so. */
export function lastOpen({ n, levels, mode }) {
  const settled = mode === "span" ? new SettledSpan(n) : new SettledPlayers(n), last = new Int16Array(2 ** n).fill(-1);
  let open = Array.from({ length: 2 ** n - 2 }, (_, k) => k + 1);
  levels.forEach(({ coalitions, bounds }, k) => {
    open = open.filter(settled.free ? openByPlayers(settled) : openBySpan(settled));
    for (const mask of open) last[mask] = k;
    for (const [group] of coalitions) settled.add(group);
    for (const [player, weight] of bounds) if (weight >= 1n) settled.add(player);
  });
  return last;
}

/** What `isOpen` says, of groups by their masks. */
function openByPlayers({ free }) {
  const all = maskOf([...free]);
  return (mask) => (mask & all) !== 0 && (mask & all) !== all;
}

/** The same of a span. What all vectors add to over a group, each times another number, is known of all groups at once
 * modulo 2^32: where that isn't 0, the group is open. */
function openBySpan(settled) {
  const mixed = (i) => settled.null.reduce((sum, vector, k) => {
    return (sum + Math.imul((2 * k + 1) * 0x9e3779b1, Number(BigInt.asIntN(32, vector[i])))) | 0;
  }, 0);
  const items = Array.from({ length: settled.n }, (_, i) => mixed(i)), all = new Int32Array(2 ** settled.n);
  items.forEach((item, i) => {
    for (let mask = 0, bit = 1 << i; mask < bit; mask++) all[mask | bit] = all[mask] + item;
  });
  return (mask) => all[mask] !== 0 || settled.isOpen(membersOf(mask));
}

/** The sum of each group, by its mask. */
export function sums(items) {
  const all = [0n];
  for (const item of items) for (let k = 0, { length } = all; k < length; k++) all.push(all[k] + item);
  return all;
}

/** The places with least room, as a part of their own numbers; those that have none of these first. */
export function closestOf(rooms, numbers) {
  const size = (k) => (numbers[k] < 0n ? -numbers[k] : numbers[k]), found = [];
  const isCloser = (one, other) => rooms[one] * size(other) < rooms[other] * size(one)
    || (rooms[one] * size(other) === rooms[other] * size(one) && rooms[one] < rooms[other]);
  rooms.forEach((room, k) => {
    if (room === undefined) return;
    const place = found.findIndex((other) => isCloser(k, other));
    found.splice(place < 0 ? found.length : place, 0, k);
    found.splice(MOST_CLOSEST);
  });
  return found;
}
