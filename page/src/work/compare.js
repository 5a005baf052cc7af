// Two divisions of a game side by side, as the nucleolus compares them: what the groups lack, from the greatest down.
import { lcm, Rational } from "../exact/rational.js";
import { apartTexts, decimal, placesOf, shortText } from "../exact/decimals.js";
import { spoken } from "../exact/marks.js";
import { membersOf } from "../game/groups.js";
import { Namer } from "../tell/words.js";

const MOST_SHOWN = 8;
const MOST_PLAYERS = 12; // of other games than tables, whose groups take longer to be worked out

/** As decimals, exact where four do: two lists beside each other are read alike. */
const textOf = (value) => (placesOf(value) < 0 ? decimal(value, 2, spoken) : shortText(value));

/** `divisions` are the shares of two, as texts: the first places of both lists, and where they differ first; null where
 * the game has too many groups. */
export function compare({ divisions }, game) {
  const { unit, lists } = listsOf(game, divisions);
  if (!lists) return null;
  const differs = lists[0].findIndex(({ excess }, k) => excess !== lists[1][k].excess);
  const namer = new Namer(game), first = Math.max(0, Math.min(differs, lists[0].length - 1) - MOST_SHOWN + 2);
  const shown = (list) => list.slice(first, first + MOST_SHOWN).map(({ mask, excess }) => {
    return { group: namer.group(membersOf(mask)), excess: textOf(new Rational(excess, unit)) };
  });
  const shownLists = lists.map(shown);
  if (differs >= 0) {
    const values = lists.map((list) => new Rational(list[differs].excess, unit)), [one, other] = values.map(textOf);
    const texts = one === other ? apartTexts(values, 2) : [one, other];
    shownLists.forEach((list, k) => (list[differs - first].excess = texts[k])); // never the same where they differ
  }
  const better = differs < 0 ? "same" : lists[0][differs].excess < lists[1][differs].excess ? "one" : "other";
  return { first: first + 1, lists: shownLists, differs: differs + 1, better, of: lists[0].length };
}

/** Several divisions side by side: of each the excesses of the `most` first places, as {group, excess}, and the place
 * at which its list differs from the first one's, 0 where it is the same; null where the game has too many groups. */
export function excessLists({ divisions, most }, game) {
  const { unit, lists } = listsOf(game, divisions);
  if (!lists) return null;
  const namer = new Namer(game), names = new Map(), [own] = lists;
  const shown = ({ mask, excess }) => {
    if (!names.has(mask)) names.set(mask, namer.group(membersOf(mask)));
    return { group: names.get(mask), excess: String(new Rational(excess, unit)) };
  };
  return {
    of: own.length, lists: lists.map((list) => list.slice(0, most).map(shown)),
    differs: lists.map((list) => 1 + list.findIndex(({ excess }, k) => excess !== own[k].excess)),
  };
}

/** The excesses of all groups by each of some divisions, over a unit; without `lists` where that takes too long. */
export function listsOf(game, divisions, most = MOST_PLAYERS) {
  const all = divisions.map((shares) => shares.map(Rational.of));
  if (game.n < 2 || (!game.isTable() && game.n > most)) return {};
  const unit = unitOf(game, all.flat());
  return { unit, lists: all.map((shares) => excesses(game, shares, unit)) };
}

/** A common denominator of all that is counted; per head, of the parts too. */
function unitOf(game, shares) {
  const heads = game.perHead ? Array.from({ length: game.n }, (_, i) => BigInt(i + 1)).reduce(lcm, 1n) : 1n;
  const worths = game.isTable() ? game.amounts : game.amounts ?? game.rows.flat();
  const all = [...shares, ...worths, ...(game.single ? [game.single] : [])];
  return all.reduce((common, { den }) => (common % den ? lcm(common, den) : common), 1n) * heads;
}

/** Each group but that of all, with its excess over the unit, from the greatest down. */
function excesses(game, shares, unit) {
  const sign = game.costs ? -1n : 1n, over = (value) => (value.num * unit) / value.den;
  const own = shares.map((share) => sign * over(share));
  return Array.from({ length: 2 ** game.n - 2 }, (_, k) => {
    const members = membersOf(k + 1), got = members.reduce((sum, i) => sum + own[i], 0n);
    const excess = over(game.worth(members)) - got;
    return { mask: k + 1, excess: game.perHead ? excess / BigInt(members.length) : excess };
  }).sort((a, b) => (a.excess > b.excess ? -1 : a.excess < b.excess ? 1 : a.mask - b.mask));
}
