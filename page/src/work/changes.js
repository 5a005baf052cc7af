// What each rule makes of two games side by side: where some leave, or where other numbers were filled in.
import { writeJson } from "../exact/json.js";
import { Rational } from "../exact/rational.js";
import { caseNamed } from "../cases/cases.js";
import { withoutPlace } from "../cases/links.js";
import { network as networks } from "../cases/matrices.js";
import { unusedApart } from "../cases/unused-links.js";
import { Game } from "../game/game.js";
import { maskOf, membersOf, without } from "../game/groups.js";
import { plainNames } from "../tell/rule-names.js";
import { Namer } from "../tell/words.js";
import { answer, solutionOf } from "./answers.js";
import { fillLinks } from "./networks.js";
import { fillSplits } from "./splits.js";

const MOST_PER_HEAD = 8;

/** A game by what its groups cost or gain, in the order of the masks. */
export function sideOf({ n, costs, shown, named }, amounts) {
  return { n, costs, shown, named, amounts };
}

export function amountsOf(game) {
  if (game.isTable()) return game.amounts.slice(1);
  return Array.from({ length: 2 ** game.n - 1 }, (_, k) => game.told(membersOf(k + 1)));
}

function treeOf({ n, costs, amounts }) {
  const isWhole = amounts.every((amount) => amount.isWhole());
  return {
    class: costs ? "cost-table" : "table", players: BigInt(n), ...(isWhole ? {} : { version: 2n }),
    worths: amounts.map((amount) => amount.toDocument()),
  };
}

/** Whether some division satisfies all groups. */
export function isStable(side) {
  return answer("core", writeJson({ game: treeOf(side) })).status === 0;
}

/** By each rule the shares of both games, and which group does better by itself; first by that of an answer per head,
 * where it `isPerHead`. */
export function byEachRule(sides, isPerHead = false) {
  const isPrenucleolus = sides.some((side) => solutionOf(treeOf(side)).key === "prenucleolus");
  const own = isPrenucleolus ? "prenucleolus" : "nucleolus", rules = [[own], ["shapley"]];
  const isSmall = sides.every(({ n }) => n <= MOST_PER_HEAD);
  if (isPerHead) rules.unshift([own, true]);
  else if (isSmall) rules.push(["prenucleolus", true]);
  return rules.map(([key, perHead = false]) => {
    const measure = perHead ? { excess: "per-head" } : {};
    const [before, after] = sides.map((side) => solutionOf({ ...treeOf(side), ...measure }, key).shares);
    const { plain: title, name } = plainNames(key, "", { perHead }, isPrenucleolus);
    return { key, perHead, title, name, before, after,
      leaving: [leavingOf(sides[0], before), leavingOf(sides[1], after)] };
  });
}

/** Which group does better by itself, and by how much: {who, by}; null where none does. */
function leavingOf(side, shares) {
  const given = shares.map((share) => Rational.of(share).toDocument());
  const { tree } = answer("propose", writeJson({ game: treeOf(side), shares: given }));
  if (tree.answer !== "blocked") return null;
  const who = new Namer(side).group(tree.coalition.map((player) => Number(player) - 1));
  return { who: who.replace(/ (alone|together)$/, ""), by: tree.excess };
}

/** Which group gains least by joining, and by how much it would do better by leaving: {who, by}. */
export function worstOf(side, shares) {
  const sums = [Rational.of(0)];
  let worst = null;
  side.amounts.slice(0, -1).forEach((amount, k) => {
    const mask = k + 1, rest = mask & (mask - 1);
    sums[mask] = sums[rest].plus(Rational.of(shares[31 - Math.clz32(mask & -mask)]));
    const by = side.costs ? sums[mask].minus(amount) : amount.minus(sums[mask]);
    if (!worst || worst.by.less(by)) worst = { mask, by };
  });
  const who = new Namer(side).group(membersOf(worst.mask));
  return { who: who.replace(/ (alone|together)$/, ""), by: String(worst.by) };
}

/** The game of those who stay alone. */
function restOf(game, stay, amounts = amountsOf(game)) {
  const rest = Array.from({ length: 2 ** stay.length - 1 }, (_, k) => {
    return amounts[maskOf(membersOf(k + 1).map((i) => stay[i])) - 1];
  });
  return { ...sideOf(game, rest), n: stay.length, shown: stay.map((i) => game.shown[i]) };
}

/** What those who stay pay or get if `who` leave, by each rule; `all` is what each paid or got before. Of a
 * `network` with ways that the page filled, `gone` is the same if nobody may build through their places: null if some
 * place then has no way. */
export function leave({ who, network }, game) {
  const stay = without(game.n, who), amounts = amountsOf(game);
  const found = leaving(game, amounts, { who, stay, small: restOf(game, stay, amounts) });
  if (!network) return found;
  const other = networkWithout(network, who), shown = stay.map((i) => game.shown[i]);
  const small = other && { ...sideOf(other, amountsOf(other)), shown };
  return { ...found, gone: small && leaving(game, amounts, { who, stay, small }) };
}

/** The game of a network without some places, with the ways filled anew; null if some place has no way. */
function networkWithout({ mark, ...typed }, who) {
  const isWay = (key) => typed.filled[key] === "way";
  const links = Object.fromEntries(Object.entries(typed.links).filter(([key]) => !isWay(key)));
  const rest = [...who].sort((i, j) => j - i).reduce(withoutPlace, { ...typed, links });
  const { links: all = {} } = fillLinks({ ...rest, ...unusedApart(rest), mark });
  const { reading, tree } = networks.read({ ...rest, links: all }, mark);
  return reading.isRight() ? new Game(tree) : null;
}

function leaving(game, amounts, { who, stay, small }) {
  const rules = byEachRule([sideOf(game, amounts), small], game.perHead).map(({ before, ...rule }) => {
    return { ...rule, all: before, before: stay.map((i) => before[i]) };
  });
  const rest = String(small.amounts.at(-1));
  return { whole: String(game.whole()), alone: String(game.told(who)), rest, stay, rules };
}

/** The games by the two ways to fill a table of costs, the one that was taken first; null where the numbers are the
 * same by both. */
function gamesByFills({ id, typed, mark, filled, how = "split" }) {
  const kind = caseNamed(id), other = how === "split" ? "larger" : "split";
  const { state } = fillSplits({ typed, mark, costs: kind.isCost, filled, how: other, again: true });
  if (!state || state.numbers === typed.numbers) return null;
  return [typed, state].map((one) => new Game(kind.read(one, mark).tree));
}

/** The shares by each rule of both of these games; of those who stay alone where `who` leave. */
export function compareFills({ who, perHead, ...what }) {
  const games = gamesByFills(what), sides = games?.map((game) => {
    return who ? restOf(game, without(game.n, who)) : sideOf(game, amountsOf(game));
  });
  return games && { how: what.how ?? "split", rules: byEachRule(sides, perHead) };
}
