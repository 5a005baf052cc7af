// Two divisions of a game, each under its name: which treats the worst-off groups better, and who is worse off by the
// other.
import { saidText, shortTexts } from "../exact/decimals.js";
import { Rational } from "../exact/rational.js";
import { membersOf } from "../game/groups.js";
import { Namer } from "./words.js";

const IMPUTED = "So the nucleolus, which asks that nobody does worse than alone, doesn’t look there; the prenucleolus "
  + "does.";
const NEITHER = "So neither is better or worse: only divisions of the whole are compared by their lists.";

/** What is told of two points {title, shares}, whose `lists` of {mask, excess} over a unit begin to differ at a place
 * from 0, or nowhere (-1): which of them is better, 0 or 1, or null, and the sentences. */
export function divisionsTold(game, points, { unit, lists, place }) {
  const wholes = points.map(({ shares }) => Rational.sum(shares));
  const faults = points.flatMap((point, k) => faultsOf(game, point, wholes[k]));
  const areWhole = wholes.every((sum) => sum.equals(game.whole()));
  if (!areWhole) return { better: null, sentences: [...faults, NEITHER] };
  if (place < 0) return { better: null, sentences: [...faults, "Both have the same list of excesses."] };
  const better = lists[0][place].excess < lists[1][place].excess ? 0 : 1, [good, bad] = [better, 1 - better];
  const texts = shortTexts([good, bad].map((k) => new Rational(lists[k][place].excess, unit)));
  const own = new Map(lists[good].map(({ mask, excess }) => [mask, excess])), least = lists[bad][place].excess;
  const { mask } = lists[bad].find((entry) => own.get(entry.mask) < least);
  const [one, other] = [points[good].title, points[bad].title];
  return { better, sentences: [...faults, [
    `Place ${place + 1} is the first that differs: ${texts[0]} by ${one}, ${texts[1]} by ${other}. The lesser is `
      + `better, so ${one} treats the worst-off groups better${game.perHead ? ", by excess per head" : ""}.`,
    `Worse off by ${other}: ${new Namer(game).group(membersOf(mask))}.`,
    beside(game, membersOf(mask), points[bad], points[good]),
  ].join(" ")] };
}

/** Why shares are no division at all, or no imputation. */
function faultsOf(game, { title, shares }, sum) {
  if (!sum.equals(game.whole())) {
    const whole = `${game.costs ? "cost" : "are worth"} ${saidText(game.whole())}`;
    return [`The shares of ${title} add to ${saidText(sum)}, and all together ${whole}.`];
  }
  const short = shares.findIndex((share, i) => {
    return game.costs ? game.alone(i).less(share) : share.less(game.alone(i));
  });
  if (short < 0) return [];
  const than = game.costs ? "more than it costs" : "less than it is worth", name = new Namer(game).names[short];
  return [`By ${title} ${name} ${game.costs ? "pays" : "gets"} ${saidText(shares[short])}, ${than} alone, `
    + `${saidText(game.alone(short))}. ${IMPUTED}`];
}

/** What a group gets by two divisions, beside what it is worth by itself. */
function beside(game, group, worse, better) {
  const [there, here] = [worse, better].map(({ shares }) => saidText(Rational.sum(group.map((i) => shares[i]))));
  const isOne = group.length === 1, verb = `${game.costs ? "pay" : "get"}${isOne ? "s" : ""}`;
  const own = game.costs ? "would cost" : isOne ? "is worth" : "are worth", alone = saidText(game.told(group));
  return `${isOne ? "It" : "They"} ${verb} ${there} there, and ${here} by ${better.title}; by `
    + `${isOne ? "itself it" : "themselves they"} ${own} ${alone}.`;
}
