// Whether each adds no less where more have joined, in a sentence.
import { shortTexts } from "../exact/decimals.js";
import { Namer } from "../tell/words.js";
import { listed } from "../game/words.js";

/** {isConvex, sentence} of a case; null if the program doesn't say. */
export function convexity(one) {
  const { status, tree } = one.ask({ word: "convex" });
  if (status > 1) return null;
  return { isConvex: status === 0, sentence: status === 0 ? convexSentence(one.named) : gapOf(one.named, tree) };
}

function convexSentence({ costs }) {
  return costs
    ? "The more have joined, the less (no more) each adds to the cost: the costs are concave, and so the game of what "
      + "is saved is convex. So there are divisions that satisfy all groups, and the Shapley shares are one of them."
    : "The more have joined, the more (no less) each adds: the game is convex. So there are divisions that satisfy all "
      + "groups, and the Shapley shares are one of them.";
}

/** Whom it is better to join early: what j adds to a group, and to the same group with i. */
function gapOf(game, { set, i, j }) {
  const group = set.map((player) => Number(player) - 1), namer = new Namer(game);
  const [first, second] = [i, j].map((player) => Number(player) - 1), name = namer.names[second];
  const withFirst = [...group, first].sort((a, b) => a - b), told = (some) => (some.length ? game.told(some) : null);
  const added = (some) => {
    const all = told([...some, second].sort((a, b) => a - b));
    return some.length ? all.minus(told(some)) : all;
  };
  const to = (some) => (some.length === game.n - 1 ? "all others" : listed(some.map((player) => namer.names[player])));
  const [early, late] = shortTexts([group, withFirst].map(added));
  const start = group.length ? `joining ${to(group)}` : "alone";
  return game.costs
    ? `It can cost less to join early: ${name} adds ${early} to the cost ${start}, and ${late} joining `
      + `${to(withFirst)}. So the costs aren’t concave (the game of what is saved isn’t convex), and Shapley shares `
      + "may leave a group dissatisfied."
    : `It can be worth less to join late: ${name} adds ${early} ${start}, and ${late} joining ${to(withFirst)}. `
      + "So the game isn’t convex, and Shapley shares may leave a group dissatisfied.";
}
