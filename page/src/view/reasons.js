// Reasons as articles: those of a division, of which the levels of a long one are folded, and those of power.
import { smallestWinning } from "../game/ballots.js";
import { powerParts } from "../tell/power.js";
import { el } from "./dom.js";

const MOST_OPEN = 3; // levels that are shown unfolded, where there are no more
const PRICES = "A price can be no lower than what another buyer would offer, and no higher than what another seller "
  + "would take.";

/** Why the division is what it is: the principle, the rule of the class, and the levels of the certificate. */
export function divisionReasons({ answer, reasons, matching, convexity }) {
  if (!answer) return matching ? [el("p", {}, PRICES)] : [];
  if (!reasons) return [];
  const levels = reasons.filter(({ isLevel }) => isLevel), others = reasons.filter(({ isLevel }) => !isLevel);
  const isLong = levels.length > MOST_OPEN;
  return [
    ...others.map(article),
    isLong && el("p", { class: "fold screen" }, `The certificate has ${levels.length} levels. Each says who gains `,
      "least of those who are left, and why no division is better for them."),
    ...levels.map(isLong ? folded : article),
    convexity && article({ title: "Does it matter who joins first?", sentences: [convexity.sentence], items: [] }),
  ];
}

/** Why the power of votes is what it is; nothing as long as it isn't known. */
export function powerReasons(game, shares) {
  if (!shares) return [];
  game.smallest ??= smallestWinning(game.ballots);
  return powerParts(game, shares, game.smallest).map(article);
}

function article(part) {
  return el("article", { class: "reason" }, el("h3", {}, part.title), bodyOf(part));
}

function folded(part) {
  return el("details", { class: "reason level" },
    el("summary", {}, el("b", {}, part.title), part.brief && el("span", {}, ` ${part.brief}`)), bodyOf(part));
}

function bodyOf({ sentences, items, last }) {
  return [
    el("p", {}, sentences.join(" ")),
    items.length > 0 && el("ul", {}, items.map(({ label, text }) => el("li", {}, el("b", {}, label), " ", text))),
    last && el("p", {}, last),
  ];
}
