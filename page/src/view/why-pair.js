// Why one pays or gets more than another: what each has alone, and the best group of each without the other.
import { Rational } from "../exact/rational.js";
import { Namer } from "../tell/words.js";
import { solutionOf } from "./answer.js";
import { el, refill } from "./dom.js";

const HARD = /counted|taken off/; // of a level, a reason that nobody can say aloud
const MOST = 10; // players with whom a pair is told that nobody has chosen

export const isHard = ({ isLevel, sentences }) => isLevel && sentences.some((sentence) => HARD.test(sentence));

/** For paper, where a level’s reason can’t be said: who has the greatest share, and who the least. */
function farthest({ game }, rows, { shares }) {
  if (game.n > MOST) return [];
  const share = ({ players: [i] }) => shares[i], order = [...rows].sort((x, y) => share(y).compare(share(x)));
  return [order[0], order.at(-1)];
}

/** `typed.pair` keeps the labels of the two rows; `onSaid(text, isChosen)` is told what goes on paper. */
export function pairPart(result, { rows, format, typed, ask, onSaid }) {
  const { game } = result, solution = solutionOf(result), found = el("div", { "aria-live": "polite" });
  if (!solution || game.ballots || rows.length < 2) return null;
  const labels = rows.map(({ label }) => label), pair = typed.pair ?? [];
  const work = async () => {
    const chosen = pair.map((label) => rows[labels.indexOf(label)]).filter(Boolean), isChosen = chosen.length > 1;
    const two = isChosen ? chosen : farthest(result, rows, solution);
    onSaid("");
    if (two.length < 2 || two[0] === two[1]) return refill(found);
    const [i, j] = two.map(({ players }) => players[0]), shares = solution.shares.map(String);
    const told = await ask("pair", { shares, i, j }).catch(() => null);
    const sentences = told ? sentencesOf(told, two, { game, solution, format }) : [];
    onSaid(sentences.slice(0, 3).join(" "), isChosen);
    return refill(found, isChosen && el("p", {}, sentences.join(" ")));
  };
  const choice = (k, name) => el("select", { "aria-label": name, "data-cell": `pair.${k}`, on: { change: (event) => {
    pair[k] = event.target.value;
    typed.pair = pair;
    work();
  } } }, ["", ...labels].map((label) => el("option", { value: label, selected: label === pair[k] }, label || "…")));
  work();
  const verb = game.costs ? "pay" : "get";
  return el("article", { class: "reason pair" }, el("h3", {}, "Two side by side"),
    el("p", { class: "tools" }, "Why does ", choice(0, "The one"), ` ${verb} what it does, beside `,
      choice(1, "The other"), "?"), found);
}

function sentencesOf({ alone, holds }, two, { game, solution, format: { show, apart, by } }) {
  const namer = new Namer(game), [one, other] = two.map(({ players }) => players[0]), { costs, perHead } = game;
  const [x, y] = [one, other].map((i) => game.shown[i]), [a, b] = [one, other].map((i) => solution.shares[i]);
  const [s, t] = holds.map(({ excess }) => Rational.of(excess).negated()), difference = a.minus(b);
  const per = perHead ? " per member" : "", verb = costs ? "pays" : "gets", has = costs ? "costs" : "has";
  const [first, second] = apart(s.abs(), t.abs());
  const gain = (size, value) => `${size}${per} ${value.isNegative() ? "lost" : "gained"}`;
  const group = ({ group: members }) => namer.group(members).replace(/^(.*) together$/, "the group of $1");
  const own = (share, value) => {
    const gained = costs ? value.minus(share) : share.minus(value);
    return `${show(value)}, and gains ${by(gained)} by joining`;
  };
  const more = `${by(difference.abs())} ${difference.isNegative() ? "less" : "more"} than`;
  const way = difference.isZero() ? "as much as" : more;
  return [
    `By the ${solution.title.toLowerCase()} ${x} ${verb} ${way} ${y}.`,
    `Of the groups with ${x} and without ${y}, ${group(holds[0])} gains least by joining (${gain(first, s)}); of those `
      + `with ${y} and without ${x}, ${group(holds[1])} (${gain(second, t)}).`,
    reasonOf(s, t, x, y, costs),
    `Alone ${x} ${has} ${own(a, Rational.of(alone[0]))}; ${y} ${has} ${own(b, Rational.of(alone[1]))}.`,
  ];
}

/** Equal holds are the reason; where they differ, the weaker has no more than alone. */
function reasonOf(s, t, x, y, costs) {
  if (s.equals(t)) {
    return `So neither has a stronger hold on the other, and that is the reason: if something were moved from ${x} to `
      + `${y} or back, one of these two groups would gain less than both do now.`;
  }
  const [strong, weak] = s.less(t) ? [x, y] : [y, x];
  return `So ${strong} has the stronger hold on ${weak}, and the rule would move more, but ${weak} would then `
    + `${costs ? "pay more" : "get less"} than alone.`;
}
