// What each answer of the program says, in sentences, by the names of its game.
import { columnTexts, fullText, shareTexts } from "../exact/decimals.js";
import { Rational } from "../exact/rational.js";
import { times } from "../game/words.js";
import { surplusOf, unlikeShares } from "./judged.js";
import { Namer } from "./words.js";

const USAGES = {
  class: "The command doesn’t serve the class of this game.",
  players: "The game has more players than the command serves.",
  words: "There is no such command: a command is one word, and the document comes on standard input.",
};
const NO_ANSWER = "these are shares, not an answer of the program: bin/coop propose and kernel judge shares, and "
  + "scripts/compare compares them with a nucleolus";
const FILLED = "(By the table’s numbers. If some of them were filled in, such a group may cost less, and do better by "
  + "itself.)";
const CLASSES = {
  table: "a table", "cost-table": "a table of costs", airport: "a runway", bankruptcy: "an estate", tree: "a network",
  assignment: "a market", market: "a market", voting: "a vote",
};
const MOST_LISTED = 12; // players whose shares have an item each

/** A line, a document or shares that can’t be told, since they don’t fit together or aren’t what they should be. */
export class Untold extends Error {}

/** The parts of an answer, [{sentences, items, last}]. `game` and `shares` are those of the line or of the document
 * that was asked about, or null. */
export function answerTold(tree, game = null, shares = null) {
  if ("usage" in tree) return told(USAGES[tree.usage] ?? USAGES.words);
  const answer = tree.answer ?? ("verdict" in tree ? "gen" : "");
  const tell = Object.hasOwn(TELLERS, answer) && TELLERS[answer];
  if (!tell) throw new Untold("shares" in tree ? NO_ANSWER : "this isn’t an answer of the program");
  if (game && shares && shares.length !== game.n) throw new Untold(`${shares.length} shares for ${game.n} players`);
  try {
    const unlike = game && shares && unlikeShares(game, shares, tree);
    if (unlike) throw new Untold(`the document’s shares aren’t those that the line judges: ${unlike}`);
    return tell(new Answer(game, shares), tree);
  } catch (fault) {
    if (fault instanceof Untold) throw fault;
    throw new Untold(`this isn’t a whole answer of the program: ${fault.message}`);
  }
}

/** What each gets, an item for each; of many players, those with equal shares together. */
export function sharesTold(shares, namer) {
  const texts = columnTexts(shares), name = (i) => namer?.names[i] ?? `player ${i + 1}`;
  if (!namer || shares.length <= MOST_LISTED) return shares.map((_, i) => `${name(i)}: ${texts[i]}`);
  const alike = new Map(); // decimals that add up may differ where shares are equal
  shares.forEach((_, i) => alike.set(texts[i], [...(alike.get(texts[i]) ?? []), i]));
  return [...alike].map(([text, who]) => `${namer.players(who, 64)}: ${text}${who.length > 1 ? " each" : ""}`);
}

/** One part of these sentences, with items below them. */
function told(first, items = [], last = "") {
  return [{ sentences: [first].flat().filter(Boolean), items: items.map((label) => ({ label })), last }];
}

/** The beginning of a sentence. A name keeps its letters. */
function begun(text) {
  return /^(all|each|every|nobody|player|the) ?/.test(text) ? text[0].toUpperCase() + text.slice(1) : text;
}

const value = (text) => Rational.of(text);

class Answer {
  constructor(game, shares) {
    Object.assign(this, { game, shares, namer: game && new Namer(game), costs: Boolean(game?.costs) });
    [this.pays, this.pay] = this.costs ? ["pays", "pay"] : ["gets", "get"];
  }

  /** A player counted from 1. */
  player(player) {
    const name = this.namer ? this.namer.names[Number(player) - 1] : `player ${player}`;
    if (name === undefined) throw new Untold(`${player} isn’t a player of the game`);
    return name;
  }

  group(players) {
    if (!players.length) return "nobody";
    const names = players.map((player) => this.player(player));
    if (this.namer) return this.namer.group(players.map((player) => Number(player) - 1));
    return `${names.join(" and ")} ${players.length === 1 ? "alone" : "together"}`;
  }

  /** What a group is worth or costs by itself; null without the game. */
  worth(players) {
    return this.game && this.game.told(players.map((player) => Number(player) - 1).sort((i, j) => i - j));
  }

  /** What a group gets by the shares, and is worth, if they are there. */
  got(players) {
    if (!this.shares) return "";
    const group = players.map((player) => Number(player) - 1), isOne = group.length === 1;
    const total = isOne ? columnTexts(this.shares)[group[0]] : fullText(Rational.sum(group.map((i) => this.shares[i])));
    const own = this.game && `, where by ${isOne ? "itself it" : "themselves they"} ${this.costs ? "would cost"
      : isOne ? "is worth" : "are worth"} ${fullText(this.worth(players))}`;
    return `${isOne ? "It" : "They"} ${isOne ? this.pays : this.pay} ${total}${own ?? ""}.`;
  }

  items(shares) {
    return sharesTold(shares.map(value), this.namer);
  }

  /** What a table of costs can’t tell: whether its numbers were filled in. */
  onFilled() {
    return this.game?.kind === "cost-table" ? FILLED : "";
  }

  strongest(i, j) {
    if (!this.game || !this.shares) return "";
    const found = surplusOf(this.game, this.shares, Number(i) - 1, Number(j) - 1);
    return found ? ` (${this.namer.group(found.group)})` : "";
  }
}

function noImputation(_, { singles, total }) {
  const [alone, whole] = [singles, total].map(value), isCost = alone.less(whole);
  const [are, worse] = isCost ? ["cost", "pays more"] : ["are worth", "gets less"];
  return told(["There is no nucleolus.", `The players ${are} ${fullText(alone)} by themselves, added, and `
    + `${fullText(whole)} all together.`, `So in every division somebody ${worse} than by itself.`,
  "The prenucleolus doesn’t ask for that: `bin/coop prenucleolus`."]);
}

function blocked(about, { coalition, excess }) {
  const by = `${begun(about.group(coalition))} could do better without the others, by ${fullText(value(excess))}.`;
  return told([by, about.got(coalition), "No group could do better by more."]);
}

function notEfficient({ costs }, { sum, total }) {
  return told([`The shares add to ${fullText(value(sum))}, and all together ${costs ? "cost" : "are worth"} `
    + `${fullText(value(total))}.`, "So they aren’t a division of the whole."]);
}

function emptyCore(about, { collection, k, value: sum, against }) {
  const [cost, more, worse] = about.costs ? ["cost", "less", "pay more"] : ["are worth", "more", "get less"];
  const items = collection.map(([group, weight]) => {
    const worth = about.worth(group), own = worth && ` (${about.costs ? "costs" : "worth"} ${fullText(worth)})`;
    return `${about.group(group)}, counted ${times(weight)}${own ?? ""}`;
  });
  return told("There is no division by which no group could do better by itself: the core is empty. Take these groups:",
    items, `So counted these groups hold each player ${times(k)}, and ${cost} ${fullText(value(sum))} by themselves. `
    + `All together, counted as often, ${cost} ${fullText(value(against))}; the groups’ sum is ${more}. So in every `
    + `division one of them has to ${worse} than by itself.`);
}

function shapley(about, { shares }) {
  const power = "Each voter’s power: in which part of all orders of joining its votes are those that reach the quota.";
  const adds = `What each ${about.costs ? "costs more than" : "adds to"} those before it, on average over all orders `
    + "in which the players may join.";
  const nameless = "(The line has no names, nor whether these are costs: give the document beside it.)";
  return told([about.game?.kind === "voting" ? power : adds, !about.game && nameless], about.items(shares));
}

function bird(about, { tree, shares }) {
  const texts = shareTexts(shares.map(value));
  const items = tree.map(([end, player]) => {
    const [from, to] = [Number(end) ? about.player(end) : "the source", about.player(player)];
    return `${from} to ${to}: ${texts[Number(player) - 1]}, which ${to} pays`;
  });
  return told("The cheapest network, link by link. Each link joins a new player, who pays it. No group could do better "
    + "by itself.", items);
}

function convex(about, { shapley: average, marginal }) {
  const adds = about.costs ? "costs no more" : "adds no less";
  return told(`The game is convex: a player always ${adds} where more have joined. So both of these are in the core.`,
    [`Shapley shares. ${about.items(average).join(", ")}`,
      `In the order of the players. ${about.items(marginal).join(", ")}`]);
}

function notConvex(about, { set, i, j, deficit }) {
  const [first, second] = [i, j].map((player) => about.player(player)), behind = about.group(set);
  const [verb, than] = about.costs ? ["costs", "more"] : ["adds", "less"];
  const numbers = about.game ? [[...set, i], set].map((group) => {
    return fullText(about.worth([...group, j]).minus(group.length ? about.worth(group) : value("0")));
  }) : [];
  const sentence = `${begun(second)} ${verb} ${fullText(value(deficit))} ${than} after ${behind} with ${first} than `
    + `after ${behind}${numbers.length ? `: ${numbers.join(", and ")}` : ""}.`;
  return told(["The game isn’t convex.", sentence]);
}

function notPrekernel(about, { i, j, ij, ji }) {
  const [first, second] = [i, j].map((player) => about.player(player)), isFirst = value(ji).less(value(ij));
  const [stronger, weaker] = isFirst ? [first, second] : [second, first];
  const hold = (surplus, one, other) => {
    return `the greatest excess is ${fullText(value(surplus))}${about.strongest(one, other)}`;
  };
  return told([`${begun(stronger)} has a better hold on ${weaker}.`,
    `Of the groups with ${first} and without ${second} ${hold(ij, i, j)}; of those with ${second} and without ${first} `
    + `${hold(ji, j, i)}.`, "In the prekernel the two are equal."]);
}

function matching(about, tree) {
  const best = ["buyers best", "sellers best"].map((key) => tree[key].map(value));
  const texts = best.map((shares) => shareTexts(shares));
  const items = tree.pairs.map(([buyer, seller]) => {
    const [[one, other], own] = [best, texts].map((lists) => lists.map((list) => list[Number(seller) - 1]));
    const [low, high] = other.less(one) ? own.reverse() : own;
    const price = one.equals(other) ? `at ${low}` : `at ${low} at least and ${high} at most`;
    return `${about.player(buyer)} with ${about.player(seller)}, ${price}`;
  });
  return told(`These pairs are worth ${fullText(value(tree.value))} together, and no others are worth more. What the `
    + "seller gets, by which nobody could do better:", items);
}

function generated(_, { class: kind, players, seed, common, first, last, greatest, verdict }) {
  return told([`A generated game, ${CLASSES[kind]} of ${players} players from the number ${seed}.`, "The shares of its "
    + `nucleolus have the common denominator ${common}; the first is ${first} and the last ${last}, and the greatest `
    + `excess is ${greatest}.`, `Its certificate was checked: ${verdict}.`]);
}

/** How each answer is told, except those with a certificate and a no of `check`. */
const TELLERS = {
  "no imputation": noImputation, blocked, "not efficient": notEfficient, "empty core": emptyCore, shapley, bird,
  convex, "not convex": notConvex, "not prekernel": notPrekernel, matching, gen: generated,
  yes: () => told("The certificate meets all conditions: the shares of that line are what its answer says of its "
    + "game."),
  core: (about) => told(["No group could do better by itself than by these shares: they are in the core.",
    about.onFilled()]),
  "core point": (about, { shares }) => told(["By these shares no group could do better by itself. They are one such "
    + "division, often of many, and no proposal.", about.onFilled()], about.items(shares)),
  prekernel: () => told("Any two players have the same hold on each other: these shares are in the prekernel."),
};
