// Tells a certificate that was checked, level by level: who is worst off, why nobody can do better, what is settled.
import { Rational } from "../exact/rational.js";
import { fullText, isRounded, saidText, shareTexts } from "../exact/decimals.js";
import { without } from "../game/groups.js";
import { isSplit, levelOf, reducedLevel, Settled } from "./levels.js";
import { ruleOf } from "./rules.js";
import { Namer } from "./words.js";
import { listed, times } from "../game/words.js";

/** What all together are worth, or cost, by the class. */
const WHOLE = {
  table: "All together gain #.",
  "cost-table": "All together cost #.",
  airport: "What all need costs #.",
  bankruptcy: "There is # to divide.",
  tree: "The cheapest network for all costs #.",
  assignment: "The best trades gain # together.",
  voting: "There is a prize of # to divide, which a group wins that reaches the quota.",
};

const ROUNDED = "The shares are rounded so that they add up, so equal ones may differ in the last place.";

/** Where two levels have one excess: a level names the groups that its proof needs, and not all that are worst off. */
const AGAIN = "That is the number of the level before: a level names groups enough to settle something, and not all.";

/** The parts of an explanation: {title, sentences, items}, the rule of the class first where there is one. */
export function explain(game, line) {
  return new Explainer(game, line).parts();
}

/** How often each player is counted; what is taken off may outweigh the rest. */
function onBalance(total) {
  if (total > 0n) return times(total);
  return total < 0n ? `equally often (−${-total} times, on balance)` : "not at all, on balance";
}

class Explainer {
  constructor(game, line) {
    this.game = game;
    this.isAnyDivision = line.answer === "prenucleolus";
    this.shares = line.shares.map(Rational.of);
    this.texts = shareTexts(this.shares);
    this.levels = line.certificate.levels.map(levelOf);
    this.namer = new Namer(game);
    this.settled = new Settled(game.n);
    this.gets = game.costs ? "pays" : "gets";
    this.get = game.costs ? "pay" : "get";
    this.perHead = game.perHead ? " per member" : "";
  }

  parts() {
    const rule = ruleOf(this.game, this.shares, this.namer);
    const parts = [this.principle(), ...(rule ? [rule] : [])];
    for (let done = 0; done < this.levels.length; ) {
      const count = this.splitsFrom(done);
      parts.push(count > 2 ? this.splits(done, count) : this.level(done));
      done += count > 2 ? count : 1;
    }
    if (this.shares.some(isRounded)) parts.push({ title: "Rounding", sentences: [ROUNDED], items: [] });
    return parts;
  }

  principle() {
    const worse = this.game.costs ? "pays more" : "gets less";
    const sentences = [WHOLE[this.game.kind].replace("#", saidText(this.game.whole()))];
    if (!this.isAnyDivision) sentences.push(`Only divisions count in which nobody ${worse} than alone.`);
    const those = this.isAnyDivision ? "Of all divisions of it" : "Of these";
    sentences.push(`${those}, look at the groups that gain least by joining.`);
    sentences.push("Treat them as well as can be, then the next.");
    if (this.game.perHead) sentences.push("What a group gains or lacks is counted per member.");
    return { title: "The principle", sentences, items: [] };
  }

  // ---- Levels of one player alone and all others, in a row

  splitsFrom(start) {
    let end = start;
    while (end < this.levels.length && isSplit(this.levels[end], this.game.n)) end += 1;
    return end - start;
  }

  splits(start, count) {
    const before = this.settled.players();
    const alike = new Map(); // landings of one row are told together
    for (const level of this.levels.slice(start, start + count)) {
      const [i] = level.coalitions.map(([group]) => group).find((group) => group.length === 1);
      before.add(i);
      this.settled.addLevel(level);
      const key = this.namer.names[i], { ids = [] } = alike.get(key) ?? {};
      alike.set(key, { ids: [...ids, i], text: this.margin(level.excess) });
    }
    const items = [...alike.values()].map(({ ids, text }) => ({ label: `${this.whatTheyGet(ids)}.`, text }));
    const sentences = [
      "At each of these, one player alone, and all others together, gain least of the groups that are still open.",
      "The two groups hold each player once. What one gains the other loses, so no division does better by both.",
      `That settles what the player ${this.gets}:`,
    ];
    const last = this.settled.players().size === this.game.n ? this.allSettled(without(this.game.n, [...before])) : "";
    const brief = `settle ${count} players, one after the other.`;
    return { title: `Levels ${start + 1} to ${start + count}`, sentences, items, last, brief, isLevel: true };
  }

  /** How far two groups are above what they are worth, or below their cost. */
  margin(excess) {
    const alone = this.game.costs ? "would cost" : "are worth";
    if (excess.isZero()) return `Both groups ${this.get} exactly what they ${alone} by themselves.`;
    const isBetter = excess.isNegative();
    const more = isBetter === this.game.costs ? "less" : "more";
    return `Both groups ${this.get} ${fullText(excess.abs())}${this.perHead} ${more} than by themselves.`;
  }

  // ---- One level

  level(place) {
    const level = this.levels[place], before = this.settled.players();
    this.settled.addLevel(level);
    const who = place ? "Each group that is still open" : "Every group except all together";
    const settles = this.settles(before);
    const isAgain = place > 0 && this.levels[place - 1].excess.equals(level.excess);
    const sentences = [...this.worstOff(level, who), isAgain && AGAIN, ...this.why(reducedLevel(level)), settles];
    const title = `Level ${place + 1}`;
    return { title, sentences: sentences.filter(Boolean), items: [], brief: settles, isLevel: true };
  }

  /** Nobody does worse, and who does just so. */
  worstOff(level, who) {
    const e = level.excess, groups = this.namer.groups(level.coalitions.map(([group]) => group));
    const alone = this.game.costs ? "would cost by itself" : "is worth by itself";
    if (e.isZero()) {
      return [
        `${who} ${this.gets} at ${this.game.costs ? "most" : "least"} what it ${alone}.`,
        `Among those with exactly that: ${groups}.`,
      ];
    }
    const more = `${fullText(e.abs())} ${e.isNegative() === this.game.costs ? "less" : "more"}`;
    const perHead = this.perHead ? `,${this.perHead},` : "";
    const just = more.includes("(") ? "that" : `${more}${this.perHead}`;
    const those = more.startsWith("about") ? "the worst off of these" : `those with exactly ${just}`;
    return [
      `${who} ${this.gets}${perHead} at ${e.isNegative() ? "least" : "most"} ${more} than it ${alone}.`,
      `Among ${those}: ${groups}.`,
    ];
  }

  /** By the weights: what some gain others lose. */
  why(level) {
    const isEven = new Set(level.coalitions.map(([, weight]) => weight)).size === 1;
    const sentences = isEven ? [] : [this.counts(level.coalitions)];
    const often = onBalance(level.total);
    sentences.push(`${this.subject(level, isEven)} each player ${often}.`, this.conclusion(level));
    if (level.earlier.length) sentences.push("(What was added or taken off is settled already.)");
    return sentences;
  }

  /** Which groups hold, with what is said of how they are counted. */
  subject(level, isEven) {
    const count = level.coalitions.length, others = this.withOthers(level), weight = level.coalitions[0][1];
    const each = isEven && weight !== 1n ? [`${count > 1 ? "each " : ""}counted ${times(weight)}`] : [];
    const said = [...each, ...(count > 1 && others.length ? ["added up"] : []), ...others];
    if (!isEven) return said.length ? `${["So counted", ...said].join(", ")}, they hold` : "So counted they hold";
    const name = count === 1 ? "This group" : count === 2 ? "The two groups" : "These groups";
    const holds = count === 1 ? "holds" : "hold";
    return said.length ? `${[name, ...said].join(", ")}, ${holds}` : `${name} ${holds}`;
  }

  /** Which groups are counted how often. */
  counts(coalitions) {
    const weights = [...new Set(coalitions.map(([, weight]) => weight))].sort((a, b) => (a < b ? -1 : 1));
    const parts = weights.map((weight) => {
      const so = coalitions.filter(([, other]) => other === weight).map(([group]) => group);
      return `${times(weight)}: ${this.namer.groups(so)}`;
    });
    return `Count these groups so: ${parts.join("; ")}.`;
  }

  /** What is added to the groups of the level, and taken off. */
  withOthers(level) {
    const phrases = [];
    for (const [sign, done] of [[1n, "added"], [-1n, "taken off"]]) {
      const some = level.earlier.map(([group, weight]) => [group, weight * sign]).filter(([, weight]) => weight > 0n);
      if (some.length) phrases.push(`with ${this.eachDone(some, done)}`);
    }
    if (level.bounds.length) phrases.push(this.withBounds(level.bounds));
    return phrases.map((phrase, k) => (k ? `and ${phrase}` : phrase));
  }

  eachDone(pairs, done) {
    if (pairs.length > 8) {
      return `${pairs.length} groups of levels before ${done} (by their weights in the certificate)`;
    }
    const alike = this.alike(pairs), names = alike.map(([name]) => name);
    const weights = alike.map(([, weight]) => times(weight));
    if (new Set(weights).size === 1) return `${listed(names)} ${done} ${weights[0]}${pairs.length > 1 ? " each" : ""}`;
    return listed(names.map((name, k) => (k ? `${name} ${weights[k]}` : `${name} ${done} ${weights[k]}`)));
  }

  /** Names with weights; of groups of landings that are named and counted alike one for all. */
  alike(pairs) {
    const found = new Map();
    for (const [group, weight] of pairs) {
      const name = this.namer.inSum(group), key = `${weight} ${name}`;
      found.set(key, { name, weight, groups: [...(found.get(key)?.groups ?? []), group] });
    }
    return [...found.values()].map(({ name, weight, groups }) => {
      if (groups.length === 1) return [name, weight];
      const isSingle = groups[0].length === 1, several = name.replace(/^the group/, `${groups.length} groups`);
      return [isSingle ? this.namer.players(groups.flat()) : several, weight];
    });
  }

  withBounds(bounds) {
    const ids = bounds.map(([[player]]) => player), weights = new Set(bounds.map(([, weight]) => weight));
    const often = weights.size === 1 ? times(bounds[0][1]) : "by their weights in the certificate";
    const several = ids.length > 1;
    const own = this.game.costs ? "costs alone, and may not pay more" : "is worth alone, and may not get less";
    const who = several ? `${this.get} exactly what each ${own}` : `${this.gets} exactly what it ${own}`;
    return `with ${this.namer.players(ids)} added ${often}${several && weights.size === 1 ? " each" : ""}, who ${who}`;
  }

  conclusion(level) {
    const count = level.coalitions.length;
    const unless = level.bounds.length ? ", unless somebody does worse than alone" : "";
    if (count === 1) return `So it can’t do better${unless}.`;
    if (count === 2) return "What one gains the other loses. So no division does better by both.";
    return "What some of them gain others lose. So no division does better by all of them.";
  }

  /** Who is settled by the level that was told last. */
  settles(before) {
    const after = this.settled.players(), fresh = [...after].filter((i) => !before.has(i));
    if (after.size === this.game.n) return this.allSettled(fresh);
    if (fresh.length) return `Settled: ${this.whatTheyGet(fresh)}.`;
    const others = before.size ? "but no further player’s share" : "though no player’s share is yet";
    return `What these groups ${this.get} is settled, ${others}.`;
  }

  allSettled(fresh) {
    return fresh.length ? `With that all is settled: ${this.whatTheyGet(fresh)}.` : "With that all is settled.";
  }

  whatTheyGet(ids) {
    return this.namer.whatTheyGet(this.texts, ids, this.get);
  }
}
