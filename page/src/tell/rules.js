// The rules that give the nucleolus of a runway and of an estate, explained with the numbers of a game. A rule is
// worked out anew, and explained only if its shares are those of the answer.
import { Rational, ZERO } from "../exact/rational.js";
import { decimal, fullText, isRounded, saidText, shareTexts, shortText } from "../exact/decimals.js";
import { spoken } from "../exact/marks.js";
import { listed, plural } from "../game/words.js";

const MOST_NAMED = 6; // claims of which it is said by name who gets more than in proportion

/** The rule as {title, sentences, items}; null if the class has none. */
export function ruleOf(game, shares, namer) {
  if (game.perHead) return null;
  if (game.kind === "airport") return runwayRule(game, shares, namer);
  return game.kind === "bankruptcy" ? estateRule(game, shares, namer) : null;
}

// ---- A runway

/** Littlechild's steps: who pays in each, in the order of their costs, and what each of these pays. */
function runwaySteps(costs) {
  const order = costs.map((_, i) => i).sort((i, j) => costs[i].compare(costs[j]) || i - j);
  const steps = [];
  let done = 0, paid = ZERO;
  while (done < order.length) {
    let end = 0, part = null;
    for (let place = done + 1; place <= order.length; place++) {
      const share = costs[order[place - 1]].minus(paid).over(Rational.of(partsUpTo(done, place, order.length)));
      if (part === null || !part.less(share)) [end, part] = [place, share];
    }
    steps.push({ who: order.slice(done, end), part, done, paid });
    paid = paid.plus(part.times(Rational.of(end - done)));
    done = end;
  }
  return steps;
}

/** How many parts there are for those from `done` to `end`; the last step saves nothing. */
function partsUpTo(done, end, players) {
  return end - done + (end < players ? 1 : 0);
}

function runwayRule(game, shares, namer) {
  const steps = runwaySteps(game.amounts), texts = shareTexts(shares), short = shareTexts(shares, shortText);
  if (steps.some(({ who, part }) => who.some((i) => !shares[i].equals(part)))) return null;
  return {
    title: "The rule (Littlechild 1974)",
    sentences: [
      "Put all in the order of what they need.",
      "At each step, take the cost of what the next ones need too, less what the earlier ones pay.",
      "Split it into equal parts: one for each that pays now, and one that is saved.",
      "The next ones that make this part least pay now.",
    ],
    items: steps.map((step, k) => ({
      label: `${namer.whatTheyGet(texts, step.who, "pay")}${moreThan(steps[k - 1], step)}.`,
      text: runwayStep(game, step, steps.slice(0, k), short),
    })),
  };
}

function runwayStep(game, { who, done, paid }, steps, texts) {
  const end = done + who.length, isLast = end === game.n, several = who.length > 1;
  const cost = game.amounts[who.at(-1)], left = cost.minus(paid), count = partsUpTo(done, end, game.n);
  const sentences = [`${needed(done, end, game.n)} costs ${saidText(cost)}.`];
  const those = done === 1 ? `The earlier one pays ${texts[steps[0].who[0]]}`
    : `The ${done} earlier ones pay ${saidText(paid, ...steps.map(({ part }) => part))}`;
  if (done) sentences.push(`${those}, so ${saidText(left)} is left.`);
  if (isLast) sentences.push(several ? "They share it equally." : "The last pays it.");
  else if (count === 2) sentences.push("Half of it is paid, and half is saved.");
  else sentences.push(`Each pays one of ${count} parts, and one part is saved.`);
  return sentences.join(" ");
}

/** By how much those of a step pay more than those before. */
function moreThan(before, { part }) {
  if (!before?.part.less(part)) return "";
  const by = part.minus(before.part), about = isRounded(part) && !isRounded(by) ? "about " : "";
  return `, ${about}${fullText(by)} more than the earlier ones`;
}

function needed(done, end, players) {
  if (end === players) return "What all need";
  if (end === 1) return "What it needs";
  if (!done) return `What these ${end} need`;
  const earlier = done === 1 ? "earlier one" : `${done} earlier ones`;
  return `What ${end - done === 1 ? "it" : "they"} and the ${earlier} need`;
}

// ---- An estate

/** Returns the t for which the halves of the claims, each at most t, add to the amount. The amount is at most half of
 * all claims. */
function greatestPart(claims, amount) {
  const two = Rational.of(2);
  const sorted = [...claims].sort((a, b) => a.compare(b));
  let left = amount, count = claims.length;
  for (const claim of sorted) {
    const number = Rational.of(count);
    if (!claim.times(number).less(left.times(two))) return left.over(number);
    left = left.minus(claim.over(two));
    count -= 1;
  }
  return sorted.at(-1).over(two);
}

function estateRule(game, shares, namer) {
  const estate = game.single, two = Rational.of(2);
  const claims = game.amounts.map((claim) => Rational.min([claim, estate]));
  const total = Rational.sum(claims), half = total.over(two), isLacking = half.less(estate);
  const amount = isLacking ? total.minus(estate) : estate, t = greatestPart(claims, amount);
  const parts = claims.map((claim) => Rational.min([claim.over(two), t]));
  const byRule = isLacking ? claims.map((claim, i) => claim.minus(parts[i])) : parts;
  if (byRule.some((share, i) => !share.equals(shares[i]))) return null;
  const verb = isLacking ? "loses" : "gets", isCapped = claims.map((claim) => t.less(claim.over(two)));
  const isCut = game.amounts.some((claim) => estate.less(claim));
  const sentences = [
    ...(isCut ? [`A claim above the estate counts as the estate, ${saidText(estate)}.`] : []),
    `The claims${isCut ? ", so counted," : ""} add to ${saidText(total)}, and half of this sum is ${saidText(half)}.`,
    `The estate of ${saidText(estate)} is ${isLacking ? "more" : "no more"} than this half.`,
    `So each ${verb} half of its claim${isCapped.includes(true) ? `, but at most ${fullText(t)}` : ""}.`,
    ...greatestText(parts, isCapped, t, amount),
    `Together these are ${saidText(amount)}${isLacking ? ", which is what the estate lacks" : ""}.`,
  ];
  const texts = shareTexts(shares), short = shareTexts(shares, shortText);
  const items = claims.map((claim, i) => {
    const halfOf = `Half of ${saidText(claim)} is ${saidText(claim.over(two))}`;
    const cut = isCapped[i] ? `, which is more than ${saidText(t)}` : "";
    const left = isLacking ? ` ${saidText(claim)} less ${saidText(parts[i])} is ${short[i]}.` : "";
    return { label: `${namer.names[i]} gets ${texts[i]}.`, text: `${halfOf}${cut}.${left}` };
  });
  const last = inProportion(game, shares, namer.names);
  return { title: "The rule (the Talmud’s; Aumann and Maschler 1985)", sentences, items, last };
}

/** Why one gets, or loses, at most t: the halves that are no greater leave a rest, which is split into equal parts. */
function greatestText(parts, isCapped, t, amount) {
  const many = isCapped.filter(Boolean).length, few = parts.length - many, equal = `in ${many} equal parts`;
  if (!many) return [];
  if (!few) return [`Half of each claim is more, so ${saidText(amount)} is split ${equal}.`];
  const halves = Rational.sum(parts.filter((_, i) => !isCapped[i])), left = saidText(amount.minus(halves));
  const those = `Half is no more than that for ${few === 1 ? "one claim:" : `${few} claims, together`}`;
  const rest = many > 1 ? `The rest is ${left}, ${equal} of ${fullText(t)}.` : `The rest is ${left}.`;
  return [`${those} ${saidText(halves)} of the ${saidText(amount)}. ${rest}`];
}

/** Compares the rule with the division in proportion; "" if the two are the same. */
function inProportion({ single, amounts }, shares, names) {
  const part = single.over(Rational.sum(amounts)), others = amounts.map((claim) => claim.times(part));
  const [more, less] = [[others, shares], [shares, others]].map(([low, high]) => {
    return names.filter((_, i) => low[i].less(high[i]));
  });
  if (!more.length) return "";
  const told = (some) => (names.length > MOST_NAMED ? plural(some.length, "claim") : listed(some));
  const percent = `${decimal(part.times(Rational.of(100)), 2, spoken)}\u202f%`;
  return `In proportion to the claims, each would get ${percent} of its claim. By the Talmud’s rule ${told(more)} `
    + `${more.length > 1 ? "get" : "gets"} more than that, and ${told(less)} less. A court may be bound to another `
    + "rule: insolvency law commonly divides in proportion.";
}
