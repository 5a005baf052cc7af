// Why the power of votes is what it is, as parts with sentences: how the orders of joining are counted, the smallest
// winning groups, and what each voter can do alone.
import { fractionText, percentText, shortText } from "../exact/decimals.js";
import { Rational } from "../exact/rational.js";
import { standingOf, votesOf, wins } from "../game/ballots.js";
import { everyoneOf } from "../game/groups.js";
import { listed, plural } from "../game/words.js";

const MOST_ORDERED = 8; // voters whose orders of joining are counted one by one
const MOST_LISTED = 12; // smallest winning groups that are all listed
const FIRST = 6; // of more than these
const MOST_NAMED = 6; // voters of whom one sentence is said each

/** What power is, in a sentence or two. */
export const POWER = "The voters join one after another, in every order. In each order one voter turns a side that "
  + "loses into one that wins. A voter’s power is the part of all orders in which that is this voter (Shapley and "
  + "Shubik 1954).";

/** Votes of each ballot, in words: "12 votes", "12 first votes and 3 second votes". */
function votesText(ballots, group) {
  const names = ballots.length > 1 ? ["first votes", "second votes"] : ["votes"];
  return ballots.map((ballot, b) => `${shortText(votesOf(ballot, group))} ${names[b]}`).join(" and ");
}

const quotasText = (ballots) => (ballots.length > 1 ? "both quotas are reached" : "the votes are enough");

/** The parts; `smallest` are the smallest winning groups (game/ballots.js). */
export function powerParts({ ballots, shown }, shares, smallest) {
  return [ordersPart(ballots, shown, shares), groupsPart(ballots, shown, smallest),
    standingsPart(ballots, shown, shares)];
}

function ordersPart(ballots, shown, shares) {
  const n = shown.length, k = everyoneOf(n).findIndex((i) => wins(ballots, everyoneOf(i + 1)));
  const before = everyoneOf(k), need = ballots.map(({ quota }) => shortText(quota)).join(" and ");
  const example = `In the order of the table that is ${shown[k]}: before, there are ${votesText(ballots, before)}, `
    + `with ${shown[k]} there are ${votesText(ballots, [...before, k])}, and ${need} are needed.`;
  if (n > MOST_ORDERED) return { title: "How power is counted", sentences: [POWER, example], items: [] };
  const orders = Rational.of(Array.from({ length: n }, (_, i) => i + 1).reduce((product, one) => product * one, 1));
  const count = shortText(orders), ordered = `${count} ${count === "1" ? "order" : "orders"}`;
  const part = (share) => (share.isWhole() ? "" : `, exactly ${fractionText(share)}`);
  return {
    title: "How power is counted",
    sentences: [POWER, example, `${plural(n, "voter")} can join in ${ordered}. It is:`],
    items: shown.map((name, i) => ({
      label: `${name}:`,
      text: `in ${shortText(shares[i].times(orders))} of ${ordered}, ${percentText(shares[i])}${part(shares[i])}`,
    })),
  };
}

function groupsPart(ballots, shown, { groups, isAll }) {
  const isWhole = isAll && groups.length <= MOST_LISTED, count = plural(groups.length, "such group");
  const there = isWhole ? `There ${groups.length > 1 ? "are" : "is"} ${count}:`
    : isAll ? `There are ${count}. The first of them:` : "There are many such groups. Some of them:";
  return {
    title: "The smallest winning groups",
    sentences: [`In such a group ${quotasText(ballots)}, and without any one of its members they aren’t.`, there],
    items: groups.slice(0, isWhole ? MOST_LISTED : FIRST).map((group) => {
      return { label: `${listed(group.map((i) => shown[i]))}:`, text: votesText(ballots, group) };
    }),
  };
}

function standingsPart(ballots, shown, shares) {
  const standings = shares.map((share, i) => standingOf(i, share, ballots));
  const those = (is) => everyoneOf(shown.length).filter((i) => is(standings[i]));
  const vetoing = those(({ vetoes }) => vetoes.length), enough = those(({ isEnough }) => isEnough);
  const idle = those(({ isIdle }) => isIdle), named = (some) => listed(some.map((i) => shown[i]));
  const vetoes = !vetoing.length ? ["Nobody has a veto: without any one voter the others still have enough."]
    : vetoing.length <= MOST_NAMED ? vetoing.map((i) => vetoText(i, standings[i].vetoes, ballots, shown))
    : [`${named(vetoing)} have a veto each: without any one of them the others have too few votes.`];
  const alone = enough.length > 1 ? `${named(enough)} win alone: the votes of each are enough.`
    : enough.length ? `${named(enough)} wins alone: ${votesText(ballots, enough)} are enough.`
    : `Nobody wins alone: no voter’s own votes are enough${ballots.length > 1 ? " for both quotas" : ""}.`;
  const never = idle.length > 1 ? `${named(idle)} never matter: no smallest winning group has one of them.`
    : idle.length ? `${named(idle)} never matters: no smallest winning group has this voter.`
    : "Everybody matters: each voter is in a smallest winning group.";
  const title = "Who has a veto, who wins alone, who never matters";
  return { title, sentences: [...vetoes, alone, never], items: [] };
}

/** Why a voter has a veto: by which ballots the others have too few votes. */
function vetoText(i, vetoes, ballots, shown) {
  const because = vetoes.map((ballot) => {
    const { votes, quota } = ballot, all = Rational.sum(votes), rest = all.minus(votes[i]);
    const which = ballots.length > 1 ? `${ballot === ballots[0] ? "first" : "second"} ` : "";
    return `the others have ${shortText(rest)} of ${shortText(all)} ${which}votes (${percentText(rest.over(all))}), `
      + `and ${shortText(quota)} (${percentText(quota.over(all))}) are needed`;
  });
  return `${shown[i]} has a veto: without ${shown[i]} ${because.join("; ")}.`;
}
