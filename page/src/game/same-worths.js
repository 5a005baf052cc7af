// What two games are to each other, and whether each group of both is worth the same: where the groups are few each is
// compared, and of some classes a few groups tell all the others.
import { mostOf as mostOfClass } from "./classes.js";
import { everyoneOf, membersOf, without } from "./groups.js";

/** The same: each name and each number is the same, however they are written, and players who have names may stand in
 * another order. Worth the same: the names, the measure and the worth of each group are the same, but other numbers say
 * so, or another class. */
export const SAME = "same";
export const WORTH_THE_SAME = "worth the same";
export const ANOTHER = "another";
export const UNSAID = "nobody can say";

const MOST = mostOfClass("table"), MOST_SLOW = 12; // players of games that are compared group by group
const SLOW = ["tree", "assignment", "market"]; // whose worths take long

const isMarket = ({ kind }) => kind === "assignment" || kind === "market";

/** The first group found that is worth otherwise, by the players of the first game: null where there is none, and [] if
 * they differ in all. `order` says where each of its players stands in the second, if they stand in another order. */
export function firstOther(one, other, order) {
  const isAlike = one.n === other.n && one.costs === other.costs && one.perHead === other.perHead
    && one.named === other.named && one.names.every((name, i) => name === other.names[order ? order[i] : i]);
  if (!isAlike) return [];
  for (const group of groupsOf(one, other)) {
    const theirs = order ? group.map((i) => order[i]).sort((i, j) => i - j) : group;
    if (!one.worth(group).equals(other.worth(theirs))) return group;
  }
  return null;
}

/** Whether two games in which no such group was found are known to be worth the same. A runway is told by what each
 * needs alone, an estate by itself and by what all but one leave of it, and a market by its pairs. */
export function areKnownWorthTheSame(one, other) {
  if (one.n <= mostOf(one, other) || (isMarket(one) && isMarket(other))) return true;
  return one.kind === other.kind && ["airport", "bankruptcy"].includes(one.kind);
}

function mostOf(...games) {
  return games.some(({ kind }) => SLOW.includes(kind)) ? MOST_SLOW : MOST;
}

/** All groups of few players; of many those of one and of two, and those without one. */
function* groupsOf(one, other) {
  const { n } = one, all = everyoneOf(n);
  if (n <= mostOf(one, other)) {
    for (let mask = 1; mask < 2 ** n; mask++) yield membersOf(mask);
    return;
  }
  for (const i of all) yield [i];
  for (const i of all) for (const j of all.slice(i + 1)) yield [i, j];
  if (n > 20 && (isMarket(one) || isMarket(other))) return; // their pairs tell all
  yield all;
  for (const i of all) yield without(n, [i]);
}
