// Who wins by the votes of one ballot, or of two at once: the smallest winning groups, and what a voter can do alone.
import { lcm, Rational } from "../exact/rational.js";
import { everyoneOf, without } from "./groups.js";

const MOST_STEPS = 2 ** 16; // of the search, which is enough for all groups of 16 voters

/** A ballot in whole numbers. */
export function inWhole({ votes, quota }) {
  const scale = Rational.of([...votes, quota].reduce((all, { den }) => lcm(all, den), 1n));
  return { votes: votes.map((one) => one.times(scale).num), quota: quota.times(scale).num };
}

export const votesOf = ({ votes }, group) => Rational.sum(group.map((i) => votes[i]));

/** Whether a group has the votes that each ballot needs. */
export const wins = (ballots, group) => ballots.every((ballot) => !votesOf(ballot, group).less(ballot.quota));

/** What a voter can do alone: of which ballots the others don't reach the quota (`vetoes`), whether its own votes are
 * enough (`isEnough`), and whether it has no influence (`isIdle`), as its power says. */
export function standingOf(i, share, ballots) {
  const others = without(ballots[0].votes.length, [i]);
  const vetoes = ballots.filter((ballot) => votesOf(ballot, others).less(ballot.quota));
  return { vetoes, isEnough: wins(ballots, [i]), isIdle: share.isZero() };
}

/** The winning groups of which each member is needed, the smallest first; `isAll` says that there are no others. */
export function smallestWinning(ballots) {
  const counted = ballots.map(inWhole), [{ votes: first }] = counted, groups = [];
  const order = everyoneOf(first.length).sort((i, j) => (first[i] === first[j] ? i - j : first[i] > first[j] ? -1 : 1));
  const moved = (sums, i, sign) => sums.map((sum, b) => sum + sign * counted[b].votes[i]);
  const reach = (sums) => sums.every((sum, b) => sum >= counted[b].quota);
  const rests = order.reduceRight((all, i) => [moved(all[0], i, 1n), ...all], [counted.map(() => 0n)]);
  let steps = 0;
  const grow = (group, sums, from) => {
    for (let k = from; k < order.length; k++) {
      const canWin = reach(sums.map((sum, b) => sum + rests[k][b]));
      if (!canWin || (steps += 1) > MOST_STEPS) return;
      const own = [...group, order[k]], reached = moved(sums, order[k], 1n);
      if (!reach(reached)) grow(own, reached, k + 1);
      else if (own.every((i) => !reach(moved(reached, i, -1n)))) groups.push(own.sort((i, j) => i - j));
    }
  };
  grow([], counted.map(() => 0n), 0);
  return { groups: groups.sort(bySize), isAll: steps <= MOST_STEPS };
}

function bySize(one, other) {
  const k = one.findIndex((i, at) => i !== other[at]);
  return one.length - other.length || one[k] - other[k];
}
