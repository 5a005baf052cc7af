// Power by two quotas of more voters than a table has: in what part of all orders of joining each voter is the one by
// whom both quotas are reached (Shapley and Shubik 1954). Nobody has proved what is here; up to 16 voters it is
// compared with the program. The groups of all other voters are counted by size, from the sorted sums of two halves of
// them.
import { Rational } from "../exact/rational.js";
import { inWhole } from "../game/ballots.js";

const MOST_PAIRS = 1.5e8; // of sums that are put side by side for all voters

/** The sums of first votes of all groups of some voters, sorted, by the size and the second votes of the group. */
function sumsOf(voters) {
  let groups = new Map([["0 0", { size: 0, second: 0, sums: [0] }]]);
  for (const { first, second: own } of voters) {
    const next = new Map([...groups].map(([key, group]) => [key, { ...group, sums: [...group.sums] }]));
    for (const { size, second, sums } of groups.values()) {
      const key = `${size + 1} ${second + own}`, fresh = { size: size + 1, second: second + own, sums: [] };
      const found = next.get(key) ?? fresh;
      for (const sum of sums) found.sums.push(sum + first);
      next.set(key, found);
    }
    groups = next;
  }
  return [...groups.values()].map((group) => ({ ...group, sums: Float64Array.from(group.sums).sort() }));
}

/** How many pairs of two sorted lists add to a least number. */
function pairsFrom(one, other, least) {
  let count = 0, k = other.length;
  for (const sum of one) {
    while (k > 0 && sum + other[k - 1] >= least) k -= 1;
    count += other.length - k;
  }
  return count;
}

/** In how many groups of the others, by their size, a voter is the one by whom both quotas are reached. */
function pivots({ first, second }, halves, [quota, other]) {
  const counts = [];
  for (const one of halves[0]) {
    for (const two of halves[1]) {
      const size = one.size + two.size, own = one.second + two.second;
      const reached = own + second >= other ? pairsFrom(one.sums, two.sums, quota - first) : 0;
      const before = own >= other ? pairsFrom(one.sums, two.sums, quota) : 0;
      counts[size] = (counts[size] ?? 0) + reached - before;
    }
  }
  return counts;
}

/** The power of each voter as a text; null if there are too many kinds of second votes for it. `votes` and `seconds`
 * are whole numbers, `quotas` the two least sums. */
export function doublePower(votes, seconds, quotas) {
  const voters = votes.map((first, i) => ({ first, second: seconds[i] })), n = voters.length;
  const factorials = [1n];
  for (let k = 1; k <= n; k++) factorials.push(factorials[k - 1] * BigInt(k));
  const shares = [];
  let pairs = 0;
  for (const [i, voter] of voters.entries()) {
    const others = voters.filter((_, j) => j !== i), middle = Math.ceil(others.length / 2);
    const halves = [others.slice(0, middle), others.slice(middle)].map(sumsOf);
    pairs += halves[0].length * halves[1].length * 8 + 2 ** middle * halves[1].length;
    if (pairs * (n / (i + 1)) > MOST_PAIRS) return null;
    const counts = pivots(voter, halves, quotas), parts = counts.map((count, size) => {
      return BigInt(count) * factorials[size] * factorials[n - 1 - size];
    });
    shares.push(String(new Rational(parts.reduce((sum, part) => sum + part, 0n), factorials[n])));
  }
  return shares;
}

/** What a case of votes shows beyond the program: the power of a ballot, or of two, as texts, with the rows; null if it
 * takes too long. */
export function powerBeyond(ballots, rows) {
  const [one, other = { votes: one.votes.map(() => 0n), quota: 0n }] = ballots.map(inWhole); // which all reach
  const numbers = ({ votes }) => votes.map(Number);
  const power = doublePower(numbers(one), numbers(other), [one, other].map(({ quota }) => Number(quota)));
  const texts = ballots.map(({ votes, quota }) => ({ votes: votes.map(String), quota: String(quota) }));
  return power && { power, ballots: texts, rows: rows.map(({ label }) => ({ label })) };
}
