// Numbers of a table that can hardly be meant: a group that costs more than two of its parts apart (gains less), or
// more than a larger group that holds it. They are remarks; the answer goes by what was typed. One wrong number is in
// many such comparisons, so of those that don't fit the group that is in most is told, and then of the rest.
import { shortText } from "../exact/decimals.js";
import { lcm } from "../exact/rational.js";

const MOST_SPLIT = 10; // players above whom a group is compared with those of one player more or less only
const MOST_TOLD = 4;
const MANY = 20; // misfits that no few numbers explain
const MOST_MISFITS = 20000; // that are looked at

/** The remarks on values by mask (undefined if there is none), so many at most: {mask, sentence}. `nameOf(mask)` names
 * a group, and `isGiven(mask)` says whether somebody gave its number: of no other it is told. */
export function oddsOf(values, n, { isCost, nameOf, isGiven = () => true, most = MOST_TOLD }) {
  if (n < 2) return [];
  const isWhole = values.every((value) => !value || value.den === 1n);
  const scale = isWhole ? 1n : values.reduce((all, value) => (value ? lcm(all, value.den) : all), 1n);
  const whole = Float64Array.from(values, (value) => {
    return value ? Number(scale === 1n ? value.num : (value.num * scale) / value.den) : NaN;
  });
  const text = (mask) => shortText(values[mask]), found = [];
  const isTold = ([one, other, rest]) => isGiven(one) && (rest !== undefined || isGiven(other));
  const all = (n > MOST_SPLIT ? misfitsOfOne(whole, isCost) : misfits(whole, isCost)).filter(isTold);
  let left = all;
  const isGeneral = () => found.length === MOST_TOLD && left.length > MANY && left.length * 2 > all.length;
  while (left.length && found.length < most && !isGeneral()) {
    const mask = mostOften(left, isGiven), own = left.filter((groups) => groups.includes(mask));
    const more = own.length > 1 ? ` (${own.length - 1} more such)` : "";
    found.push({ mask, sentence: sentenceOf(mask, own[0], { nameOf, text, isCost }) + more });
    left = left.filter((groups) => !groups.includes(mask));
  }
  return isGeneral() ? [inGeneral(all, { isCost, nameOf })] : found;
}

/** The one remark where no few numbers explain the others: joining costs in many groups. */
function inGeneral(misfit, { isCost, nameOf }) {
  const groups = new Set(misfit.map(([group]) => group)), [first] = groups;
  const what = isCost ? "cost more than parts of theirs apart, or less than a part"
    : "gain less than parts of theirs apart, or than a part";
  return { mask: first, sentence: `${groups.size} groups ${what}, the first of them ${nameOf(first)}` };
}

/** Groups whose numbers don't fit together: [group, part, rest], or [large, small]. No number (NaN) fits all. */
function misfits(values, isCost) {
  const found = [];
  for (let mask = 3; mask < values.length && found.length < MOST_MISFITS; mask++) {
    const own = values[mask];
    for (let part = (mask - 1) & mask; part; part = (part - 1) & mask) {
      const rest = mask & ~part, one = values[part], both = one + values[rest];
      if (one > own) found.push([mask, part]);
      if (part > rest && (isCost ? own > both : own < both)) found.push([mask, part, rest]);
    }
  }
  return found;
}

/** The same for each group with one of its players and the others. */
function misfitsOfOne(values, isCost) {
  const found = [];
  for (let mask = 3; mask < values.length && found.length < MOST_MISFITS; mask++) {
    const own = values[mask];
    for (let left = mask; left; left &= left - 1) {
      const part = left & -left, rest = mask ^ part;
      if (!rest) continue;
      const one = values[part], other = values[rest], both = one + other;
      if (one > own) found.push([mask, part]);
      if (other > own) found.push([mask, rest]);
      if (isCost ? own > both : own < both) found.push([mask, part, rest]);
    }
  }
  return found;
}

/** The given group that is in most of them; among equals the one that holds the others. */
function mostOften(misfit, isGiven) {
  const counts = new Map();
  for (const mask of misfit.flat().filter(isGiven)) counts.set(mask, (counts.get(mask) ?? 0) + 1);
  const most = Math.max(...counts.values()), often = [...counts.keys()].filter((mask) => counts.get(mask) === most);
  const [[first]] = misfit;
  return often.includes(first) ? first : often[0];
}

function sentenceOf(mask, [one, other, rest], { nameOf, text, isCost }) {
  const [costs, cost, more] = isCost ? ["costs", "cost", "more"] : ["gains", "gain", "less"], own = nameOf(mask);
  if (rest === undefined) {
    return mask === one ? `${own} ${costs} ${text(one)}, less than ${nameOf(other)}, which it holds: ${text(other)}`
      : `${own} ${costs} ${text(other)}, more than ${nameOf(one)}, which holds it: ${text(one)}`;
  }
  const parts = `${text(other)} + ${text(rest)}`;
  if (mask === one) {
    return `${own} ${costs} ${text(one)}, ${more} than ${nameOf(other)} and ${nameOf(rest)} ${cost} apart: ${parts}`;
  }
  const beside = mask === other ? rest : other;
  return `${own} ${costs} ${text(mask)}: with ${nameOf(beside)} apart that is ${parts}, and together they ${cost} `
    + `${text(one)}, which is ${more}`;
}
