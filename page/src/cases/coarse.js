// What the page did to the numbers of a case that were too fine: it rounded them, or took all times a power of ten. The
// program's document has no place for it, so it is told wherever the answer goes, and the file's name has it.
import { Rational } from "../exact/rational.js";
import { isObject } from "../exact/json.js";

// Beside the cells it stands as `coarse` of what was typed: {times}, the power of ten; and {rounded}, with how many
// numbers of how many were rounded, `count` and `of`, where that is known, and by how much at `most`. All are texts.
const TIMES = /^10{1,24}$/, COUNT = /^\d{1,9}$/, SIZE = /^\d{1,40}(\/[1-9]\d{0,39})?$/;
const HALF_A_STEP = "1/20000"; // by which a number moves at most that is rounded to four decimals

/** What stands in a file, as `coarse`; undefined where it is none. */
export function coarseOf(tree) {
  const { times, rounded } = isObject(tree) ? tree : {}, found = {};
  const isText = (one, form) => typeof one === "string" && form.test(one);
  if (isText(times, TIMES)) found.times = times;
  if (isObject(rounded) && isText(rounded.most, SIZE)) {
    const { count, of, most } = rounded, isCounted = isText(count, COUNT) && isText(of, COUNT);
    found.rounded = isCounted ? { count, of, most } : { most };
  }
  return Object.keys(found).length ? found : undefined;
}

/** Both, where numbers that were made coarser are so again. */
export function coarserStill(before = {}, fresh) {
  const times = before.times && fresh.times ? String(BigInt(before.times) * BigInt(fresh.times)) : undefined;
  return { ...before, ...fresh, ...(times ? { times } : {}) };
}

/** Of a game whose numbers are sums of up to `count` of these. */
export function coarseOfSums({ times, rounded } = {}, count) {
  const most = rounded && String(Rational.of(rounded.most).times(Rational.of(count)));
  return coarseOf({ times, rounded: most && { most } });
}

/** The names of the files of a case: of the game's, and what that of a line begins with. */
export function fileNames(id, coarse) {
  if (!coarse) return { game: `${id}-game.json`, line: id };
  const line = [id, ...(coarse.times ? ["times", coarse.times] : []), ...(coarse.rounded ? ["rounded"] : [])].join("-");
  return { game: `${line}.json`, line };
}

/** What the name of a file says of its numbers; undefined where it says nothing. */
export function coarseOfName(name = "") {
  const times = /-times-(10+)(?!\d)/.exec(name)?.[1], rounded = /-rounded(?!\w)/.test(name) && { most: HALF_A_STEP };
  return coarseOf({ times, rounded });
}

/** Whether a difference between sums of `count` numbers is so small that the rounding may have made it. */
export function mayBeOfRounding({ rounded } = {}, difference, count) {
  return Boolean(rounded) && !Rational.of(rounded.most).times(Rational.of(count)).less(difference);
}
