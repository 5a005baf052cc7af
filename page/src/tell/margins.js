// Which numbers the shares of an answer rest on, and that the others may be off, in sentences.
import { enumerated, listed } from "../game/words.js";

/** What is said if some of the others have no room. */
export const TIES = "Some of the others have no room at all: there are ties. Then other evidence may show the same "
  + "shares, and rest on other numbers than these.";

/** `rests` are the names of the groups that count as they are, without that of all; of `free` others a bound is known.
 * More than `most` aren't named. */
export function restsTold(rests, free, { costs }, most) {
  const first = countTold([...rests, "all together"], free, most);
  if (!free) return [first];
  const others = free > 1 ? `Each of the other ${free} may be off, all at once` : "The other one may be off";
  const verb = costs ? "cost" : "gain", way = costs ? "less" : "more";
  const condition = `${free > 1 ? `none ${verb}s` : `it doesn’t ${verb}`} ${way} than its bound`;
  return [first, `${others}: as long as ${condition}, the shares stay as they are, and the same line proves it.`];
}

/** The same of landings, claims or links, of which each has a range by itself. */
export function numbersTold(rests, free, most) {
  const others = free > 1 ? `Each of the other ${free}` : "The other one";
  const told = `${others} may move alone: as long as it stays within its range, the shares stay as they are, and the `
    + "same certificate proves it.";
  return [countTold(rests, free, most), ...(free ? [told] : [])];
}

function countTold(names, free, most) {
  const list = names.some((name) => /,| and /.test(name)) ? enumerated : listed, count = names.length;
  const named = count - 1 > most || !count ? "" : `: ${list(names)}`;
  return `By this evidence, the shares rest on ${count} of the ${count + free} numbers as they are${named}.`;
}
