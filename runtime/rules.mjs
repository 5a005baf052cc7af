// What numbers rest on, and how rules stand beside each other, in sentences, for a program that worked them out.
import { saidText } from "../page/src/exact/decimals.js";
import { Rational } from "../page/src/exact/rational.js";
import { enumerated } from "../page/src/game/words.js";
import { membersOf } from "../page/src/game/groups.js";
import { restsTold, TIES } from "../page/src/tell/margins.js";
import { Namer } from "../page/src/tell/words.js";

const MOST_NAMED = 40; // groups in a sentence

/** Of the masks of the groups that count as they are, and of those that are nearest to it: the sentences, and the names
 * of the latter. `free` is how many don't count, of which some may have no room (`isTied`). */
export function marginsTold(game, { counted, near, free, isTied }) {
  const namer = new Namer(game), name = (mask) => namer.group(membersOf(mask));
  const sentences = restsTold(counted.map(name), free, game, MOST_NAMED);
  if (isTied) sentences.push(TIES);
  if (free > near.length && near.length) sentences.push("Those nearest to it:");
  return { sentences, names: near.map(name) };
}

/** Of rules {rule, leaving, by, isProved}, where no group leaves a division of the core: by which no group could do
 * better by itself, and by which which group could by the most. */
export function rulesTold(game, { rows }) {
  const namer = new Namer(game), verb = game.costs ? "save" : "gain", rules = (some) => some.map(({ rule }) => rule);
  const good = rows.filter(({ leaving }) => !leaving), own = rows.filter(({ isProved }) => !isProved);
  const blocked = rows.filter(({ leaving }) => leaving).map(({ rule, leaving, by }) => {
    return `By ${rule}: ${namer.group(leaving)} could ${verb} ${saidText(Rational.of(by))}, and no group more.`;
  });
  return { sentences: [
    good.length && `No group could do better by itself by: ${enumerated(rules(good))}.`, ...blocked,
    own.length && `The program judges all of these divisions. It didn’t work out: ${enumerated(rules(own))}.`,
  ].filter(Boolean) };
}
