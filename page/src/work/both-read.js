// What the page says of two games counts only if the program reads both of them: what it refuses is no game, and each
// reader may take it for another one.
import { writeJson } from "../exact/json.js";
import { ANOTHER, UNSAID } from "../game/same-worths.js";
import { found } from "./same-game.js";

const NO_SHARES = 10; // the refusal of no shares for a game, which is only reached if the game is right

/** What `sameGame` found, or that nobody can say, if the program refuses one of the two games. */
export function bothRead(same, line, agreed, ask) {
  if (!line.tree?.game || !agreed.tree?.game || (same.outcome === UNSAID && !same.items.length)) return same;
  for (const [what, { tree }] of [["agreed file", agreed], ["line", line]]) {
    const why = refusalOf(tree.game, ask);
    if (why) return unsaid(same, what, why);
  }
  return same;
}

function unsaid({ outcome, sentence, items }, what, why) {
  const places = outcome !== ANOTHER || items.length ? items : [sentence.replace(/^No\. /, "")];
  const differ = places.length > 0 && outcome === ANOTHER ? " As far as the two can be read, they differ at:" : "";
  const told = `Nobody can say: the program refuses the ${what}. ${why}${differ}`;
  return found(UNSAID, told, outcome === ANOTHER ? places : []);
}

/** Why the program refuses a game, in words; null if it reads it. */
function refusalOf(game, ask) {
  const word = game.class === "market" ? "matching" : "propose";
  const { status, tree, refusal } = ask(word, writeJson({ game, shares: [] }));
  if (status > 3) return `It ended with status ${status}.`;
  if (status < 2 || Number(tree.number) === NO_SHARES) return null;
  return `${refusal.sentence}${refusal.place ? ` (${refusal.place})` : ""}`;
}
