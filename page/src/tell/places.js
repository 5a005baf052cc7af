// Places of a document with the player whose number or name stands there.
import { membersOf } from "../game/groups.js";
import { shownName } from "../game/names.js";

const OF_A_PLAYER = {
  shares: "the share", "game.costs": "the cost", "game.claims": "the claim", "game.weights": "the votes",
};
const ITEM = /^(shares|game\.(?:costs|claims|weights|worths)), item (\d+)$/;

/** The place, with whose it is behind: "game.costs, item 2 (the cost of medium)". */
export function whoseOf(place, game) {
  const [, list, item] = ITEM.exec(place ?? "") ?? [], i = Number(item) - 1;
  if (!list) return place;
  if (list !== "game.worths") return `${place} (${OF_A_PLAYER[list]} of ${nameOf(game, i)})`;
  return i < 2 ** 16 ? `${place} (the group ${membersOf(i + 1).map((k) => nameOf(game, k)).join(" + ")})` : place;
}

function nameOf(game, i) {
  const name = Array.isArray(game?.names) ? game.names[i] : null;
  return typeof name === "string" && name ? shownName(name) : `player ${i + 1}`;
}
