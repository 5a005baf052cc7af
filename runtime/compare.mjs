// Divisions of a game side by side, for a program that asks: the excesses of all groups from the greatest, and which of
// two treats the worst-off groups better.
import { shortText } from "../page/src/exact/decimals.js";
import { Rational } from "../page/src/exact/rational.js";
import { membersOf } from "../page/src/game/groups.js";
import { Untold } from "../page/src/tell/answers.js";
import { divisionsTold } from "../page/src/tell/divisions.js";
import { Namer } from "../page/src/tell/words.js";
import { listsOf } from "../page/src/work/compare.js";

const MOST_PLAYERS = 16;
const SHOWN = 8; // of a long row of equal places, the first and the last

/** Points {title, shares}, two, or one to list its excesses. `isAll` asks for all places and not only those up to the
 * first that differs. An entry of a list is a group's mask, its name, its excess, and that as it is told; in a gap of
 * the `places` null stands. */
export function compareDivisions(game, points, { isAll = false }) {
  if (game.n > MOST_PLAYERS) {
    throw new Untold(`the groups of ${game.n} players are too many to list: the limit is ${MOST_PLAYERS} players`);
  }
  const { unit = 1n, lists = points.map(() => []) } = listsOf(game, points.map(({ shares }) => shares), MOST_PLAYERS);
  const [first, second = first] = lists, place = first.findIndex(({ excess }, k) => excess !== second[k].excess);
  const namer = new Namer(game), places = placesOf(first.length, place, isAll);
  const entry = ({ mask, excess }) => {
    const value = new Rational(excess, unit);
    return [mask, namer.group(membersOf(mask)), String(value), shortText(value)];
  };
  const shown = lists.map((list) => places.map((k) => (k === null ? null : entry(list[k]))));
  const told = points.length === 2 ? divisionsTold(game, points, { unit, lists, place }) : {};
  return { places: places.map((k) => (k === null ? null : k + 1)), lists: shown, ...told };
}

/** The places that are shown, from 0: all, or those up to the one that differs. */
function placesOf(count, differs, isAll) {
  const places = Array.from({ length: isAll || differs < 0 ? count : differs + 1 }, (_, k) => k);
  if (isAll || places.length <= 2 * SHOWN) return places;
  return [...places.slice(0, SHOWN), null, ...places.slice(-SHOWN)];
}
