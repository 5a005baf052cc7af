// Checks a certificate anew: the definitions in whole numbers, and nothing of the program. This folder and
// exact/json.js are all of it.
//
// A reader who doubts goes through the files in this order: reading.js (the document and the form of its certificate),
// coalitions.js, worths.js (what a coalition is worth, and its excess), settled.js, open.js, and the eight conditions
// here. A coalition is the ascending list of its members, counted from 0. A cost is a negative worth, and a payment a
// negative share.
import { OpenByClass, OpenCoalitions } from "./open.js";
import { readDocument, reduced, Refused, textOfFraction } from "./reading.js";
import { SettledPlayers, SettledSpan } from "./settled.js";
import { Point } from "./worths.js";

/** The first condition that fails, with its place as the line of a no has it; null where all hold. */
function firstFailure({ answer, game, shares, mode, levels }) {
  const point = new Point(game, shares);
  const total = point.shares.reduce((sum, share) => sum + share, 0n);
  if (total !== point.worth(point.everyone())) return { reason: 1 };
  const short = point.shares.findIndex((share, i) => share < point.alone[i]);
  if (short >= 0 && answer === "nucleolus") return { player: short + 1, reason: 2 };
  const settled = mode === "span" ? new SettledSpan(point.n) : new SettledPlayers(point.n);
  const open = point.n > 16 ? new OpenByClass(point) : levels.length ? new OpenCoalitions(point) : null;
  const bound = new Set();
  for (const [k, level] of levels.entries()) {
    const failure = levelFailure(answer, point, settled, open, bound, level);
    if (failure) return { ...failure, level: k + 1 };
    for (const { players, weight } of level.bounds) if (weight >= 1n) bound.add(players[0]);
    for (const { players } of level.coalitions) settled.add(players);
    for (const player of bound) settled.add([player]);
  }
  const player = settled.openPlayer();
  return player === null ? null : { player: player + 1, reason: 8 };
}

/** The first of conditions 3 to 7 that the level fails, and where. Players in `bound` have a bound in levels before. */
function levelFailure(answer, point, settled, open, bound, level) {
  const { coalitions, earlier, bounds, total } = level;
  const [num, den] = level.excess; // over the unit it is num * unit / den, perhaps no whole number
  const numbered = (players) => players.map((i) => i + 1);
  for (const { players } of coalitions) {
    if (point.excess(players) * den !== num * point.unit) return { coalition: numbered(players), reason: 3 };
  }
  for (const { players, weight } of coalitions) if (weight < 1n) return { coalition: numbered(players), reason: 4 };
  for (const { players, weight } of bounds) {
    if (weight < 1n && !bound.has(players[0])) return { player: players[0] + 1, reason: 4 };
  }
  const sums = Array(point.n).fill(0n);
  for (const { players, weight } of [...coalitions, ...earlier, ...bounds]) for (const i of players) sums[i] += weight;
  const uneven = sums.findIndex((sum) => sum !== total);
  if (uneven >= 0) return { player: uneven + 1, reason: 5 };
  for (const { players: [i] } of bounds) {
    if (point.shares[i] !== point.alone[i] || answer === "prenucleolus") return { player: i + 1, reason: 6 };
  }
  const e = (num * point.unit) / den; // whole: the coalitions have it
  const most = open.greatest(settled, e);
  return most > e ? { excess: textOfFraction(reduced(most, point.unit)), reason: 7 } : null;
}

/** The answer to a document: {line, failure} with the line that the program's `check` prints, or {refused} in words. */
export function checkAnew(data) {
  try {
    const failure = firstFailure(readDocument(data));
    const line = failure ? { answer: "no", ...failure } : { answer: "yes" };
    const sorted = Object.fromEntries(Object.keys(line).sort().map((key) => [key, line[key]]));
    return { line: JSON.stringify(sorted) + "\n", failure };
  } catch (fault) {
    if (fault instanceof Refused) return { refused: fault.message };
    throw fault;
  }
}
