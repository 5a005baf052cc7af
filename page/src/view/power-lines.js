// The power of each voter as lines of cells, to be copied or saved for a spreadsheet.
import { partsOf, voteHeads, votesText } from "../draw/ranges.js";
import { decimal } from "../exact/decimals.js";
import { Rational } from "../exact/rational.js";

const HUNDRED = Rational.of(100);

/** A line for each voter: its votes, their part of all, and its power in per cent and exactly. */
export function powerLines(game, shares, { mark }) {
  const parts = partsOf(game), percent = (value) => decimal(value.times(HUNDRED), 1, { mark, grouped: false });
  const heads = voteHeads(game).map((head) => (head === "of all" ? "of all, %" : head));
  return [["Voter", ...heads, "Power, %", "Power, exact"], ...game.shown.map((name, i) => [
    name, ...game.ballots.flatMap(({ votes }, b) => [votesText(votes[i]), percent(parts[b][i])]),
    percent(shares[i]), String(shares[i]),
  ])];
}
