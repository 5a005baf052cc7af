// The line of a no of `check`, in words: which of the eight conditions fails, and where.
import { Rational } from "../exact/rational.js";
import { fullText } from "../exact/decimals.js";
import { Namer } from "./words.js";

/** What a no says, by the names of the game where it is known. */
export function failureText(line, game) {
  const namer = game && new Namer(game);
  const at = line.level === undefined ? "" : `At level ${line.level}: `;
  const named = namer?.names[Number(line.player) - 1] ?? `player ${line.player}`;
  const player = line.player === undefined ? "" : named;
  const group = !line.coalition ? "" : namer
    ? namer.group(line.coalition.map((i) => Number(i) - 1)).replace(/ together$/, "")
    : `the group ${line.coalition.join(", ")}`;
  const costs = game?.costs, excess = line.excess ? `; its excess is ${fullText(Rational.of(line.excess))}` : "";
  const sentence = {
    1: `The ${costs ? "payments" : "shares"} don’t add to what all together ${costs ? "cost" : "are worth"}.`,
    2: `${player} ${costs ? "pays more" : "gets less"} than alone.`,
    3: `by these shares what ${group} would gain or lose by leaving (its excess) isn’t what the line states.`,
    4: `a weight ${group ? `of ${group}` : `of the bound of ${player}`} is below 1.`,
    5: `the weights at ${player} don’t add to the level’s total.`,
    6: `${player} is said to ${costs ? "pay" : "get"} exactly what it ${costs ? "costs" : "is worth"} alone, `
      + "and that isn’t so (or has no place here).",
    7: `a group that is still open is worse off than the level says${excess}.`,
    8: `Behind the last level the share of ${player} isn’t settled.`,
  }[Number(line.reason)];
  return { condition: Number(line.reason), sentence: at + (sentence ?? "") };
}
