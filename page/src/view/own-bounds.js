// Whom an own division gives more than the claim, has pay more than alone, or puts below nothing.
import { Rational } from "../exact/rational.js";
import { namedFirst } from "./own-rows.js";

/** In sentences, "" for nobody; `totals` are those of the rows. */
export function outOfBounds(game, rows, totals) {
  if (!totals) return "";
  const isEstate = game.kind === "bankruptcy", most = (isEstate || game.costs) && mostOf(game, rows);
  const [does, doing] = game.costs ? ["pays", "pay"] : ["gets", "get"];
  const told = (isOut, one, several) => {
    const out = rows.filter((_, r) => isOut(totals[r], r)).map(({ label }) => label), isOne = out.length === 1;
    return out.length > 0 && `${namedFirst(out)} ${isOne ? `${does} ${one}` : `${doing} ${several}`}.`;
  };
  return [
    most && told((total, r) => most[r].less(total), ...(isEstate ? ["more than it claims", "more than they claim"]
      : ["more than alone", "more than alone"])),
    told((total) => total.isNegative(), "less than nothing", "less than nothing"),
  ].filter(Boolean).join(" ");
}

/** What each row claims, or costs by itself; the uses of a runway's row need one runway. */
function mostOf({ kind, amounts, own }, rows) {
  return rows.map(({ players }) => {
    const [i] = players;
    return kind === "bankruptcy" ? amounts[i] : kind === "airport" ? own[i] : Rational.sum(players.map((k) => own[k]));
  });
}
