// Votes on paper: who has most power, what is needed, the power of each, and what the agreed file has instead of votes.
import { neededText } from "../cases/quota.js";
import { partsOf, remarkOn, voteHeads, votesText } from "../draw/ranges.js";
import { fractionText, percentText, shortText, stepsOf } from "../exact/decimals.js";
import { Rational } from "../exact/rational.js";
import { withEscapes } from "../game/names.js";
import { powerLead, powerOf } from "./answer.js";
import { el } from "./dom.js";
import { halves } from "./halves.js";

const ONE = Rational.of(1), HUNDRED = Rational.of(100), WHOLE = 1000n; // tenths of a per cent
const ROUNDED = "Each percentage is rounded by itself, so those of a column may not add up to 100\u202f%.";
const stepsOfPercent = (part) => stepsOf(part.times(HUNDRED), 1);

/** What is needed, as typed and in votes. */
export function neededHint({ typed, reading }, { ballots }) {
  const all = ballots.map((ballot, b) => neededText(b ? typed.secondQuota : typed.quota, ballot, reading.entry));
  const head = typed.secondHead ? ` (${withEscapes(typed.secondHead)})` : "";
  return el("p", {}, all.length > 1 ? `Needed of the first votes: ${all[0]}. Needed of the second votes${head}: `
    + `${all[1]}. A motion has to reach both.` : `Needed: ${all[0]}.`);
}

/** The answer; nothing as long as the power isn't known. */
export function votesOn(view) {
  const { result: { game, points }, format } = view, { ballots } = game, shares = powerOf(points);
  if (!shares) return null;
  const number = (text, kind = "") => el("td", { class: `number ${kind}` }, text), parts = partsOf(game);
  const percent = (value) => percentText(value, format);
  const line = (i) => {
    const remark = remarkOn(i, shares[i], ballots);
    return el("tr", {},
      el("th", { scope: "row" }, game.shown[i], remark && ` (${remark})`),
      ballots.map(({ votes }, b) => [number(votesText(votes[i])), number(percent(parts[b][i]))]),
      number(percent(shares[i]), "strong"), number(fractionText(shares[i])));
  };
  const sum = el("tr", { class: "sum" }, el("th", { scope: "row" }, "together"),
    ballots.map(({ votes }) => [number(votesText(Rational.sum(votes))), number(percent(ONE))]),
    number(percent(ONE), "strong"), el("td"));
  const isOff = [...parts, shares].some((all) => all.map(stepsOfPercent).reduce((sum, one) => sum + one) !== WHOLE);
  return el("section", {}, powerLead(game, shares, format), neededHint(view, game),
    halves(shares.length, ["Who votes", ...voteHeads(game), "Power", "exactly"], line, sum),
    isOff && el("p", { class: "hint" }, ROUNDED));
}

/** What the agreed file has instead of these votes; "" where it has them. */
export function filedText({ kind, amounts, single, ballots: [{ votes, quota }] }) {
  if (kind !== "voting") return "The file has no votes: 1 stands there for each group that wins, and 0 for the others.";
  const k = votes.findIndex((own) => !own.isZero()), by = votes[k].over(amounts[k]);
  const rounded = single.times(by).equals(quota) ? "" : ", and the quota is rounded up";
  if (by.equals(ONE) && !rounded) return "";
  const made = by.less(ONE) ? `taken times ${shortText(ONE.over(by))}` : `divided by ${shortText(by)}`;
  return `In the file votes and quota are ${made}${rounded}: the same groups win, so no answer changes.`;
}
