// What a line says, as a table: who gets or pays how much, beside what each claims, needs or is worth alone.
import { Rational } from "../exact/rational.js";
import { ruleName } from "../tell/rule-names.js";
import { plural } from "../game/words.js";
import { el } from "./dom.js";
import { MOVED } from "./format.js";

/** The shares of a line, and the numbers of its game beside them; null where it has none that can be shown. */
export function lineTable({ answer, shares: texts }, game, format) {
  if (!game || !texts) return null;
  const shares = texts.map(Rational.of), column = format.column(shares), context = contextOf(game, format);
  const exact = (share) => !format.isExact(share) && el("small", { class: "exact" }, String(share));
  const cell = (...parts) => el("td", { class: "number" }, parts);
  const rows = shares.map((share, i) => el("tr", {}, el("th", { scope: "row" }, game.shown[i]),
    context && cell(context.texts[i]), cell(column[i], exact(share))));
  const heads = [game.costs ? "Who pays" : "Who gets", context?.title, "By the line"].filter(Boolean);
  const head = el("tr", {}, heads.map((title, k) => el("th", { scope: "col", class: k ? "number" : "" }, title)));
  const all = el("tr", { class: "sum" }, el("th", { scope: "row" }, "together"), context && cell(context.sum),
    cell(column.at(-1)));
  return el("div", {}, el("p", {}, sentenceOf(answer, game, format)),
    el("div", { class: "scroll" }, el("table", { class: "shares small" }, el("thead", {}, head),
      el("tbody", {}, rows), el("tfoot", {}, all))),
    format.isMoved(shares) && el("p", { class: "hint" }, `${MOVED} The fractions are exact.`));
}

function sentenceOf(answer, game, format) {
  const whole = {
    bankruptcy: () => ` of an estate of ${format.show(game.single)}`,
    voting: () => ` of votes with a quota of ${game.single}`,
  }[game.kind]?.() ?? "";
  const name = ruleName(answer, game.perHead), the = /^Bird/.test(name) ? "" : "the ";
  return `What the line says: ${the}${name}${whole}, for ${plural(game.n, "player")}.`;
}

/** What each brings, and its sum where one may add it up. */
function contextOf(game, { show, column }) {
  const titles = { bankruptcy: "Claim", airport: "Each use needs", voting: "Votes" };
  if (game.kind === "voting") {
    return { title: titles.voting, texts: game.amounts.map(String), sum: String(Rational.sum(game.amounts)) };
  }
  if (game.kind === "bankruptcy") {
    const texts = column(game.amounts);
    return { title: titles.bankruptcy, texts, sum: texts.at(-1) };
  }
  if (game.kind === "airport") return { title: titles.airport, texts: game.amounts.map(show), sum: "" };
  if (game.isMarket()) return null;
  return { title: game.costs ? "Costs alone" : "Worth alone", texts: game.own.map(show), sum: "" };
}
