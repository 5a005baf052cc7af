// What the parties agreed on, as they say it for the sheet to sign: one of the columns, or nothing yet.
import { Rational, ZERO } from "../exact/rational.js";
import { plainPoints } from "../tell/rule-names.js";
import { COSTS } from "./beyond.js";
import { el } from "./dom.js";

const OWN = "proposal";
const CHANGED = "The numbers have changed since something was agreed on, so the sheet says nothing of it. If it still "
  + "holds, choose it again.";

/** The columns that can be agreed on; an own division where it adds to the whole. */
function columnsOf({ result, proposal }) {
  const { game, points = [], beyond } = result ?? {};
  if (!game && beyond?.isAll) return plainPoints(beyond.points, COSTS);
  if (!game || game.ballots || (game.isMarket() && !result.matching)) return [];
  const { totals, shares, verdict } = proposal, isWhole = totals && Rational.sum(totals).equals(game.whole());
  const own = { key: OWN, title: "Own division", totals, shares, verdict };
  const columns = [...plainPoints(points, game), ...(isWhole ? [own] : [])];
  return game.isMarket() ? columns.filter((column) => isByPrices(result, column)) : columns;
}

/** Whether prices bring these shares about: each pair that trades parts its gain, and nobody else has any. */
function isByPrices({ game, matching }, { shares }) {
  const pairs = matching.pairs.map((pair) => pair.map((player) => Number(player) - 1)), parts = [...shares];
  const isParted = pairs.every(([buyer, seller]) => {
    const sum = parts[buyer].plus(parts[seller]);
    parts[buyer] = parts[seller] = ZERO;
    return sum.equals(game.rows[buyer][seller - game.rows.length]);
  });
  return isParted && parts.every((part) => part.isZero());
}

/** By what numbers something was agreed on: by others it is another division. */
function numbersOf({ result, proposal }, key) {
  const { text = listText(result?.beyond) } = result ?? {};
  return key === OWN ? `${text}\n${proposal.totals}` : text;
}

/** The numbers of a list that no document holds. */
const listText = (beyond) => beyond?.isAll && String(beyond.rows.map(({ label, cost, count }) => [label, cost, count]));

/** The column that was agreed on, of these numbers; null for none. */
export function agreedColumn(session, { agreed }) {
  if (!agreed || !numbersOf(session, "")) return null;
  agreed.of ??= numbersOf(session, agreed.key); // of a saved case
  const isSame = agreed.of === numbersOf(session, agreed.key);
  return (isSame && columnsOf(session).find(({ key }) => key === agreed.key)) || null;
}

/** Who agreed on what, in a sentence; "" where nothing is. */
export function agreedText(column) {
  if (!column) return "";
  const { title, note, name } = column, small = title[0].toLowerCase() + title.slice(1);
  const rule = [small, note].filter(Boolean).join(" ");
  return `The parties agreed on: ${rule}${name ? ` (${name})` : ""}.`;
}

/** The choice; `typed.agreed` keeps it, with the numbers that it is of, and `onChoose()` is told. */
export function agreedChoice(session, typed, onChoose) {
  const columns = columnsOf(session), now = agreedColumn(session, typed)?.key ?? "";
  if (!columns.length) return null;
  const isChanged = typed.agreed?.of && typed.agreed.of !== numbersOf(session, typed.agreed.key);
  const choose = ({ target: { value: key } }) => {
    typed.agreed = key ? { key, of: numbersOf(session, key) } : undefined;
    onChoose();
  };
  const ways = [{ key: "", title: "nothing yet" }, ...columns];
  return [el("label", { class: "single" }, el("span", { class: "field" }, "Agreed on"),
    el("select", { "data-cell": "paper.agreed", on: { change: choose } }, ways.map(({ key, title, note }) => {
      return el("option", { value: key, selected: key === now }, [title, note].filter(Boolean).join(" "));
    }))), isChanged && el("p", { class: "note" }, CHANGED)];
}
