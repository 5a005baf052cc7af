// What the others pay, or get, if one leaves, and what the one who leaves has to be told.
import { Rational } from "../exact/rational.js";
import { quoted } from "../tell/rule-names.js";
import { changesOf, changesTable } from "./changes.js";
import { el, refill } from "./dom.js";
import { totalsOf } from "./format.js";
import { fillsOfRest } from "./two-fills.js";

/** `view` are {game, rows, format, typed, ask, assumed}; `typed.leaves` keeps who was chosen. */
export function leavingPart(view) {
  const { game, rows, typed, ask } = view;
  if (rows.length < 2) return null;
  const found = el("div", { class: "found", "aria-live": "polite" });
  const work = async () => {
    const row = rows.find(({ label }) => label === typed.leaves);
    if (!row) return refill(found);
    try {
      const { network } = view, answer = await ask("leave", { who: row.players, network });
      const stay = stayOf(answer, row, rows);
      const byFills = await fillsOfRest(view, row.players, stay, ` of the others without ${row.label}`);
      return typed.leaves === row.label && refill(found, leavingParts(answer, row, stay, byFills, view));
    } catch (fault) {
      return fault.message === "stopped" || refill(found, el("p", { class: "bad" }, fault.message));
    }
  };
  const names = ["", ...rows.map(({ label }) => label)];
  const choice = el("select", { "aria-label": "Who leaves?", "data-cell": "leaves", on: { change: (event) => {
    typed.leaves = event.target.value;
    work();
  } } }, names.map((name) => el("option", { value: name, selected: name === typed.leaves }, name || "choose one")));
  const details = el("details", { class: "other leaves", open: Boolean(typed.open?.leaves), on: {
    toggle: () => { typed.open = { ...typed.open, leaves: details.open }; },
  } }, el("summary", {}, "If one leaves"),
  el("p", { class: "hint" }, `What would the others ${game.costs ? "pay" : "get"}? The cells stay as they are.`),
  el("p", { class: "tools" }, el("label", {}, el("span", { class: "field" }, "Who leaves? "), choice)), found);
  if (typed.open?.leaves) work();
  return details;
}

/** The rows of those who stay, by their places among these. */
function stayOf(found, gone, rows) {
  const place = new Map(found.stay.map((i, k) => [i, k]));
  return rows.filter((row) => row !== gone).map((row) => {
    return { ...row, players: row.players.map((i) => place.get(i)) };
  });
}

function leavingParts(found, { label, players }, stay, byFills, view) {
  const isAssumed = view.assumed([found.stay, players]), isGone = found.gone !== undefined;
  const isOther = isGone && found.gone?.rest !== found.rest;
  const through = el("h4", {}, `If the others may still build through the place of ${label}`);
  return [
    isAssumed && el("p", {}, "What the others, or those who leave, have by themselves was filled by the page, and "
      + "nobody has put a number on it."),
    byFills && el("p", {}, byFills),
    isOther && el("p", { class: "note" }, `Some links were filled by ways through the place of ${label}. So it matters `
      + "whether that place can still be used."),
    isOther && through, ...sideParts(found, label, stay, view),
    isOther && el("h4", {}, `If the place of ${label} is gone`),
    ...(!isOther ? [] : found.gone ? sideParts(found.gone, label, stay, view)
      : [el("p", {}, "Then some place has no way to the source.")]),
  ];
}

/** What the others have without the one who leaves, what that means by each rule, and a table of it. */
function sideParts(found, label, stay, view) {
  const { game, rows, format } = view, [verb, cost] = game.costs ? ["pays", "cost"] : ["gets", "gain"];
  const gone = rows.findIndex((row) => row.label === label), columns = found.rules.map((rule) => {
    const steps = format.steps(totalsOf(rows, rule.all.map(Rational.of)), rows), [own] = steps.splice(gone, 1);
    return { ...changesOf(rule, stay, format, steps), own };
  });
  const [whole, rest, alone] = [found.whole, found.rest, found.alone].map(Rational.of);
  const [others, all] = format.apart(rest, whole), adds = whole.minus(rest), size = format.by(adds.abs());
  const does = !adds.isNegative() ? `adds ${size}` : game.costs ? `saves them ${size}` : `takes ${size} away`;
  const facts = `Without ${label} the others ${cost} ${others}, and all together ${all}: ${label} ${does}. Alone `
    + `${label} ${cost}s ${format.show(alone)}.`;
  return [
    el("p", {}, facts),
    ...columns.map((column) => el("p", {}, ofRule(column, { label, verb, alone, game, format }))),
    changesTable(columns, { rows: stay, game, format }),
  ];
}

/** What the one who leaves loses or gains by one rule, and the others together: the numbers that the table shows. */
function ofRule(column, { label, verb, alone, game, format: { text, by, places } }) {
  const [own, shown] = [column.own, column.whole].map((steps) => new Rational(steps, 10n ** BigInt(places)));
  const others = shown.isZero() ? Rational.sum(column.differences) : shown;
  const way = (value) => (value.isNegative() ? "less" : "more");
  const told = (value) => (value.isZero() ? "the same" : `${by(value.abs())} ${way(value)}`);
  const verbs = game.costs ? "pay" : "get";
  return `${quoted(column)}: ${label} ${verb} ${text(column.own)}, and alone ${told(alone.minus(own))}; the others `
    + `together then ${verbs} ${told(others)}.`;
}
