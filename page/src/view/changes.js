// Who pays or gets what before and after a change, by several rules: a table, and what is said of each rule.
import { Rational } from "../exact/rational.js";
import { fractionText } from "../exact/decimals.js";
import { columnHead, el } from "./dom.js";
import { movedText, signedSteps, totalsOf, withSum } from "./format.js";

/** What a rule makes of it: the shares before and after, and the changes of what is shown, as texts, and of the whole,
 * in steps. `shown` are the steps that are shown of the shares before, if these are a part of a column. */
export function changesOf({ title, before, after, leaving, ...rule }, rows, format, shown) {
  const [old, fresh] = [before, after].map((shares) => totalsOf(rows, shares.map(Rational.of)));
  const differences = fresh.map((value, r) => value.minus(old[r]));
  const isMoved = [old, fresh].some((totals) => format.isMoved(totals, rows));
  const steps = [shown ?? format.steps(old, rows), format.steps(fresh, rows)];
  const texts = [...steps.map((own) => format.texts(withSum(own))), signedSteps(steps[1], steps[0], format.text)];
  const [sumBefore, sumAfter] = steps.map((own) => withSum(own).at(-1));
  return { ...rule, title, differences, leaving, isMoved, texts, whole: sumAfter - sumBefore };
}

/** `parts` are the heads of the three columns of each rule; `hasExact`: exact changes stand in small print. */
export function changesTable(columns, { rows, game, format, hasExact = true }, parts = ["before", "after", "change"]) {
  const name = el("th", { scope: "col", rowspan: "2" }, game.costs ? "Who pays" : "Who gets");
  const titles = columns.map((column) => {
    return el("th", { scope: "colgroup", colspan: "3", class: "number" }, columnHead(column));
  });
  const cells = (r) => columns.flatMap(({ texts, differences }) => texts.map((text, k) => {
    const exact = hasExact && k === 2 && r < rows.length && !format.isExact(differences[r]) && differences[r];
    return el("td", { class: k === 2 ? "number change" : "number" }, text[r],
      exact && el("small", { class: "exact" }, fractionText(exact)));
  }));
  const lines = [...rows.map(({ label }) => label), "together"].map((label, r) => {
    return el("tr", { class: label === "together" ? "sum" : "" }, el("th", { scope: "row" }, label), cells(r));
  });
  const heads = columns.flatMap(() => parts).map((part) => el("th", { scope: "col", class: "number" }, part));
  return [el("div", { class: "scroll" }, el("table", { class: "shares small overrun" },
    el("thead", {}, el("tr", {}, name, titles), el("tr", {}, heads)),
    el("tbody", {}, lines), leavingRow(columns, format))),
  movedHint(columns, rows, " A change is that of the numbers shown.")];
}

export function movedHint(columns, rows, more = "") {
  return columns.some(({ isMoved }) => isMoved) && el("p", { class: "hint" }, movedText(rows) + more);
}

/** Whether a group does better by itself before, and after. */
function leavingRow(columns, { by }) {
  const text = (found) => (found
    ? el("span", { class: "bad" }, `Yes: ${found.who}, by ${by(Rational.of(found.by))}`)
    : el("span", { class: "good" }, "No"));
  return el("tfoot", {}, el("tr", { class: "verdict" },
    el("th", { scope: "row" }, "Could a group do better alone?"),
    columns.flatMap(({ leaving }) => {
      return [...leaving.map((found) => el("td", { class: "number" }, text(found))), el("td")];
    })));
}
